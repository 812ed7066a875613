/* Measures by painting how much stack each call of the C interface takes: stack [LIMIT]

   Every call is made on a stack of its own, of which all words hold a pattern before. The lowest word that does not hold it afterwards
   is the deepest that was written, and all from there to the stack's end is counted. So the frame of the harness is counted in, and so is
   what memcpy and memset take; nothing is deducted. The line `harness` says what is counted where no call is made. Not counted is what a
   dynamic linker takes when it looks for memcpy and memset at their first call: they are called before. Below the stack stands a page that
   nobody may touch.

   The calls are made at shapes, and with columns absent or wrong or all bytes zero, that take every way through the library: cells on
   both sides of 128 bytes, columns on both sides of 1,024 bytes, stripes on both sides of 256 KiB, few columns and many, up to the largest
   stripe. Cells are changed on the diagonal of S and off it, one at a time and in lists of none, one and 256. Images are written with all
   columns present, with some absent and with all, and walked from the first column, from the last, from the end and from beyond it. Each
   call must answer the number that the rules give, check and locate must find what the rules say of the stripe, a list's item must be the
   one refused, a write must answer the image's length, and a walk must hand out the right column.

   It prints a line for each call: the most bytes, and the first shape and case that took them. With a LIMIT it fails if they are more
   than LIMIT for any call; otherwise the calls at some of the shapes are then made again, each in a thread of 128 KiB. */
#include <pthread.h>
#include <stdint.h>
#include <stdio.h>
#include <stdlib.h>
#include <string.h>
#include <sys/mman.h>
#include <ucontext.h>
#include <unistd.h>
#include "../include/oarwillow.h"

enum { STACK = 256 << 10, THREAD = 128 << 10, COLUMNS = 129, LONGEST = 126 * 4096, NONE = 129, ITEMS = 256, NO_ITEM = 256 };
enum call {
    HARNESS, ENCODE, CHECK, RESTORE, LOCATE, REWRITE, CHANGE, CHANGES, SHOW, WRITE, CONTENTS, READ, WALK, GAPS, STRIPE_LENGTH,
    BENCH_LENGTH, CALLS
};
static const char *const names[CALLS] = {
    "harness",            "oarwillow_encode", "oarwillow_check",   "oarwillow_restore", "oarwillow_locate",
    "oarwillow_rewrite",  "oarwillow_change", "oarwillow_changes", "oarwillow_show",    "oarwillow_write",
    "oarwillow_contents", "oarwillow_read",   "oarwillow_walk",    "oarwillow_gaps",    "oarwillow_stripe_length",
    "oarwillow_bench_length"};

/* A case: a call, what it is given, and the number that it must answer, or the length. */
struct given {
    enum call call;
    const char *words;
    size_t m, k, b, column, row;
    size_t stripe_len, bench_len, image_len, cell_len;
    size_t columns_len, rows_len, cells_len; /* of a list of changes */
    size_t item;                             /* the one that it must say is refused */
    size_t place; /* from which a walk takes its step */
    size_t told;  /* the column that it must hand out, or the length that a write must answer */
    size_t changed[3]; /* places: a column's is made absent, another present */
    size_t wrong[2];   /* columns: the first is wrong in row 0 and lane 0, the second in row 1 */
    size_t lane;       /* and in this lane */
    int blank;         /* the stripe that is read is all zero */
    unsigned number;
};
static struct given asked, worst[CALLS];
static size_t most[CALLS], cases;

static uint8_t *stripe, *zeros, *bench, *image, *cells, cell[4097], places[129];
static size_t columns[ITEMS + 1], rows[ITEMS + 1], results[5];
static uint8_t found;
static unsigned answer;

static void die(const char *what)
{
    fprintf(stderr, "stack: %s: %s at %zu,%zu,%zu, %s\n", what, names[asked.call], asked.m, asked.k, asked.b, asked.words);
    exit(1);
}

/* The call itself. What it is given and what it writes stands elsewhere than on the stack. */
static void perform(void)
{
    const struct given *g = &asked;
    const uint8_t *read = g->blank ? zeros : stripe;
    size_t *r = results;
    switch (g->call) {
    case ENCODE:
        answer = oarwillow_encode(g->m, g->k, g->b, stripe, g->stripe_len);
        break;
    case CHECK:
        answer = oarwillow_check(g->m, g->k, g->b, read, g->stripe_len, r, r + 1, &found);
        break;
    case RESTORE:
        answer = oarwillow_restore(g->m, g->k, g->b, places, stripe, g->stripe_len, bench, g->bench_len, r, r + 1, r + 2);
        break;
    case LOCATE:
        answer = oarwillow_locate(g->m, g->k, g->b, read, g->stripe_len, &found, r);
        break;
    case REWRITE:
        answer = oarwillow_rewrite(g->m, g->k, g->b, stripe, g->stripe_len, g->column);
        break;
    case CHANGE:
        answer = oarwillow_change(g->m, g->k, g->b, stripe, g->stripe_len, g->column, g->row, cell, g->cell_len);
        break;
    case CHANGES:
        answer = oarwillow_changes(g->m, g->k, g->b, stripe, g->stripe_len, columns, g->columns_len, rows, g->rows_len, cells,
                                   g->cells_len, r);
        break;
    case SHOW:
        answer = oarwillow_show(g->m, g->k, g->b, places, stripe, g->stripe_len, bench, g->bench_len, g->column, r, r + 1, r + 2);
        break;
    case WRITE:
        answer = oarwillow_write(g->m, g->k, g->b, places, stripe, g->stripe_len, image, g->image_len, r);
        break;
    case WALK:
        answer = oarwillow_walk(image, g->image_len, r, r + 1, r + 2, r + 3);
        break;
    case READ:
        answer = oarwillow_read(image, g->image_len, stripe, g->stripe_len, places, r, r + 1, r + 2);
        break;
    case CONTENTS:
        answer = oarwillow_contents(image, g->image_len, places, r, r + 1, r + 2);
        break;
    case STRIPE_LENGTH:
        answer = (unsigned)oarwillow_stripe_length(g->m, g->k, g->b);
        break;
    case BENCH_LENGTH:
        answer = (unsigned)oarwillow_bench_length(g->m, g->b);
        break;
    case GAPS:
        answer = oarwillow_gaps(g->k, places, r, r + 1, r + 2, r + 3, r + 4);
        break;
    default:
        answer = 0;
    }
}

/* ---- the stack */

static const uint64_t pattern = 0x9b3e71d5c86fa24d;
static uint64_t *bottom, *end;

static void paint(uint64_t *from)
{
    for (uint64_t *word = from; word < end; word++)
        *word = pattern;
}

static void make_stack(void)
{
    size_t page = (size_t)sysconf(_SC_PAGESIZE);
    uint8_t *p = mmap(NULL, page + STACK, PROT_READ | PROT_WRITE, MAP_PRIVATE | MAP_ANONYMOUS, -1, 0);
    if (p == MAP_FAILED || mprotect(p, page, PROT_NONE) != 0)
        die("no stack");
    bottom = (uint64_t *)(void *)(p + page);
    end = bottom + STACK / sizeof *bottom;
    paint(bottom);
}

/* Makes the call on that stack. */
static void on_stack(void)
{
    static ucontext_t here, there;
    if (getcontext(&there) != 0)
        die("no context");
    there.uc_stack.ss_sp = bottom;
    there.uc_stack.ss_size = STACK;
    there.uc_link = &here;
    makecontext(&there, perform, 0);
    if (swapcontext(&here, &there) != 0)
        die("no context");
}

/* How many bytes of it were written. It is painted again. */
static size_t written(void)
{
    uint64_t *deepest = bottom;
    while (deepest < end && *deepest == pattern)
        deepest++;
    paint(deepest);
    return (size_t)(end - deepest) * sizeof *end;
}

static void *start(void *nothing)
{
    perform();
    return nothing;
}

/* Makes the call in a thread of 128 KiB. */
static void in_thread(void)
{
    pthread_attr_t small;
    pthread_t thread;
    if (pthread_attr_init(&small) != 0 || pthread_attr_setstacksize(&small, THREAD) != 0)
        die("no small thread");
    if (pthread_create(&thread, &small, start, NULL) != 0 || pthread_join(thread, NULL) != 0)
        die("no thread");
    pthread_attr_destroy(&small);
}

static void (*run)(void) = on_stack;

/* ---- a case */

static size_t column_length(void)
{
    return (asked.m - 1) * asked.b;
}

/* A case of that call at the shape of the last one: all columns present, and none wrong. */
static void ask(enum call call, const char *words, unsigned number)
{
    size_t m = asked.m, k = asked.k, b = asked.b;
    asked = (struct given){.call = call, .words = words, .m = m, .k = k, .b = b, .number = number};
    asked.stripe_len = (k + 2) * column_length();
    asked.bench_len = 2 * column_length();
    asked.cell_len = b;
    asked.item = NO_ITEM;
    asked.told = call == WALK ? NONE : 0;
    for (size_t i = 0; i < 3; i++)
        asked.changed[i] = NONE;
    for (size_t i = 0; i < 2; i++)
        asked.wrong[i] = NONE;
}

/* Makes columns wrong, or right again. */
static void spoil(void)
{
    if (asked.wrong[0] != NONE)
        stripe[asked.wrong[0] * column_length()] ^= 1;
    if (asked.wrong[1] != NONE)
        stripe[asked.wrong[1] * column_length() + asked.b + asked.lane] ^= 2;
}

/* What a check or a locate must find. */
static unsigned to_be_found(void)
{
    if (answer != 0)
        return OARWILLOW_FOUND_REFUSED;
    if (asked.blank)
        return OARWILLOW_FOUND_BLANK;
    if (asked.wrong[0] == NONE && asked.wrong[1] == NONE)
        return OARWILLOW_FOUND_INTACT;
    return asked.call == CHECK ? OARWILLOW_FOUND_BROKEN : OARWILLOW_FOUND_COLUMN;
}

/* Makes the call. The stripe is a valid one before and afterwards: a rewrite that is not refused makes it so, and after a change or a
   list of them the columns are wrong as they were before. */
static void measure(void)
{
    size_t bytes;
    memset(places, 0, sizeof places);
    memset(places, 1, asked.k + 2);
    for (size_t i = 0; i < 3; i++)
        if (asked.changed[i] != NONE)
            places[asked.changed[i]] ^= 1;
    spoil();
    found = 77;
    results[0] = asked.call == WALK ? asked.place : 77;
    run();
    bytes = written();
    if (answer != asked.number)
        die("another answer than the rules give");
    if ((asked.call == CHECK || asked.call == LOCATE) && found != to_be_found())
        die("something else found than the rules say");
    if (asked.call == CHANGES && results[0] != asked.item)
        die("another item than the rules give");
    if (asked.call == WRITE && results[0] != asked.told)
        die("another length than the rules give");
    if (asked.call == WALK && results[1] != asked.told)
        die("another column than the rules give");
    if (asked.call != REWRITE || answer != 0)
        spoil();
    if (most[asked.call] < bytes) {
        most[asked.call] = bytes;
        worst[asked.call] = asked;
    }
    cases++;
}

/* Calls with columns wrong. */
static void with_wrong(enum call call, const char *words, size_t first, size_t second, size_t lane, unsigned number)
{
    ask(call, words, number);
    asked.wrong[0] = first;
    asked.wrong[1] = second;
    asked.lane = lane;
    measure();
}

/* Calls with a stripe that is all zero. */
static void with_zeros(enum call call)
{
    ask(call, "blank", 0);
    asked.blank = 1;
    measure();
}

/* Rewrites a column, of a stripe with columns wrong. */
static void with_column(const char *words, size_t column, size_t first, size_t second, size_t lane, unsigned number)
{
    ask(REWRITE, words, number);
    asked.column = column;
    asked.wrong[0] = first;
    asked.wrong[1] = second;
    asked.lane = lane;
    measure();
}

/* Changes a cell, of a stripe with a column wrong or none. */
static void with_cell(const char *words, size_t column, size_t row, size_t wrong)
{
    ask(CHANGE, words, 0);
    asked.column = column;
    asked.row = row;
    asked.wrong[0] = wrong;
    memset(cell, (int)(stripe[column * column_length() + row * asked.b] ^ 0x5a), asked.cell_len);
    measure();
}

/* A list of so many changes, of every data column; of 16 items one is on the diagonal of S, if there is one with so many columns. Two
   items of a cell have other bytes. */
static void list(const char *words, size_t items, unsigned number)
{
    ask(CHANGES, words, number);
    asked.columns_len = asked.rows_len = items;
    asked.cells_len = items * asked.b;
    for (size_t n = 0; n < items; n++) {
        columns[n] = n % asked.k;
        rows[n] = n % 16 == 1 && columns[n] > 0 ? asked.m - 1 - columns[n] : n % (asked.m - 1);
        memset(cells + n * asked.b, (int)(stripe[columns[n] * column_length() + rows[n] * asked.b] ^ (0x5a + n)), asked.b);
    }
}

/* Makes so many changes, of a stripe with a column wrong or none. */
static void with_items(const char *words, size_t items, size_t wrong)
{
    list(words, items, 0);
    asked.wrong[0] = wrong;
    measure();
}

/* A list of so many changes, one of which is refused for its column or for its row. */
static void with_bad_item(const char *words, size_t items, size_t item, unsigned number)
{
    list(words, items, number);
    *(number == 7 ? &columns[item] : &rows[item]) = number == 7 ? asked.k : asked.m - 1;
    asked.item = item;
    measure();
}

/* Calls with other places present, and perhaps a column wrong. */
static void with_map(enum call call, const char *words, size_t x, size_t y, size_t z, size_t wrong, unsigned number)
{
    ask(call, words, number);
    asked.changed[0] = x;
    asked.changed[1] = y;
    asked.changed[2] = z;
    asked.wrong[0] = wrong;
    measure();
}

static void put(size_t at, size_t bytes, size_t number)
{
    for (size_t i = 0; i < bytes; i++)
        image[at + i] = (uint8_t)(number >> 8 * i);
}

/* Makes the image of the stripe without columns x and y. Its length is given back. */
static size_t make_image(size_t x, size_t y)
{
    size_t c = column_length(), at = 8 + 8 * (asked.k + 2);
    put(0, 2, asked.m);
    put(2, 2, asked.k);
    put(4, 2, asked.b);
    put(6, 2, 0);
    for (size_t i = 0; i < asked.k + 2; i++) {
        int present = i != x && i != y;
        put(8 + 8 * i, 2, i);
        put(10 + 8 * i, 2, (size_t)present);
        put(12 + 8 * i, 4, present ? at : 0);
        if (present) {
            memcpy(image + at, stripe + i * c, c);
            at += c;
        }
    }
    return at;
}

/* Reads the image of the stripe without columns x and y, with so many bytes more, into a stripe of so many less; or its contents. */
static void with_image(enum call call, const char *words, size_t x, size_t y, size_t more, size_t less, unsigned number)
{
    ask(call, words, number);
    asked.image_len = make_image(x, y) + more;
    asked.stripe_len -= less;
    measure();
}

/* Takes a step from a place of an image of this length, which must hand out this column. */
static void with_step(const char *words, size_t length, size_t place, size_t column, unsigned number)
{
    ask(WALK, words, number);
    asked.image_len = length;
    asked.place = place;
    asked.told = column;
    measure();
}

/* Writes the image of the stripe without columns x, y and z into a buffer of so many bytes more, or one less. */
static void with_write(const char *words, size_t x, size_t y, size_t z, size_t more, int less)
{
    size_t present = asked.k + 2 - (x != NONE) - (y != NONE) - (z != NONE), length;
    ask(WRITE, words, less ? 16 : 0);
    length = 8 + 8 * (asked.k + 2) + present * column_length();
    asked.changed[0] = x;
    asked.changed[1] = y;
    asked.changed[2] = z;
    asked.image_len = length + more - (less != 0);
    asked.told = less ? 0 : length;
    measure();
}

/* ---- the cases */

/* Every column of the data gets bytes from a seed; the case is the encode that makes the stripe valid. */
static void encode(size_t m, size_t k, size_t b)
{
    static uint64_t x = 88172645463325252u;
    asked.m = m;
    asked.k = k;
    asked.b = b;
    ask(ENCODE, "random data", 0);
    for (size_t i = 0; i < k * column_length(); i += sizeof x) {
        x ^= x << 13, x ^= x >> 7, x ^= x << 17;
        memcpy(stripe + i, &x, sizeof x);
    }
    measure();
}

static void at_shape(size_t m, size_t k, size_t b)
{
    size_t last = k - 1, h = k, d = k + 1;
    encode(m, k, b);

    with_wrong(CHECK, "intact", NONE, NONE, 0, 0);
    with_wrong(CHECK, "a data column wrong", 0, NONE, 0, 0);
    with_wrong(CHECK, "D wrong", d, NONE, 0, 0);
    with_zeros(CHECK);

    with_map(RESTORE, "none absent", NONE, NONE, NONE, NONE, 0);
    with_map(RESTORE, "none absent, H wrong", NONE, NONE, NONE, h, 5);
    with_map(RESTORE, "none absent, D wrong", NONE, NONE, NONE, d, 5);
    with_map(RESTORE, "a data column absent", 0, NONE, NONE, NONE, 0);
    with_map(RESTORE, "the last data column absent", last, NONE, NONE, NONE, 0);
    with_map(RESTORE, "H absent", h, NONE, NONE, NONE, 0);
    with_map(RESTORE, "D absent", d, NONE, NONE, NONE, 0);
    with_map(RESTORE, "a data column absent, H wrong", 0, NONE, NONE, h, 5);
    with_map(RESTORE, "H absent, D wrong", h, NONE, NONE, d, 5);
    with_map(RESTORE, "D absent, a data column wrong", d, NONE, NONE, 0, 5);
    if (k > 1)
        with_map(RESTORE, "two data columns absent", 0, last, NONE, NONE, 0);
    with_map(RESTORE, "a data column and H absent", last, h, NONE, NONE, 0);
    with_map(RESTORE, "a data column and D absent", last, d, NONE, NONE, 0);
    with_map(RESTORE, "H and D absent", h, d, NONE, NONE, 0);
    with_map(RESTORE, "three absent", 0, h, d, NONE, 4);

    with_wrong(LOCATE, "intact", NONE, NONE, 0, 0);
    with_wrong(LOCATE, "a data column wrong", 0, NONE, 0, 0);
    with_wrong(LOCATE, "the last data column wrong", NONE, last, b - 1, 0);
    with_wrong(LOCATE, "H wrong", h, NONE, 0, 0);
    with_wrong(LOCATE, "D wrong", d, NONE, 0, 0);
    with_wrong(LOCATE, "two wrong in one lane", 0, h, 0, 6);
    if (b > 1)
        with_wrong(LOCATE, "two wrong in two lanes", 0, h, b - 1, 6);
    with_zeros(LOCATE);

    with_column("a data column wrong", 0, 0, NONE, 0, 0);
    with_column("the last data column wrong", last, NONE, last, b - 1, 0);
    with_column("H wrong", h, h, NONE, 0, 0);
    with_column("D wrong", d, d, NONE, 0, 0);
    with_column("a data column, H wrong", 0, h, NONE, 0, 5);
    with_column("H, D wrong", h, NONE, d, b - 1, 5);
    with_column("D, a data column wrong", d, 0, NONE, 0, 5);
    with_column("intact", last, NONE, NONE, 0, 0);

    with_cell("off the diagonal of S", 0, 0, NONE);
    with_cell("the last cell of the data", last, m - 2, NONE);
    with_cell("off the diagonal of S, it is wrong", 0, 0, 0);
    with_cell("off the diagonal of S, D wrong", 0, 0, d);
    if (k > 1) {
        with_cell("on the diagonal of S", last, m - 1 - last, NONE);
        with_cell("on the diagonal of S, H wrong", 1, m - 2, h);
    }
    with_wrong(CHECK, "changed", NONE, NONE, 0, 0);

    with_items("no items", 0, NONE);
    with_items("one item", 1, NONE);
    with_items("256 items", ITEMS, NONE);
    with_items("256 items, a data column wrong", ITEMS, 0);
    with_items("256 items, D wrong", ITEMS, d);
    with_bad_item("the last of 256 has no column", ITEMS, ITEMS - 1, 7);
    with_bad_item("the last of 256 has no row", ITEMS, ITEMS - 1, 11);
    list("257 items", ITEMS + 1, 15);
    measure();
    with_wrong(CHECK, "changed by lists", NONE, NONE, 0, 0);

    with_map(SHOW, "present", NONE, NONE, NONE, NONE, 0);
    with_map(SHOW, "restored", 0, d, NONE, NONE, 0);
    with_map(SHOW, "three absent", 0, h, d, NONE, 4);
    with_map(GAPS, "none absent", NONE, NONE, NONE, NONE, 0);
    with_map(GAPS, "three absent", 0, h, d, NONE, 0);

    for (enum call call = CONTENTS; call <= READ; call++) {
        with_image(call, "whole", NONE, NONE, 0, 0, 0);
        with_image(call, "two absent", 0, h, 0, 0, 0);
        with_image(call, "a byte too many", NONE, NONE, 1, 0, 8);
    }
    with_image(READ, "a stripe too short", NONE, NONE, 0, 1, 2);

    size_t length = make_image(NONE, NONE);
    with_step("none absent, the first", length, 0, 0, 0);
    with_step("none absent, the last", length, d, d, 0);
    with_step("none absent, the end", length, k + 2, NONE, 0);
    with_step("none absent, beyond the end", length, k + 3, NONE, 8);
    with_step("a byte too few", length - 1, 0, NONE, 8);
    length = make_image(0, d);
    with_step("two absent, the first", length, 0, 1, 0);
    with_step("two absent, no more", length, d, NONE, 0);

    with_write("none absent", NONE, NONE, NONE, 0, 0);
    with_write("a byte more", NONE, NONE, NONE, 1, 0);
    with_write("a data column absent", 0, NONE, NONE, 0, 0);
    with_write("three absent", last, h, d, 0, 0);
    with_write("a byte too few", NONE, NONE, NONE, 0, 1);
    with_write("a byte too few, two absent", 0, d, NONE, 0, 1);
    if (k == 1)
        with_write("all absent", 0, h, d, 0, 0);

    ask(STRIPE_LENGTH, "a shape", (unsigned)((k + 2) * (m - 1) * b));
    measure();
    ask(BENCH_LENGTH, "a shape", (unsigned)(2 * (m - 1) * b));
    measure();
}

/* What is refused for a number, a length, a place, a cell or a list. */
static void refusals(void)
{
    static const size_t faults[][4] = {{9, 3, 16, 1}, {5, 6, 16, 12}, {5, 3, 4097, 13}};
    encode(5, 3, 16);
    for (enum call call = ENCODE; call <= WRITE; call++) {
        for (size_t i = 0; i < sizeof faults / sizeof *faults; i++) {
            asked.m = faults[i][0], asked.k = faults[i][1], asked.b = faults[i][2];
            ask(call, "a wrong number", (unsigned)faults[i][3]);
            measure();
        }
        asked.m = 5, asked.k = 3, asked.b = 16;
        ask(call, "a stripe too short", 2);
        asked.stripe_len--;
        measure();
    }
    for (enum call call = RESTORE; call <= SHOW; call += SHOW - RESTORE) {
        ask(call, "a bench too short", 3);
        asked.bench_len--;
        measure();
        with_map(call, "a place too many", 128, NONE, NONE, NONE, 9);
    }
    for (enum call call = REWRITE; call <= SHOW; call++) {
        if (call == CHANGES)
            continue;
        ask(call, "no such column", 7);
        asked.column = 5;
        measure();
    }
    with_map(WRITE, "a place too many", 128, NONE, NONE, NONE, 9);
    ask(WRITE, "no buffer", 16);
    measure();
    ask(CHANGE, "H is no data", 7);
    asked.column = 3;
    measure();
    ask(CHANGE, "no such row", 11);
    asked.row = 4;
    measure();
    for (size_t length = 15; length <= 17; length += 2) {
        ask(CHANGE, "a cell of another length", 14);
        asked.cell_len = length;
        measure();
    }
    for (size_t item = 0; item < 3; item++) {
        with_bad_item("an item has no column", 3, item, 7);
        with_bad_item("an item has no row", 3, item, 11);
    }
    for (size_t length = 2; length <= 4; length += 2) {
        list("lists of other counts", 3, 15);
        asked.rows_len = length;
        measure();
        list("bytes for other counts", 3, 15);
        asked.cells_len = length * 16;
        measure();
    }
    for (size_t length = 47; length <= 49; length += 2) {
        list("bytes for no count", 3, 15);
        asked.cells_len = length;
        measure();
    }
    list("bytes alone", 0, 15);
    asked.cells_len = 16;
    measure();
    for (enum call call = CONTENTS; call <= WALK; call++) {
        ask(call, "no image", 8);
        measure();
    }
    asked.m = 9;
    for (enum call call = STRIPE_LENGTH; call <= BENCH_LENGTH; call++) {
        ask(call, "a wrong number", 0);
        measure();
    }
}

int main(int count, char **words)
{
    static const size_t ms[] = {3, 5, 11, 31, 127}, ks[] = {1, 2, 3, 5, 8, 9, 10, 11, 31, 32, 33, 127};
    static const size_t bs[] = {1, 8, 9, 16, 127, 128, 512, 4096};
    size_t limit = count > 1 ? strtoul(words[1], NULL, 10) : SIZE_MAX;
    int over = 0;
    asked.words = "nothing";
    stripe = malloc(COLUMNS * (size_t)LONGEST + 8);
    image = malloc(8 + 8 * COLUMNS + COLUMNS * (size_t)LONGEST + 1);
    bench = malloc(2 * LONGEST);
    zeros = calloc(COLUMNS, LONGEST);
    cells = malloc((ITEMS + 1) * 4096);
    if (!stripe || !image || !bench || !zeros || !cells)
        die("no memory");
    memset(stripe, 1, COLUMNS * (size_t)LONGEST);
    memcpy(image, stripe, COLUMNS * (size_t)LONGEST);
    make_stack();

    ask(HARNESS, "no call", 0);
    measure();
    for (size_t x = 0; x < sizeof ms / sizeof *ms; x++)
        for (size_t y = 0; y < sizeof ks / sizeof *ks; y++)
            for (size_t z = 0; z < sizeof bs / sizeof *bs; z++)
                if (ks[y] <= ms[x])
                    at_shape(ms[x], ks[y], bs[z]);
    refusals();
    for (enum call call = HARNESS; call < CALLS; call++) {
        const struct given *g = &worst[call];
        printf("stack: %-23s %6zu bytes at %zu,%zu,%zu: %s\n", names[call], most[call], g->m, g->k, g->b, g->words);
    }
    printf("stack: %zu calls\n", cases);
    for (enum call call = HARNESS; call < CALLS; call++)
        if (limit < most[call]) {
            fprintf(stderr, "stack: %s takes more than %zu bytes\n", names[call], limit);
            over = 1;
        }
    if (over || limit == SIZE_MAX)
        return over;

    run = in_thread;
    cases = 0;
    for (size_t x = 0; x < sizeof ms / sizeof *ms; x++)
        for (size_t z = 0; z < sizeof bs / sizeof *bs; z++)
            at_shape(ms[x], ms[x] < 33 ? ms[x] : 33, bs[z]);
    printf("stack: %zu calls in threads of %d KiB\n", cases, THREAD >> 10);
    return 0;
}
