/* The contestants of this side: the library, plain.c and registers.c; the shapes, and the check of their bytes. */
#include "contest.h"
#include <stdlib.h>
#include <string.h>
#include "oarwillow.h"

const size_t shapes[SHAPES][3] = {
    {11, 10, 4096}, {17, 17, 4096}, {5, 5, 512},  {11, 10, 1000}, {7, 5, 100},   {13, 12, 64},  {11, 10, 16},    {61, 60, 4096},
    {127, 127, 512}, {11, 10, 1},   {5, 5, 4096}, {11, 10, 512},  {17, 17, 512}, {61, 60, 512}, {127, 127, 4096},
};
const char *const op_name[OPS] = {"encode", "check", "restore1", "restore2", "intact", "locate", "rewrite", "blank", "blank-loc", "change", "change-s",
                                  "changes", "changes-append", "changes-s", "write", "walk"};

uint8_t refused;
static uint8_t one_lost[129], two_lost[129], none_lost[129];
static size_t got[3];
static size_t length(const struct shape *p) { return (p->k + 2) * p->col; }
static void our_encode(const struct shape *p, uint8_t *slot) { refused |= oarwillow_encode(p->m, p->k, p->b, slot, length(p)); }
static uint8_t found;
static void our_check(const struct shape *p, uint8_t *slot) {
    refused |= oarwillow_check(p->m, p->k, p->b, slot, length(p), &got[0], &got[1], &found);
}
static void our_restore(const struct shape *p, uint8_t *slot, const uint8_t *places) {
    refused |= oarwillow_restore(p->m, p->k, p->b, places, slot, length(p), slot + length(p), 2 * p->col, &got[0], &got[1], &got[2]);
}
static void our_one(const struct shape *p, uint8_t *slot) { our_restore(p, slot, one_lost); }
static void our_two(const struct shape *p, uint8_t *slot) { our_restore(p, slot, two_lost); }
/* The first byte of the first cell, in the next cell the second, ... */
void spoil(const struct shape *p, uint8_t *slot) {
    for (size_t i = 0; i < p->m - 1; i++) slot[p->w * p->col + i * p->b + i % p->b] ^= 0x5a;
}
/* Another answer than the stripe's counts as a refusal, for what is measured would be something else. */
static void our_find(const struct shape *p, uint8_t *slot, uint8_t what, size_t column) {
    refused |= oarwillow_locate(p->m, p->k, p->b, slot, length(p), &found, &got[0]);
    refused |= found != what || got[0] != column;
}
static void our_intact(const struct shape *p, uint8_t *slot) { our_find(p, slot, OARWILLOW_FOUND_INTACT, 129); }
static void our_locate(const struct shape *p, uint8_t *slot) { our_find(p, slot, OARWILLOW_FOUND_COLUMN, p->w); }
static void our_blank(const struct shape *p, uint8_t *slot) { our_check(p, slot), refused |= found != OARWILLOW_FOUND_BLANK; }
static void our_blank_locate(const struct shape *p, uint8_t *slot) { our_find(p, slot, OARWILLOW_FOUND_BLANK, 129); }
static void our_rewrite(const struct shape *p, uint8_t *slot) { refused |= oarwillow_rewrite(p->m, p->k, p->b, slot, length(p), p->w); }
struct cell next_cell(const struct shape *p, enum op op) {
    static uint8_t bytes[2 * 4096];
    static size_t n;
    if (n++ == 0)
        for (size_t j = 0; j < sizeof bytes; j++) bytes[j] = (uint8_t)(j * j >> 3);
    struct cell c = {n % p->k, (n + n / p->k) % (p->m - 1), bytes + n % 4096};
    if (op == CHANGE_S) c.column = 1 + n % (p->k - 1), c.row = p->m - 1 - c.column;
    else if (c.row + c.column == p->m - 1) c.row = (c.row + 1) % (p->m - 1);
    return c;
}
static void our_change_next(const struct shape *p, uint8_t *slot, enum op op) {
    struct cell c = next_cell(p, op);
    refused |= oarwillow_change(p->m, p->k, p->b, slot, length(p), c.column, c.row, c.bytes, p->b);
}
static void our_change(const struct shape *p, uint8_t *slot) { our_change_next(p, slot, CHANGE); }
static void our_change_s(const struct shape *p, uint8_t *slot) { our_change_next(p, slot, CHANGE_S); }
/* The lists are longer than a call takes, and `first` is where its 256 items begin, and their bytes. */
enum { ITEMS = 256, FIRSTS = 4096 };
static size_t list_columns[3][FIRSTS + ITEMS], list_rows[3][FIRSTS + ITEMS], first;
static uint8_t list_bytes[FIRSTS + ITEMS * 4096];
static void make_lists(const struct shape *p) {
    size_t cells = p->k * (p->m - 1);
    uint64_t x = 1;
    for (size_t n = 0; n < sizeof list_bytes; n++) {
        x = x * 6364136223846793005u + 1442695040888963407u;
        list_bytes[n] = (uint8_t)(x >> 56);
        if (n >= FIRSTS + ITEMS) continue;
        size_t s = 1 + n % (p->k - 1), cell[] = {(x >> 33) % cells, n % cells, s * (p->m - 1) + p->m - 1 - s};
        for (int i = 0; i < 3; i++) list_columns[i][n] = cell[i] / (p->m - 1), list_rows[i][n] = cell[i] % (p->m - 1);
    }
}
static void our_list(const struct shape *p, uint8_t *slot, enum op op) {
    const size_t *columns = list_columns[op - CHANGES] + first, *rows = list_rows[op - CHANGES] + first;
    refused |= oarwillow_changes(p->m, p->k, p->b, slot, length(p), columns, ITEMS, rows, ITEMS, list_bytes + first, ITEMS * p->b, &got[0]);
    refused |= got[0] != 256;
    first = (first + 251) % FIRSTS;
}
static void our_calls(const struct shape *p, uint8_t *slot, enum op op) {
    const size_t *columns = list_columns[op - CHANGES] + first, *rows = list_rows[op - CHANGES] + first;
    for (size_t n = 0; n < ITEMS; n++)
        refused |= oarwillow_change(p->m, p->k, p->b, slot, length(p), columns[n], rows[n], list_bytes + first + n * p->b, p->b);
    first = (first + 251) % FIRSTS;
}
static void our_changes(const struct shape *p, uint8_t *slot) { our_list(p, slot, CHANGES); }
static void our_changes_append(const struct shape *p, uint8_t *slot) { our_list(p, slot, CHANGES_APPEND); }
static void our_changes_s(const struct shape *p, uint8_t *slot) { our_list(p, slot, CHANGES_S); }
void calls_any(const struct shape *p, uint8_t *slot) { our_calls(p, slot, CHANGES); }
void calls_append(const struct shape *p, uint8_t *slot) { our_calls(p, slot, CHANGES_APPEND); }
void calls_s(const struct shape *p, uint8_t *slot) { our_calls(p, slot, CHANGES_S); }
uint8_t *stripes, *images, *written;
uint8_t *image_of(uint8_t *of, const uint8_t *slot) { return of + 2 * (slot - stripes); }
size_t image_length(const struct shape *p) { return 8 * (p->k + 3) + length(p); }
void make_image(const struct shape *p, uint8_t *slot) { plain_write(p->m, p->k, p->b, none_lost, slot, image_of(images, slot)); }
static void our_write(const struct shape *p, uint8_t *slot) {
    refused |= oarwillow_write(p->m, p->k, p->b, none_lost, slot, length(p), image_of(written, slot), image_length(p), &got[0]);
    refused |= got[0] != image_length(p);
}
/* Each column that is to be handed out is, and nothing else; the bytes stay where they are. */
static void our_walk(const struct shape *p, uint8_t *slot) {
    size_t place = 0, column, start, n, handed = 0;
    do {
        refused |= oarwillow_walk(image_of(images, slot), image_length(p), &place, &column, &start, &n);
        handed += n;
    } while (column != 129);
    refused |= handed != length(p);
}
void judgings(const struct shape *p, uint8_t *slot) {
    static uint8_t places[129];
    for (size_t t = 0; t < p->k + 3; t++)
        refused |= oarwillow_contents(image_of(images, slot), image_length(p), places, &got[0], &got[1], &got[2]);
    refused |= got[1] != p->k;
}
static void c_write(const struct shape *p, uint8_t *slot) { got[0] = plain_write(p->m, p->k, p->b, none_lost, slot, image_of(written, slot)); }
static void c_walk(const struct shape *p, uint8_t *slot) {
    size_t place = 0, column, start, n, handed = 0;
    do {
        refused |= (uint8_t)plain_walk(image_of(images, slot), image_length(p), &place, &column, &start, &n);
        handed += n;
    } while (column != 129);
    refused |= handed != length(p);
}
static void c_change_next(const struct shape *p, uint8_t *slot, enum op op) {
    struct cell c = next_cell(p, op);
    plain_change(p->m, p->k, p->b, slot, c.column, c.row, c.bytes);
}
static void c_change(const struct shape *p, uint8_t *slot) { c_change_next(p, slot, CHANGE); }
static void c_change_s(const struct shape *p, uint8_t *slot) { c_change_next(p, slot, CHANGE_S); }
static void c_encode(const struct shape *p, uint8_t *slot) { plain_encode(p->m, p->k, p->b, slot); }
static void c_check(const struct shape *p, uint8_t *slot) { plain_check(p->m, p->k, p->b, slot, &got[0], &got[1]); }
static void c_two(const struct shape *p, uint8_t *slot) { plain_restore(p->m, p->k, p->b, p->u, p->v, slot, slot + length(p)); }
static void r_encode(const struct shape *p, uint8_t *slot) { registers_encode(p->m, p->k, p->b, slot); }
static void r_check(const struct shape *p, uint8_t *slot) { registers_check(p->m, p->k, p->b, slot, &got[0], &got[1]); }

struct rival owns[OWNS] = {
    [OURS] = {"ours", PACKED, {our_encode, our_check, our_one, our_two, our_intact, our_locate, our_rewrite, our_blank, our_blank_locate,
                               our_change, our_change_s, our_changes, our_changes_append, our_changes_s, our_write, our_walk}},
    [PLAIN] = {"plain", PACKED, {[ENCODE] = c_encode, [CHECK] = c_check, [TWO] = c_two, [CHANGE] = c_change, [CHANGE_S] = c_change_s, [WRITE] = c_write,
                                [WALK] = c_walk}},
    [REGISTERS] = {"registers", PACKED, {r_encode, r_check}},
};

struct shape shape_of(const size_t *s) {
    struct shape p = {s[0], s[1], s[2], (s[0] - 1) * s[2], 0, 1, s[1] - 2, s[1] / 2};
    p.pitch = (p.col + 63) / 64 * 64;
    for (size_t t = 0; t < 129; t++) {
        none_lost[t] = t < p.k + 2;
        one_lost[t] = t < p.k + 2 && t != p.w;
        two_lost[t] = t < p.k + 2 && t != p.u && t != p.v;
    }
    make_lists(&p);
    return p;
}

/* Two stripes of the code's paper: plain.c, which the others are compared with, is right on them. */
static int plain_is_right(void) {
    static const uint8_t a[] = {1, 2, 4, 8, 0x10, 0x20, 0x15, 0x2a, 0x39, 0x1e};
    static const uint8_t b[] = {0, 0, 0, 0, 0, 0, 0, 1, 1, 0, 1, 1, 0, 0, 0, 1, 1, 1, 1, 0, 0, 1, 0, 1, 1, 1, 0, 1};
    uint8_t s[28] = {0}, bench[8];
    memcpy(s, a, 6), plain_encode(3, 3, 1, s);
    if (memcmp(s, a, sizeof a)) return 0;
    memcpy(s, b, 20), plain_encode(5, 5, 1, s);
    plain_restore(5, 5, 1, 0, 2, s, bench);
    return !memcmp(s, b, sizeof b) && !memcmp(bench, b, 4) && !memcmp(bench + 4, b + 8, 4);
}

/* The library's image and plain.c's are the same bytes, with the map that was asked for, and both walk over it in the same steps, to the stripe's own
   columns; so too with one and with two absent. Both refuse it where a byte of the contents is wrong. */
static int images_agree(const struct shape *p, uint8_t *slot) {
    const uint8_t *maps[] = {none_lost, one_lost, two_lost};
    uint8_t *image = image_of(images, slot), *ours = image_of(written, slot), places[129];
    for (int i = 0; i < 3; i++) {
        size_t n = plain_write(p->m, p->k, p->b, maps[i], slot, image), place[2] = {0}, column[2], start[2], size[2], steps = 0, wrong = 8 + n % (8 * p->k);
        memset(ours, 0x55, image_length(p));
        if (oarwillow_write(p->m, p->k, p->b, maps[i], slot, length(p), ours, n, &got[0]) || got[0] != n || memcmp(image, ours, n)) return 0;
        if (n < image_length(p) && ours[n] != 0x55) return 0;
        if (oarwillow_contents(image, n, places, &got[0], &got[1], &got[2]) || memcmp(places, maps[i], 129)) return 0;
        do {
            if (oarwillow_walk(image, n, &place[0], &column[0], &start[0], &size[0])) return 0;
            if (plain_walk(image, n, &place[1], &column[1], &start[1], &size[1])) return 0;
            if (place[0] != place[1] || column[0] != column[1] || start[0] != start[1] || size[0] != size[1]) return 0;
            if (column[0] != 129 && (size[0] != p->col || memcmp(image + start[0], slot + column[0] * p->col, p->col))) return 0;
            steps++;
        } while (column[0] != 129);
        if (steps != p->k + 3 - (size_t)i) return 0;
        image[wrong] ^= 0x80, place[0] = place[1] = 0;
        if (!oarwillow_walk(image, n, &place[0], &column[0], &start[0], &size[0])) return 0;
        if (!plain_walk(image, n, &place[1], &column[1], &start[1], &size[1])) return 0;
    }
    return 1;
}

const char *own_check(const struct shape *p, uint8_t *slot, uint8_t *good) {
    size_t n = length(p), rows, diagonals;
    uint8_t *bench = slot + n;
    if (!plain_is_right()) return owns[PLAIN].name;
    plain_encode(p->m, p->k, p->b, slot);
    memcpy(good, slot, n);
    for (int r = OURS; r <= REGISTERS; r++) {
        work **run = owns[r].run;
        memset(slot + p->k * p->col, 0x55, 2 * p->col);
        run[ENCODE](p, slot);
        if (memcmp(slot, good, n)) return owns[r].name;
        for (size_t c = 0; c <= p->k + 2; c++) { /* a wrong byte in each column, last in none */
            size_t at = c * p->col + c * 7919 % p->col;
            if (c < p->k + 2) slot[at] ^= 0x11;
            plain_check(p->m, p->k, p->b, slot, &rows, &diagonals);
            run[CHECK](p, slot);
            if (rows != got[0] || diagonals != got[1] || (c == p->k + 2 && rows + diagonals)) return owns[r].name;
            if (c < p->k + 2) slot[at] ^= 0x11;
            if (n > 1 << 20 && c < p->k) c = p->k - 1; /* large stripes: few columns */
        }
        if (run[ONE]) {
            memset(slot + p->w * p->col, 0x55, p->col), memset(bench, 0x55, 2 * p->col);
            run[ONE](p, slot);
            if (memcmp(bench, good + p->w * p->col, p->col) || got[0] != 1 || got[1] != p->w || got[2] != 129) return "restore of one";
            memcpy(slot, good, n);
        }
        if (run[TWO]) {
            memset(slot + p->u * p->col, 0x55, p->col), memset(slot + p->v * p->col, 0x55, p->col), memset(bench, 0x55, 2 * p->col);
            got[0] = 2, got[1] = p->u, got[2] = p->v;
            run[TWO](p, slot);
            if (memcmp(bench, good + p->u * p->col, p->col) || memcmp(bench + p->col, good + p->v * p->col, p->col)) return owns[r].name;
            if (got[0] != 2 || got[1] != p->u || got[2] != p->v) return owns[r].name;
            memcpy(slot, good, n);
        }
        if (run[REWRITE]) {
            run[INTACT](p, slot);
            spoil(p, slot), run[LOCATE](p, slot), spoil(p, slot);
            if (memcmp(slot, good, n) || refused) return "locate";
            memset(slot + p->w * p->col, 0x55, p->col);
            run[REWRITE](p, slot);
            if (memcmp(slot, good, n)) return "rewrite";
        }
        if (run[BLANK]) {
            memset(slot, 0, n);
            run[BLANK](p, slot), run[BLANK_LOCATE](p, slot);
            memcpy(slot, good, n);
        }
        if (run[CHANGE]) {
            /* a stripe whose cells were changed is that of its data */
            for (int n = 0; n < 64; n++) run[CHANGE](p, slot), run[CHANGE_S](p, slot);
            uint8_t *changed = malloc(n);
            memcpy(changed, slot, n);
            plain_encode(p->m, p->k, p->b, changed);
            int wrong = memcmp(slot, changed, n) || !memcmp(slot, good, n);
            free(changed);
            if (wrong) return "change";
            memcpy(slot, good, n);
        }
        if (run[CHANGES]) { /* a list leaves the stripe that calls of change leave */
            uint8_t *changed = malloc(n);
            int wrong = 0;
            for (enum op op = CHANGES; op <= CHANGES_S; op++) {
                memcpy(changed, good, n), memcpy(slot, good, n);
                first = 0, our_calls(p, changed, op);
                first = 0, our_list(p, slot, op);
                wrong |= memcmp(slot, changed, n) || !memcmp(slot, good, n);
            }
            free(changed);
            if (wrong) return "changes";
            memcpy(slot, good, n);
        }
        if (run[WRITE]) { /* what is timed leaves the image that plain.c makes, and goes over it */
            if (!images_agree(p, slot)) return "an image";
            make_image(p, slot), memset(image_of(written, slot), 0x55, image_length(p));
            run[WRITE](p, slot), run[WALK](p, slot), judgings(p, slot);
            if (memcmp(image_of(written, slot), image_of(images, slot), image_length(p)) || memcmp(slot, good, n)) return "write";
        }
        if (refused) return "an answer";
    }
    return 0;
}
