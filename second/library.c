/* Answers the requests of the second program with the library, through its C interface. Reads one request a line from standard
   input and writes one answer a line. Every buffer and every list that is lent stands between guard bytes; a guard that changed is
   reported and ends the run, and so is one that may only be read and is not as it was. Marks are no calls of the C interface: their
   requests are answered with an empty line. A map is handed over as its places alone. Bytes that a request tells by their count and a
   seed are drawn here, and an image that it tells by its shape, its map and a seed is written by the library itself. */
#include <inttypes.h>
#include <stdint.h>
#include <stdio.h>
#include <stdlib.h>
#include <string.h>
#include "../include/oarwillow.h"

enum { GUARD = 64, FIELDS = 9, MOST_SHOWN = 4194304 };

/* What is lent: so many bytes between guards, and a copy of them as they were. What is lent again later is not freed. */
typedef struct {
    uint8_t *room, *bytes, *before;
    size_t length;
    int again;
} Buffer;

/* Bytes for anything; they are aligned as what malloc gives. */
static Buffer lend(size_t n)
{
    Buffer b = {malloc(2 * n + 2 * GUARD), NULL, NULL, n, 0};
    if (!b.room) {
        fprintf(stderr, "no memory\n");
        exit(2);
    }
    b.bytes = b.room + GUARD;
    memset(b.room, 0xa5, GUARD);
    memset(b.bytes + n, 0xa5, GUARD);
    b.before = b.bytes + n + GUARD;
    return b;
}

static int digit(char c)
{
    if (c >= '0' && c <= '9')
        return c - '0';
    if (c >= 'a' && c <= 'f')
        return c - 'a' + 10;
    fprintf(stderr, "not a hex digit: %c\n", c);
    exit(2);
}

/* So many bytes from a seed: each is the top of the next number. */
static Buffer drawn(size_t n, uint64_t seed)
{
    Buffer b = lend(n);
    uint64_t x = seed;
    for (size_t i = 0; i < n; i++) {
        x = x * 6364136223846793005u + 1442695040888963407u;
        b.bytes[i] = (uint8_t)(x >> 56);
    }
    memcpy(b.before, b.bytes, n);
    return b;
}

/* The bytes of a field: hex, or their count and a seed with `*` between; `-` is no bytes. */
static Buffer buffer(const char *field)
{
    const char *star = strchr(field, '*');
    if (star)
        return drawn((size_t)strtoull(field, NULL, 10), strtoull(star + 1, NULL, 10));
    size_t n = strcmp(field, "-") == 0 ? 0 : strlen(field) / 2;
    Buffer b = lend(n);
    for (size_t i = 0; i < n; i++)
        b.bytes[i] = (uint8_t)(digit(field[2 * i]) << 4 | digit(field[2 * i + 1]));
    memcpy(b.before, b.bytes, n);
    return b;
}

/* The numbers of a field, which are parted by commas; `-` is none. */
static Buffer list(const char *field)
{
    size_t n = strcmp(field, "-") != 0;
    for (const char *c = field; *c; c++)
        n += *c == ',';
    Buffer b = lend(n * sizeof(size_t));
    for (size_t i = 0; i < n; i++) {
        char *end;
        size_t value = (size_t)strtoull(field, &end, 10);
        memcpy(b.bytes + i * sizeof value, &value, sizeof value);
        field = end + 1;
    }
    memcpy(b.before, b.bytes, b.length);
    return b;
}

static const size_t *numbers(Buffer b)
{
    return (const size_t *)(const void *)b.bytes;
}

static size_t count(Buffer b)
{
    return b.length / sizeof(size_t);
}

/* Gives back what could be written. */
static void done(Buffer b)
{
    for (size_t i = 0; i < GUARD; i++)
        if (b.room[i] != 0xa5 || b.bytes[b.length + i] != 0xa5) {
            fprintf(stderr, "a byte outside a lent buffer was written\n");
            exit(1);
        }
    if (!b.again)
        free(b.room);
}

/* Gives back what could only be read. */
static void kept(Buffer b)
{
    if (memcmp(b.bytes, b.before, b.length) != 0) {
        fprintf(stderr, "a byte of what may only be read was written\n");
        exit(1);
    }
    done(b);
}

/* Many bytes are printed as their count and their hash, FNV-1a with 64 bits. */
static void print_bytes(Buffer b)
{
    static const char hex[] = "0123456789abcdef";
    if (b.length > MOST_SHOWN) {
        uint64_t hash = 0xcbf29ce484222325;
        for (size_t i = 0; i < b.length; i++)
            hash = (hash ^ b.bytes[i]) * 0x100000001b3;
        printf("%zu#%016" PRIx64, b.length, hash);
        return;
    }
    if (b.length == 0)
        putchar('-');
    for (size_t i = 0; i < b.length; i++) {
        putchar(hex[b.bytes[i] >> 4]);
        putchar(hex[b.bytes[i] & 15]);
    }
}

static size_t number(const char *field)
{
    return (size_t)strtoull(field, NULL, 10);
}

/* A place that is absent gets 0 or, by turns, another byte that is not 1. */
static void map_of(const char *field, uint8_t places[129])
{
    static const uint8_t absent[] = {0, 2, 255, 0, 129};
    for (size_t i = 0; i < 129; i++)
        places[i] = field[i] == '1' ? 1 : absent[i % sizeof absent];
}

/* The bytes of a field of an image. After `@` stand m, k, b, a map and a seed, parted by commas: it is the image that the library
   writes of a stripe from this seed, into a buffer of just its length, which is all zero before. If it writes another one or none, what is
   then asked of that image is answered otherwise. The last such image is lent again if it is told again. */
static Buffer image_of(const char *field)
{
    static char *last;
    static Buffer image;
    size_t m, k, b, present = 0, length = 77;
    uint8_t places[129];
    const char *map;
    char *end;
    Buffer s;
    if (field[0] != '@')
        return buffer(field);
    if (last && strcmp(last, field) == 0)
        return image;
    if (last) {
        free(last);
        free(image.room);
    }
    last = strdup(field);
    m = (size_t)strtoull(field + 1, &end, 10);
    k = (size_t)strtoull(end + 1, &end, 10);
    b = (size_t)strtoull(end + 1, &end, 10);
    map = end + 1;
    map_of(map, places);
    for (size_t i = 0; i < 129; i++)
        present += map[i] == '1';
    s = drawn((k + 2) * (m - 1) * b, strtoull(map + 130, NULL, 10));
    image = lend(8 + 8 * (k + 2) + present * (m - 1) * b);
    image.again = 1;
    memset(image.bytes, 0, image.length);
    oarwillow_write(m, k, b, places, s.bytes, s.length, image.bytes, image.length, &length);
    kept(s);
    done(image);
    memcpy(image.before, image.bytes, image.length);
    return image;
}

/* What was said of an image. */
static void print_image(unsigned r, size_t m, size_t k, size_t b, const uint8_t places[129])
{
    printf("%u %zu %zu %zu ", r, m, k, b);
    for (size_t i = 0; i < 129; i++)
        printf("%u", places[i]);
}

static void answer(char **f)
{
    size_t m = f[1] ? number(f[1]) : 0, k = f[2] ? number(f[2]) : 0, b = f[3] ? number(f[3]) : 0;
    uint8_t places[129];
    if (strcmp(f[0], "encode") == 0) {
        Buffer s = buffer(f[4]);
        printf("%u ", oarwillow_encode(m, k, b, s.bytes, s.length));
        print_bytes(s);
        done(s);
    } else if (strcmp(f[0], "check") == 0) {
        Buffer s = buffer(f[4]);
        size_t rows = 77, diagonals = 77;
        uint8_t found = 77;
        unsigned r = oarwillow_check(m, k, b, s.bytes, s.length, &rows, &diagonals, &found);
        printf("%u %zu %zu %u", r, rows, diagonals, found);
        kept(s);
    } else if (strcmp(f[0], "restore") == 0) {
        Buffer s = buffer(f[5]), w = buffer(f[6]);
        size_t restored = 77, first = 77, second = 77;
        map_of(f[4], places);
        unsigned r = oarwillow_restore(m, k, b, places, s.bytes, s.length, w.bytes, w.length, &restored, &first, &second);
        printf("%u %zu %zu %zu ", r, restored, first, second);
        print_bytes(w);
        kept(s);
        done(w);
    } else if (strcmp(f[0], "locate") == 0) {
        Buffer s = buffer(f[4]);
        uint8_t found = 77;
        size_t column = 77;
        unsigned r = oarwillow_locate(m, k, b, s.bytes, s.length, &found, &column);
        printf("%u %u %zu", r, found, column);
        kept(s);
    } else if (strcmp(f[0], "rewrite") == 0) {
        Buffer s = buffer(f[4]);
        printf("%u ", oarwillow_rewrite(m, k, b, s.bytes, s.length, number(f[5])));
        print_bytes(s);
        done(s);
    } else if (strcmp(f[0], "change") == 0) {
        Buffer s = buffer(f[4]), cell = buffer(f[7]);
        printf("%u ", oarwillow_change(m, k, b, s.bytes, s.length, number(f[5]), number(f[6]), cell.bytes, cell.length));
        print_bytes(s);
        done(s);
        kept(cell);
    } else if (strcmp(f[0], "changes") == 0) {
        Buffer s = buffer(f[4]), columns = list(f[5]), rows = list(f[6]), cells = buffer(f[7]);
        size_t item = 77;
        unsigned r = oarwillow_changes(m, k, b, s.bytes, s.length, numbers(columns), count(columns), numbers(rows), count(rows),
                                       cells.bytes, cells.length, &item);
        printf("%u %zu ", r, item);
        print_bytes(s);
        done(s);
        kept(columns);
        kept(rows);
        kept(cells);
    } else if (strcmp(f[0], "show") == 0) {
        Buffer s = buffer(f[5]), w = buffer(f[6]);
        size_t from = 77, start = 77, length = 77;
        map_of(f[4], places);
        unsigned r = oarwillow_show(m, k, b, places, s.bytes, s.length, w.bytes, w.length, number(f[7]), &from, &start, &length);
        printf("%u %zu %zu %zu", r, from, start, length);
        kept(s);
        kept(w);
    } else if (strcmp(f[0], "gaps") == 0) {
        size_t present = 77, highest = 77, absent = 77, first = 77, second = 77;
        map_of(f[2], places);
        unsigned r = oarwillow_gaps(number(f[1]), places, &present, &highest, &absent, &first, &second);
        printf("%u %zu %zu %zu %zu %zu", r, present, highest, absent, first, second);
    } else if (strcmp(f[0], "read") == 0) {
        Buffer image = image_of(f[1]), s = buffer(f[2]);
        memset(places, 77, sizeof places);
        m = k = b = 77;
        unsigned r = oarwillow_read(image.bytes, image.length, s.bytes, s.length, places, &m, &k, &b);
        print_image(r, m, k, b, places);
        putchar(' ');
        print_bytes(s);
        kept(image);
        done(s);
    } else if (strcmp(f[0], "contents") == 0) {
        Buffer image = image_of(f[1]);
        memset(places, 77, sizeof places);
        m = k = b = 77;
        unsigned r = oarwillow_contents(image.bytes, image.length, places, &m, &k, &b);
        print_image(r, m, k, b, places);
        kept(image);
    } else if (strcmp(f[0], "write") == 0) {
        Buffer s = buffer(f[5]), image = buffer(f[6]);
        size_t length = 77;
        map_of(f[4], places);
        unsigned r = oarwillow_write(m, k, b, places, s.bytes, s.length, image.bytes, image.length, &length);
        printf("%u %zu ", r, length);
        print_bytes(image);
        kept(s);
        done(image);
    } else if (strcmp(f[0], "walk") == 0) {
        Buffer image = image_of(f[1]);
        size_t place = number(f[2]), column = 77, start = 77, length = 77;
        unsigned r = oarwillow_walk(image.bytes, image.length, &place, &column, &start, &length);
        printf("%u %zu %zu %zu %zu", r, place, column, start, length);
        kept(image);
    } else if (strcmp(f[0], "lengths") == 0) {
        printf("%zu %zu", oarwillow_stripe_length(m, k, b), oarwillow_bench_length(m, b));
    }
    putchar('\n');
}

int main(void)
{
    char *line = NULL;
    size_t room = 0;
    ssize_t n;
    while ((n = getline(&line, &room, stdin)) > 0) {
        char *fields[FIELDS] = {0}, *rest = line;
        if (line[n - 1] == '\n')
            line[n - 1] = 0;
        for (int i = 0; i < FIELDS && rest; i++)
            fields[i] = strsep(&rest, " ");
        answer(fields);
    }
    free(line);
    return 0;
}
