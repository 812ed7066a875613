/* EVENODD with 128 bytes of an output cell in registers and the columns in groups of eight. */
#include "contest.h"

enum { GROUP = 8, BAND = 131072 };

/* Blocks of a cell, from 128 bytes down to one. */
#define LANES(n) __attribute__((vector_size(n), aligned(1), may_alias))
typedef uint8_t l128 LANES(128), l64 LANES(64), l32 LANES(32), l16 LANES(16), l8 LANES(8), l4 LANES(4), l2 LANES(2), l1 LANES(1);
#define EACH_BLOCK(DO)                                        \
    for (; j + 128 <= b; j += 128) DO(l128)                   \
    if (j + 64 <= b) { DO(l64) j += 64; }                     \
    if (j + 32 <= b) { DO(l32) j += 32; }                     \
    if (j + 16 <= b) { DO(l16) j += 16; }                     \
    if (j + 8 <= b) { DO(l8) j += 8; }                        \
    if (j + 4 <= b) { DO(l4) j += 4; }                        \
    if (j + 2 <= b) { DO(l2) j += 2; }                        \
    if (j < b) { DO(l1) }
#define SUM(type)                                                                     \
    type acc = from ? *(const type *)(from + j) : (type){0};                          \
    for (size_t t = 0; t < n; t++) acc ^= *(const type *)(cells[t] + j);

/* Writes the sum of `from` (zero where null) and n cells. */
static inline __attribute__((always_inline)) void sum_n(uint8_t *to, const uint8_t *from, const uint8_t **cells, size_t n, size_t b) {
    size_t j = 0;
#define WRITE(type) { SUM(type) *(type *)(to + j) = acc; }
    EACH_BLOCK(WRITE)
}
static void sum(uint8_t *to, const uint8_t *from, const uint8_t **cells, size_t n, size_t b) {
    if (n == GROUP) sum_n(to, from, cells, GROUP, b);
    else sum_n(to, from, cells, n, b);
}

/* Whether the same sum has a byte that is not zero. */
static size_t broken(const uint8_t *from, const uint8_t **cells, size_t n, size_t b) {
    size_t j = 0;
    uint8_t seen = 0;
#define FOLD(type) { SUM(type) seen |= __builtin_reduce_or(acc); }
    EACH_BLOCK(FOLD)
    return seen != 0;
}

/* The cells of row i, and of diagonal i, in columns lo to hi - 1. */
static size_t row(const uint8_t **cells, size_t m, size_t b, const uint8_t *stripe, size_t lo, size_t hi, size_t i) {
    for (size_t t = lo; t < hi; t++) cells[t - lo] = stripe + (t * (m - 1) + i) * b;
    return hi - lo;
}
static size_t diagonal(const uint8_t **cells, size_t m, size_t b, const uint8_t *stripe, size_t lo, size_t hi, size_t i) {
    size_t n = 0;
    for (size_t t = lo; t < hi; t++) {
        size_t r = i < t ? i + m - t : i - t;
        if (r != m - 1) cells[n++] = stripe + (t * (m - 1) + r) * b;
    }
    return n;
}

static size_t end_of(size_t lo, size_t step, size_t end) { return end - lo < step ? end : lo + step; }

static void make_s(uint8_t *s, size_t m, size_t k, size_t b, const uint8_t *stripe) {
    const uint8_t *cells[GROUP];
    for (size_t lo = 0; lo < k; lo += GROUP)
        sum(s, lo ? s : 0, cells, diagonal(cells, m, b, stripe, lo, end_of(lo, GROUP, k), m - 1), b);
}

/* Adds columns lo to hi - 1 to rows `top` to `bottom` - 1 of both parities, which lie at h and d. */
static void add_group(uint8_t *h, uint8_t *d, const uint8_t *s, size_t m, size_t b, const uint8_t *stripe, size_t lo, size_t hi, size_t top,
                      size_t bottom) {
    const uint8_t *cells[GROUP];
    for (size_t i = top; i < bottom; i++, h += b, d += b) {
        sum(h, lo ? h : 0, cells, row(cells, m, b, stripe, lo, hi, i), b);
        sum(d, lo ? d : s, cells, diagonal(cells, m, b, stripe, lo, hi, i), b);
    }
}

void registers_encode(size_t m, size_t k, size_t b, uint8_t *stripe) {
    uint8_t *h = stripe + k * (m - 1) * b, s[4096];
    make_s(s, m, k, b, stripe);
    for (size_t lo = 0; lo < k; lo += GROUP)
        add_group(h, h + (m - 1) * b, s, m, b, stripe, lo, end_of(lo, GROUP, k), 0, m - 1);
}

/* The parity columns are played by a band of rows; the last group is folded and not written. */
void registers_check(size_t m, size_t k, size_t b, const uint8_t *stripe, size_t *rows, size_t *diagonals) {
    const uint8_t *h = stripe + k * (m - 1) * b, *d = h + (m - 1) * b, *cells[GROUP + 1];
    uint8_t s[4096], band[BAND];
    size_t step = BAND / (2 * b), last = (k - 1) / GROUP * GROUP;
    make_s(s, m, k, b, stripe);
    *rows = *diagonals = 0;
    for (size_t top = 0; top < m - 1; top += step) {
        size_t bottom = end_of(top, step, m - 1);
        uint8_t *hs = band, *ds = band + (bottom - top) * b;
        for (size_t lo = 0; lo < last; lo += GROUP) add_group(hs, ds, s, m, b, stripe, lo, lo + GROUP, top, bottom);
        for (size_t i = top; i < bottom; i++, hs += b, ds += b) {
            size_t n = row(cells, m, b, stripe, last, k, i);
            cells[n] = h + i * b;
            *rows += broken(last ? hs : 0, cells, n + 1, b);
            n = diagonal(cells, m, b, stripe, last, k, i);
            cells[n] = d + i * b;
            *diagonals += broken(last ? ds : s, cells, n + 1, b);
        }
    }
}
