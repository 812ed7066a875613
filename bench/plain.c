/* EVENODD in plain C, cell by cell; and shelf images. */
#include "contest.h"
#include <string.h>

static void add(uint8_t *restrict cell, const uint8_t *restrict other, size_t b) {
    for (size_t j = 0; j < b; j++) cell[j] ^= other[j];
}

/* Adds row i of the data columns other than u and v. */
static void add_row(uint8_t *cell, size_t m, size_t k, size_t b, size_t u, size_t v, const uint8_t *stripe, size_t i) {
    for (size_t t = 0; t < k; t++)
        if (t != u && t != v) add(cell, stripe + (t * (m - 1) + i) * b, b);
}

/* Adds diagonal i of the data columns other than u and v. */
static void add_diagonal(uint8_t *cell, size_t m, size_t k, size_t b, size_t u, size_t v, const uint8_t *stripe, size_t i) {
    for (size_t t = 0; t < k; t++) {
        size_t r = (i + m - t) % m;
        if (r != m - 1 && t != u && t != v) add(cell, stripe + (t * (m - 1) + r) * b, b);
    }
}

void plain_encode(size_t m, size_t k, size_t b, uint8_t *stripe) {
    uint8_t *h = stripe + k * (m - 1) * b, *d = h + (m - 1) * b, s[4096];
    memset(s, 0, b);
    add_diagonal(s, m, k, b, k, k, stripe, m - 1);
    for (size_t i = 0; i < m - 1; i++) {
        memset(h + i * b, 0, b);
        add_row(h + i * b, m, k, b, k, k, stripe, i);
        memcpy(d + i * b, s, b);
        add_diagonal(d + i * b, m, k, b, k, k, stripe, i);
    }
}

void plain_check(size_t m, size_t k, size_t b, const uint8_t *stripe, size_t *rows, size_t *diagonals) {
    const uint8_t *h = stripe + k * (m - 1) * b, *d = h + (m - 1) * b;
    uint8_t s[4096], cell[4096];
    memset(s, 0, b);
    add_diagonal(s, m, k, b, k, k, stripe, m - 1);
    *rows = *diagonals = 0;
    for (size_t i = 0; i < m - 1; i++) {
        memset(cell, 0, b);
        add_row(cell, m, k, b, k, k, stripe, i);
        *rows += memcmp(cell, h + i * b, b) != 0;
        memcpy(cell, s, b);
        add_diagonal(cell, m, k, b, k, k, stripe, i);
        *diagonals += memcmp(cell, d + i * b, b) != 0;
    }
}

/* Restores data columns u < v into the halves of the bench: S is the sum of both parity columns, and the walk goes from the row of v
   whose diagonal meets u outside the array, down by v - u, to the row outside. */
void plain_restore(size_t m, size_t k, size_t b, size_t u, size_t v, const uint8_t *stripe, uint8_t *bench) {
    const uint8_t *h = stripe + k * (m - 1) * b, *d = h + (m - 1) * b;
    uint8_t *first = bench, *second = bench + (m - 1) * b, s[4096];
    memset(s, 0, b);
    for (size_t i = 0; i < m - 1; i++) {
        add(s, h + i * b, b);
        add(s, d + i * b, b);
    }
    for (size_t r = m - 1 - (v - u); r != m - 1; r = (r + m - (v - u)) % m) {
        size_t i = (r + v) % m, other = r + (v - u);
        uint8_t *cell = second + r * b;
        memcpy(cell, s, b);
        if (i != m - 1) add(cell, d + i * b, b);
        add_diagonal(cell, m, k, b, u, v, stripe, i);
        if (other % m != m - 1) add(cell, first + other % m * b, b);
        memcpy(first + r * b, cell, b);
        add(first + r * b, h + r * b, b);
        add_row(first + r * b, m, k, b, u, v, stripe, r);
    }
}

/* The difference of the old and the new bytes goes to all parity cells that depend on the cell. */
void plain_change(size_t m, size_t k, size_t b, uint8_t *stripe, size_t column, size_t row, const uint8_t *cell) {
    uint8_t *old = stripe + (column * (m - 1) + row) * b, *h = stripe + k * (m - 1) * b, *d = h + (m - 1) * b, difference[4096];
    size_t own = (row + column) % m;
    memcpy(difference, cell, b);
    add(difference, old, b);
    memcpy(old, cell, b);
    add(h + row * b, difference, b);
    for (size_t i = own == m - 1 ? 0 : own; i < (own == m - 1 ? m - 1 : own + 1); i++) add(d + i * b, difference, b);
}

static uint8_t *put(uint8_t *at, size_t n) {
    at[0] = (uint8_t)n, at[1] = (uint8_t)(n >> 8);
    return at + 2;
}

static size_t two(const uint8_t *at) { return (size_t)at[0] | (size_t)at[1] << 8; }

/* The header, an entry for each column, and the columns that are present. Gives the image's length. */
size_t plain_write(size_t m, size_t k, size_t b, const uint8_t places[129], const uint8_t *stripe, uint8_t *image) {
    size_t column = (m - 1) * b, body = 8 + 8 * (k + 2);
    uint8_t *at = put(put(put(put(image, m), k), b), 0);
    for (size_t t = 0; t < k + 2; t++) {
        size_t offset = places[t] ? body : 0;
        at = put(put(put(put(at, t), places[t] != 0), offset), offset >> 16);
        if (!places[t]) continue;
        memcpy(image + body, stripe + t * column, column);
        body += column;
    }
    return body;
}

/* Judges all of the image but the bodies, and finds the first present column at or after the place, both in one loop over the entries.
   Not 0 where the image is malformed. */
int plain_walk(const uint8_t *image, size_t image_len, size_t *place, size_t *column, size_t *start, size_t *length) {
    static const uint8_t prime[128] = {
        [3] = 1,  [5] = 1,  [7] = 1,  [11] = 1, [13] = 1, [17] = 1, [19] = 1, [23] = 1, [29] = 1,  [31] = 1,  [37] = 1,  [41] = 1,  [43] = 1,  [47] = 1,  [53] = 1,
        [59] = 1, [61] = 1, [67] = 1, [71] = 1, [73] = 1, [79] = 1, [83] = 1, [89] = 1, [97] = 1, [101] = 1, [103] = 1, [107] = 1, [109] = 1, [113] = 1, [127] = 1,
    };
    *column = 129, *start = *length = 0;
    if (image_len < 8) return 1;
    size_t m = two(image), k = two(image + 2), b = two(image + 4);
    if (two(image + 6) || m > 127 || !prime[m] || k == 0 || k > m || b == 0 || b > 4096) return 1;
    if (image_len < 8 + 8 * (k + 2) || *place > k + 2) return 1;
    size_t body = 8 + 8 * (k + 2), found = 129, from = 0;
    for (size_t t = 0; t < k + 2; t++) {
        const uint8_t *entry = image + 8 + 8 * t;
        size_t state = two(entry + 2), offset = two(entry + 4) | two(entry + 6) << 16;
        if (two(entry) != t || state > 1 || offset != (state ? body : 0)) return 1;
        if (!state) continue;
        if (found == 129 && t >= *place) found = t, from = body;
        body += (m - 1) * b;
    }
    if (body != image_len) return 1;
    *place = found == 129 ? k + 2 : found + 1;
    if (found != 129) *column = found, *start = from, *length = (m - 1) * b;
    return 0;
}
