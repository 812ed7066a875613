/* Codes of others: ISA-L's P+Q and Reed-Solomon with two parities, jerasure's schedules for EVENODD and Blaum-Roth. */
#include "contest.h"
#include <isa-l/erasure_code.h>
#include <isa-l/raid.h>
#include <jerasure.h>
#include <liberation.h>
#include <stdlib.h>
#include <string.h>

enum { COLUMNS = 127 + 4 };
static void columns(uint8_t **out, uint8_t *slot, size_t n, size_t pitch) {
    for (size_t t = 0; t < n; t++) out[t] = slot + t * pitch;
}

/* ISA-L. P+Q wants columns whose length is a multiple of 32. */
static size_t pq_len(const struct shape *p) { return (p->col + 31) / 32 * 32; }
static volatile int pq_answer;
#define PQ_WORK(name, call)                                      \
    static void name(const struct shape *p, uint8_t *slot) {     \
        void *c[COLUMNS];                                        \
        columns((uint8_t **)c, slot, p->k + 2, p->pitch);        \
        pq_answer = call((int)p->k + 2, (int)pq_len(p), c);      \
    }
PQ_WORK(pq_encode, pq_gen)
PQ_WORK(pq_look, pq_check)

static uint8_t rs_tables[3][127 * 2 * 32]; /* to encode, to restore one, to restore two */
static void rs_survivors(const struct shape *p, enum op op, uint8_t **c) {
    if (op == ONE) c[p->w] = c[p->k];
    if (op == TWO) c[p->u] = c[p->k], c[p->v] = c[p->k + 1];
}
#define RS_WORK(name, op, call)                                                                                         \
    static void name(const struct shape *p, uint8_t *slot) {                                                            \
        uint8_t *c[COLUMNS];                                                                                            \
        columns(c, slot, p->k + 4, p->pitch);                                                                           \
        rs_survivors(p, op, c);                                                                                         \
        call((int)p->col, (int)p->k, op == ONE ? 1 : 2, rs_tables[op == ENCODE ? 0 : op == ONE ? 1 : 2], c,             \
             c + p->k + (op == ENCODE ? 0 : 2));                                                                        \
    }
RS_WORK(rs_encode, ENCODE, ec_encode_data)
RS_WORK(rs_one, ONE, ec_encode_data)
RS_WORK(rs_two, TWO, ec_encode_data)
/* The difference of the old and the new bytes of a cell goes to the same bytes of both parities. */
#define RS_CHANGE(name, op, call)                                                                                       \
    static void name(const struct shape *p, uint8_t *slot) {                                                            \
        static uint8_t difference[4096];                                                                                \
        struct cell c = next_cell(p, op);                                                                               \
        uint8_t *old = slot + c.column * p->pitch + c.row * p->b;                                                       \
        uint8_t *parity[2] = {slot + p->k * p->pitch + c.row * p->b, slot + (p->k + 1) * p->pitch + c.row * p->b};       \
        for (size_t j = 0; j < p->b; j++) difference[j] = old[j] ^ c.bytes[j];                                          \
        memcpy(old, c.bytes, p->b);                                                                                     \
        call((int)p->b, (int)p->k, 2, (int)c.column, rs_tables[0], difference, parity);                                 \
    }
RS_CHANGE(rs_change, CHANGE, ec_encode_data_update)
RS_CHANGE(rs_change_s, CHANGE_S, ec_encode_data_update)
#ifdef __x86_64__
RS_CHANGE(rs_change_sse, CHANGE, ec_encode_data_update_sse)
RS_CHANGE(rs_change_s_sse, CHANGE_S, ec_encode_data_update_sse)
PQ_WORK(pq_encode_sse, pq_gen_sse)
PQ_WORK(pq_look_sse, pq_check_sse)
RS_WORK(rs_encode_sse, ENCODE, ec_encode_data_sse)
RS_WORK(rs_one_sse, ONE, ec_encode_data_sse)
RS_WORK(rs_two_sse, TWO, ec_encode_data_sse)
#else
#define pq_encode_sse 0
#define pq_look_sse 0
#define rs_encode_sse 0
#define rs_one_sse 0
#define rs_two_sse 0
#define rs_change_sse 0
#define rs_change_s_sse 0
#endif

static void rs_prepare(const struct shape *p) {
    static uint8_t a[129 * 127], left[127 * 127], inverse[127 * 127];
    int k = (int)p->k;
    gf_gen_rs_matrix(a, k + 2, k);
    ec_init_tables(k, 2, a + k * k, rs_tables[0]);
    for (int op = ONE; op <= TWO; op++) {
        uint8_t *row[COLUMNS];
        columns(row, a, p->k + 2, p->k);
        rs_survivors(p, op, row);
        for (int t = 0; t < k; t++) memcpy(left + t * k, row[t], p->k);
        gf_invert_matrix(left, inverse, k);
        memcpy(left, inverse + (op == ONE ? p->w : p->u) * p->k, p->k);
        memcpy(left + k, inverse + p->v * p->k, p->k);
        ec_init_tables(k, op == ONE ? 1 : 2, left, rs_tables[op == ONE ? 1 : 2]);
    }
}

/* jerasure. The schedules are of its "smart" kind, made once for a pair m, k. To restore, one entry of its schedule cache is
   filled: a cache for every pair of columns would take hours at k = 127. */
static int **evenodd, **blaum_roth, ***cache;
static void je_encode(const struct shape *p, uint8_t *slot, int **schedule) {
    char *c[COLUMNS];
    columns((uint8_t **)c, slot, p->k + 2, p->col);
    jerasure_schedule_encode((int)p->k, 2, (int)p->m - 1, schedule, c, c + p->k, (int)p->col, (int)p->b);
}
static void je_decode(const struct shape *p, uint8_t *slot, int *lost) {
    char *c[COLUMNS];
    columns((uint8_t **)c, slot, p->k + 4, p->col);
    for (int i = 0; lost[i] >= 0; i++) c[lost[i]] = c[p->k + 2 + i];
    jerasure_schedule_decode_cache((int)p->k, 2, (int)p->m - 1, cache, lost, c, c + p->k, (int)p->col, (int)p->b);
}
static void evenodd_encode(const struct shape *p, uint8_t *slot) { je_encode(p, slot, evenodd); }
static void blaum_roth_encode(const struct shape *p, uint8_t *slot) { je_encode(p, slot, blaum_roth); }
static void evenodd_one(const struct shape *p, uint8_t *slot) { je_decode(p, slot, (int[]){(int)p->w, -1}); }
static void evenodd_two(const struct shape *p, uint8_t *slot) { je_decode(p, slot, (int[]){(int)p->u, (int)p->v, -1}); }

/* The bit matrix of what plain.c computes, read off stripes whose input cells hold one bit each, all different. An input cell of
   column t has the bits of place t; a parity column that stands in for a lost one has the place of that one. */
static int **schedule_of(const struct shape *p, enum op op) {
    size_t m = p->m, k = p->k, w = m - 1, bits = k * w, b = (bits + 7) / 8, outputs = op == ONE ? w : 2 * w;
    uint8_t *stripe = calloc((k + 4) * w, b), *bench = stripe + (k + 2) * w * b, *out = op == ENCODE ? stripe + k * w * b : bench;
    int *matrix = malloc(outputs * bits * sizeof *matrix);
    for (size_t t = 0; t < k; t++) {
        size_t from = op == ONE && t == p->w ? k : op == TWO && t == p->u ? k : op == TWO && t == p->v ? k + 1 : t;
        for (size_t r = 0; r < w; r++) stripe[(from * w + r) * b + (t * w + r) / 8] |= (uint8_t)(1 << (t * w + r) % 8);
    }
    if (op == ENCODE) plain_encode(m, k, b, stripe);
    if (op == TWO) plain_restore(m, k, b, p->u, p->v, stripe, bench);
    for (size_t r = 0; op == ONE && r < w; r++)
        for (size_t t = 0; t <= k; t++)
            for (size_t j = 0; j < b; j++) bench[r * b + j] ^= stripe[(t * w + r) * b + j];
    for (size_t o = 0; o < outputs; o++)
        for (size_t i = 0; i < bits; i++) matrix[o * bits + i] = out[o * b + i / 8] >> i % 8 & 1;
    int **schedule = jerasure_smart_bitmatrix_to_schedule((int)k, op == ONE ? 1 : 2, (int)w, matrix);
    free(matrix);
    free(stripe);
    return schedule;
}
static void je_prepare(const struct shape *p) {
    static size_t m, k;
    if (m == p->m && k == p->k) return;
    m = p->m, k = p->k;
    evenodd = schedule_of(p, ENCODE);
    cache = calloc((k + 2) * (k + 2), sizeof *cache);
    cache[p->w * (k + 2) + p->w] = schedule_of(p, ONE);
    cache[p->u * (k + 2) + p->v] = schedule_of(p, TWO);
    blaum_roth = 0;
    if (k < m) { /* Blaum-Roth has at most w = m - 1 columns */
        int *matrix = blaum_roth_coding_bitmatrix((int)k, (int)m - 1);
        blaum_roth = jerasure_smart_bitmatrix_to_schedule((int)k, 2, (int)m - 1, matrix);
        free(matrix);
    }
}

struct rival others[OTHERS] = {
    [PQ_SSE] = {"pq-sse", PADDED, {pq_encode_sse, pq_look_sse}},
    [PQ] = {"pq", PADDED, {pq_encode, pq_look}},
    [RS_SSE] = {"rs-sse", PADDED, {[ENCODE] = rs_encode_sse, [ONE] = rs_one_sse, [TWO] = rs_two_sse, [CHANGE] = rs_change_sse, [CHANGE_S] = rs_change_s_sse}},
    [RS] = {"rs", PADDED, {[ENCODE] = rs_encode, [ONE] = rs_one, [TWO] = rs_two, [CHANGE] = rs_change, [CHANGE_S] = rs_change_s}},
    [EVENODD] = {"je-evenodd", PACKED, {0}},
    [BLAUM_ROTH] = {"je-blaum", PADDED, {0}},
};

void rivals_prepare(const struct shape *p) {
    rs_prepare(p);
    je_prepare(p);
    int fits = p->b % sizeof(long) == 0; /* what jerasure asks of its packets */
    others[EVENODD].run[ENCODE] = fits ? evenodd_encode : 0;
    others[EVENODD].run[ONE] = fits ? evenodd_one : 0;
    others[EVENODD].run[TWO] = fits ? evenodd_two : 0;
    others[BLAUM_ROTH].run[ENCODE] = fits && blaum_roth ? blaum_roth_encode : 0;
}

const char *rivals_check(const struct shape *p, const uint8_t *stripe, uint8_t *packed, uint8_t *padded) {
    size_t k = p->k, col = p->col;
    for (int r = 0; r < OTHERS; r++) {
        struct rival *x = &others[r];
        size_t pitch = x->pool == PACKED || r == BLAUM_ROTH ? col : p->pitch;
        uint8_t *slot = x->pool == PACKED ? packed : padded, *bench = slot + (k + 2) * pitch;
        memset(slot, 0, (k + 4) * pitch);
        for (size_t t = 0; t < k; t++) memcpy(slot + t * pitch, stripe + t * col, col);
        if (!x->run[ENCODE]) continue;
        x->run[ENCODE](p, slot);
        if (memcmp(slot + k * pitch, stripe + k * col, col)) return x->name; /* all of them have the rows' sum first */
        if (r == EVENODD && memcmp(slot, stripe, (k + 2) * col)) return x->name;
        if (x->run[CHECK]) {
            x->run[CHECK](p, slot);
            if (pq_answer) return x->name;
            slot[p->w * pitch] ^= 1;
            x->run[CHECK](p, slot);
            if (!pq_answer) return x->name;
            slot[p->w * pitch] ^= 1;
        }
        if (x->run[ONE]) {
            memset(bench, 0x55, 2 * pitch);
            memset(slot + p->w * pitch, 0x55, col);
            x->run[ONE](p, slot);
            if (memcmp(bench, stripe + p->w * col, col)) return x->name;
            memcpy(slot + p->w * pitch, stripe + p->w * col, col);
        }
        if (x->run[TWO]) {
            memset(slot + p->u * pitch, 0x55, col);
            memset(slot + p->v * pitch, 0x55, col);
            x->run[TWO](p, slot);
            if (memcmp(bench, stripe + p->u * col, col) || memcmp(bench + pitch, stripe + p->v * col, col)) return x->name;
        }
        if (x->run[CHANGE]) { /* the parities of a stripe whose cells were changed are those of its data */
            x->run[ENCODE](p, slot);
            for (int n = 0; n < 64; n++) x->run[CHANGE](p, slot), x->run[CHANGE_S](p, slot);
            uint8_t *changed = malloc(2 * pitch);
            memcpy(changed, slot + k * pitch, 2 * pitch);
            x->run[ENCODE](p, slot);
            int wrong = memcmp(changed, slot + k * pitch, 2 * pitch);
            free(changed);
            if (wrong) return x->name;
        }
    }
    return 0;
}
