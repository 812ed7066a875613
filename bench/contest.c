/* Benchmark of the library beside other codes: checks bytes first, then prints one table of ratios of time. */
#include "contest.h"
#include <stdio.h>
#include <stdlib.h>
#include <string.h>
#include <time.h>

enum { ROUNDS = 11, POOL = 256 << 20, HOT_NS = 1000000, COLD_NS = 2000000 };

static void die(const char *what, const struct shape *p) {
    fprintf(stderr, "contest: %s is wrong at %zu,%zu,%zu\n", what, p->m, p->k, p->b);
    exit(1);
}

static uint8_t *pools[POOLS], *copies;
static void copy(const struct shape *p, uint8_t *slot) { memcpy(copies + (slot - pools[PACKED]), slot, p->k * p->col); }
/* beside a change: the one cell */
static void copy_cell(const struct shape *p, uint8_t *slot) {
    struct cell c = next_cell(p, CHANGE);
    memcpy(slot + c.column * p->col + c.row * p->b, c.bytes, p->b);
}

/* beside a write and a walk: the image */
static void copy_image(const struct shape *p, uint8_t *slot) { memcpy(image_of(written, slot), image_of(images, slot), image_length(p)); }

enum { FIRST = OWNS, MEMCPY = FIRST + OTHERS, OWN, OWN_CHECK, OWN_CHANGE, OWN_JUDGING, RIVALS };
#ifdef __x86_64__
enum { PQ_TO_REACH = FIRST + PQ_SSE }; /* P+Q with the instructions that the library has too */
#else
enum { PQ_TO_REACH = FIRST + PQ };
#endif
static struct rival rivals[RIVALS] = {
    [MEMCPY] = {"memcpy", PACKED, {copy, copy, copy, copy, copy, copy, copy, copy, copy, copy_cell, copy_cell, [WRITE] = copy_image, [WALK] = copy_image}},
    [OWN] = {"own-encode", PACKED, {0}}, /* main gives it the library's encode beside every other operation */
    [OWN_CHECK] = {"own-check", PACKED, {0}}, /* and this the library's check beside INTACT, BLANK and BLANK_LOCATE */
    [OWN_CHANGE] = {"own-change", PACKED, {[CHANGES] = calls_any, [CHANGES_APPEND] = calls_append, [CHANGES_S] = calls_s}},
    [OWN_JUDGING] = {"own-judging", PACKED, {[WALK] = judgings}},
};

/* The ratio that an operation is to reach, hot; 0 where there is none. */
static double goal(const struct shape *p, enum op op, int rival) {
    int wide = p->b % 128 == 0;
    if (op == ENCODE && rival == PLAIN) return wide ? 1.2 : 0.75;
    if (op == ENCODE && rival == REGISTERS) return wide ? 0.9 : 0;
    if (op == ENCODE && rival == PQ_TO_REACH) return wide ? 1.0 : 0;
    if (op == TWO && rival == FIRST + EVENODD) return 2.0;
    if (op == WRITE) return rival == MEMCPY && wide ? 0.8 : 0;
    if (op == WALK) return 0;
    if (op >= CHANGES) return rival == OWN_CHANGE && ((p->m == 11 && p->b == 4096) || (p->m == 127 && p->b == 512)) ? 1 / 1.1 : 0;
    if (op == INTACT && rival == OWN_CHECK) return wide ? 0.97 : 0; /* 1, but for noise */
    if ((op == BLANK || op == BLANK_LOCATE) && rival == OWN_CHECK) return wide ? 1 / 1.3 : 0;
    if (op == INTACT || op == BLANK || op == BLANK_LOCATE || rival != OWN) return 0;
    if (op == CHANGE) return p->b == 4096 ? (double)((p->m - 1) * p->k) / 8 : 0;
    if (op == CHANGE_S) return p->b == 4096 ? (double)p->k / 4 : 0;
    return op == CHECK ? (wide ? 0.8 : 0) : op == ONE ? 0.45 : op == TWO ? (wide && p->k >= 10 ? 0.8 : 0.5) : wide ? 0.45 : 0;
}

static size_t slot_size(const struct shape *p, enum pool pool) { return (p->k + 4) * (pool == PADDED ? p->pitch : p->col) / 64 * 64 + 64; }

/* Compares every operation that is timed with plain.c, on the first slots of the pools. */
static void check_all(const struct shape *p) {
    size_t n = (p->k + 2) * p->col;
    uint8_t *slot = pools[PACKED], *good = malloc(n);
    const char *wrong = own_check(p, slot, good);
    if (!wrong) wrong = rivals_check(p, good, slot, pools[PADDED]);
    if (wrong) die(wrong, p);
    memcpy(slot, good, n);
    free(good);
}

static uint64_t draw(void) {
    static uint64_t x = 88172645463325252u;
    x ^= x << 13, x ^= x >> 7, x ^= x << 17;
    return x;
}
static double now(void) {
    struct timespec t;
    clock_gettime(CLOCK_THREAD_CPUTIME_ID, &t);
    return (double)t.tv_sec * 1e9 + (double)t.tv_nsec;
}

/* Calls a contestant n times, each on the next slot of its pool, and gives the time of one call. */
static double calls(const struct shape *p, int r, enum op op, int cold, size_t n) {
    static size_t next[POOLS];
    enum pool pool = r != OURS ? rivals[r].pool : op == LOCATE ? WRONG : op == BLANK || op == BLANK_LOCATE ? ZEROS : rivals[r].pool;
    size_t size = slot_size(p, pool), slots = cold ? POOL / size : 1;
    double start = now();
    for (size_t i = 0; i < n; i++) rivals[r].run[op](p, pools[pool] + ++next[pool] % slots * size);
    return (now() - start) / (double)n;
}
/* Best of all rounds. The order within a round is drawn anew each time, since what ran before leaves the caches as it will. */
static void measure(const struct shape *p, enum op op, int cold, double best[RIVALS]) {
    size_t n[RIVALS];
    int order[RIVALS], count = 0;
    for (int r = 0; r < RIVALS; r++) {
        best[r] = 0;
        if (!rivals[r].run[op]) continue;
        order[count++] = r;
        calls(p, r, op, cold, 1);
        double wanted = (cold ? COLD_NS : HOT_NS) / calls(p, r, op, cold, 2);
        n[r] = wanted < 2 ? 2 : (size_t)wanted;
    }
    for (int round = 0; round < ROUNDS; round++)
        for (int i = 0; i < count; i++) {
            int j = i + (int)(draw() % (uint64_t)(count - i)), r = order[j];
            order[j] = order[i], order[i] = r;
            if (!cold) calls(p, r, op, cold, 2);
            double t = calls(p, r, op, cold, n[r]);
            if (best[r] == 0 || t < best[r]) best[r] = t;
        }
    if (refused) die("an answer", p);
}

/* Whether shape s is asked for: all are where no shape is named. */
static int asked(int argc, char **argv, int s) {
    char name[32];
    snprintf(name, sizeof name, "%zu,%zu,%zu", shapes[s][0], shapes[s][1], shapes[s][2]);
    for (int i = 1; i < argc; i++)
        if (!strcmp(argv[i], name)) return 1;
    return argc == 1;
}

int main(int argc, char **argv) {
    static double best[SHAPES][OPS][2][RIVALS];
    for (int i = 0; i < POOLS; i++) pools[i] = aligned_alloc(4096, POOL);
    copies = aligned_alloc(4096, POOL);
    for (size_t j = 0; j < POOL; j += 8) {
        uint64_t x = draw();
        memcpy(pools[PACKED] + j, &x, 8), memcpy(pools[PADDED] + j, &x, 8), memcpy(copies + j, &x, 8);
    }
    memset(pools[ZEROS], 0, POOL);
    stripes = pools[PACKED], images = aligned_alloc(4096, 2 * POOL), written = aligned_alloc(4096, 2 * POOL);
    memset(images, 0, 2 * POOL), memset(written, 0, 2 * POOL);
    memcpy(rivals, owns, sizeof owns);
    for (int op = CHECK; op < OPS; op++) rivals[OWN].run[op] = owns[OURS].run[ENCODE];
    rivals[OWN_CHECK].run[INTACT] = rivals[OWN_CHECK].run[BLANK] = rivals[OWN_CHECK].run[BLANK_LOCATE] = owns[OURS].run[CHECK];
    for (int s = 0; s < SHAPES; s++) {
        if (!asked(argc, argv, s)) continue;
        struct shape p = shape_of(shapes[s]);
        rivals_prepare(&p);
        memcpy(rivals + FIRST, others, sizeof others);
        check_all(&p);
        fprintf(stderr, "%zu,%zu,%zu: bytes equal\n", p.m, p.k, p.b);
        for (size_t i = 0, size = slot_size(&p, PACKED); i < POOL / size; i++) {
            uint8_t *slot = pools[PACKED] + i * size, *wrong = pools[WRONG] + i * size;
            plain_encode(p.m, p.k, p.b, slot);
            memcpy(wrong, slot, size), spoil(&p, wrong);
            make_image(&p, slot);
        }
        for (int op = 0; op < OPS; op++) {
            for (size_t i = 0, size = slot_size(&p, PADDED); op == CHECK && i < POOL / size; i++)
                others[PQ].run[ENCODE](&p, pools[PADDED] + i * size); /* P+Q is to hold in the padded stripes */
            for (int cold = 0; cold < 2; cold++) measure(&p, op, cold, best[s][op][cold]);
        }
    }
    printf("Time of each contestant divided by ours (above 1: ours is faster); - : no such operation there; ! : below the ratio to reach.\n");
    printf("%-14s %-13s %-4s", "", "m,k,b", "");
    for (int r = PLAIN; r < RIVALS; r++) printf(" %11s", rivals[r].name);
    for (int op = 0; op < OPS; op++)
        for (int cold = 0; cold < 2; cold++)
            for (int s = 0; s < SHAPES; s++) {
                if (!asked(argc, argv, s)) continue;
                struct shape p = shape_of(shapes[s]);
                char name[32];
                snprintf(name, sizeof name, "%zu,%zu,%zu", p.m, p.k, p.b);
                printf("\n%-14s %-13s %-4s", op_name[op], name, cold ? "cold" : "hot");
                for (int r = PLAIN; r < RIVALS; r++) {
                    double *t = best[s][op][cold], ratio = t[r] / t[OURS];
                    if (t[r] == 0) printf(" %10s ", "-");
                    else printf(" %10.2f%c", ratio, !cold && ratio < goal(&p, op, r) ? '!' : ' ');
                }
            }
    printf("\n");
}
