/* Calls one operation of one contestant some times, for a count of instructions.
   instructions                                   lists what can be counted: operation, shape, contestants
   instructions m,k,b                             compares the bytes of all contestants at a shape
   instructions m,k,b OPERATION CONTESTANT CALLS  calls */
#include "contest.h"
#include <stdio.h>
#include <stdlib.h>
#include <string.h>

static void fill(uint8_t *bytes, size_t n) {
    uint64_t x = 88172645463325252u;
    for (size_t j = 0; j < n; j += 8) {
        x ^= x << 13, x ^= x >> 7, x ^= x << 17;
        memcpy(bytes + j, &x, 8);
    }
}

int main(int argc, char **argv) {
    for (int op = 0; argc == 1 && op < OPS; op++)
        for (int s = 0; s < SHAPES; s++) {
            printf("%s %zu,%zu,%zu", op_name[op], shapes[s][0], shapes[s][1], shapes[s][2]);
            for (int r = 0; r < OWNS; r++)
                if (owns[r].run[op]) printf(" %s", owns[r].name);
            printf("\n");
        }
    if (argc == 1) return 0;

    size_t s[3];
    if ((argc != 2 && argc != 5) || sscanf(argv[1], "%zu,%zu,%zu", &s[0], &s[1], &s[2]) != 3) return 2;
    struct shape p = shape_of(s);
    size_t size = ((p.k + 4) * p.col + 4095) / 4096 * 4096;
    uint8_t *slot = aligned_alloc(4096, size), *good = aligned_alloc(4096, size);
    fill(slot, size);
    stripes = slot, images = aligned_alloc(4096, size + 4096), written = aligned_alloc(4096, size + 4096);
    if (argc == 2) {
        const char *wrong = own_check(&p, slot, good);
        if (wrong) fprintf(stderr, "instructions: %s is wrong at %s\n", wrong, argv[1]);
        return wrong != 0;
    }

    work *run = 0;
    for (int op = 0; op < OPS; op++)
        for (int r = 0; r < OWNS; r++)
            if (!strcmp(argv[2], op_name[op]) && !strcmp(argv[3], owns[r].name)) run = owns[r].run[op];
    if (!run) return 2;
    plain_encode(p.m, p.k, p.b, slot);
    if (!strcmp(argv[2], op_name[LOCATE])) spoil(&p, slot);
    if (!strcmp(argv[2], op_name[BLANK]) || !strcmp(argv[2], op_name[BLANK_LOCATE])) memset(slot, 0, (p.k + 2) * p.col);
    make_image(&p, slot);
    for (int n = atoi(argv[4]); n > 0; n--) run(&p, slot);
    return refused != 0;
}
