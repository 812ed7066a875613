/* What the parts of the benchmark share. */
#ifndef CONTEST_H
#define CONTEST_H
#include <stddef.h>
#include <stdint.h>

/* The code of plain.c and registers.c. A stripe is k data columns, H and D, each of m-1 cells of b bytes. */
void plain_encode(size_t m, size_t k, size_t b, uint8_t *stripe);
void plain_check(size_t m, size_t k, size_t b, const uint8_t *stripe, size_t *rows, size_t *diagonals);
void plain_restore(size_t m, size_t k, size_t b, size_t u, size_t v, const uint8_t *stripe, uint8_t *bench);
void plain_change(size_t m, size_t k, size_t b, uint8_t *stripe, size_t column, size_t row, const uint8_t *cell);
size_t plain_write(size_t m, size_t k, size_t b, const uint8_t places[129], const uint8_t *stripe, uint8_t *image);
int plain_walk(const uint8_t *image, size_t image_len, size_t *place, size_t *column, size_t *start, size_t *length);
void registers_encode(size_t m, size_t k, size_t b, uint8_t *stripe);
void registers_check(size_t m, size_t k, size_t b, const uint8_t *stripe, size_t *rows, size_t *diagonals);

enum op { ENCODE, CHECK, ONE, TWO, INTACT, LOCATE, REWRITE, BLANK, BLANK_LOCATE, CHANGE, CHANGE_S, CHANGES, CHANGES_APPEND, CHANGES_S, WRITE, WALK, OPS };

/* A shape with what follows from it. Columns lie `col` bytes apart in pool PACKED, as the library wants them, and `pitch` bytes apart
   in pool PADDED, a multiple of 64, as ISA-L wants them. A slot of either is k+2 columns of a stripe and two of a bench. Pool WRONG is
   PACKED with column w of each stripe wrong, for the library's LOCATE. Pool ZEROS has blank stripes, for its BLANK, which is check, and
   BLANK_LOCATE, which is locate. */
struct shape {
    size_t m, k, b, col, pitch;
    size_t u, v, w; /* columns lost: u and v of TWO, w of ONE; w is the wrong one of LOCATE, and the one of REWRITE */
};
enum pool { PACKED, PADDED, WRONG, ZEROS, POOLS };

typedef void work(const struct shape *, uint8_t *slot);
struct rival {
    const char *name;
    enum pool pool;
    work *run[OPS]; /* null where the contestant has no such operation */
};

/* own.c: the library and the code of plain.c and registers.c as contestants, and the shapes that are measured. `shape_of` also makes
   the presence maps for the shape. `own_check` takes a slot of random bytes and writes the valid stripe of its data columns, by
   plain.c, to `good`; it compares what the contestants compute with that, and gives the name of one that is wrong, or null. `spoil`
   makes column w of a stripe wrong, one byte in every cell; done twice it makes it right again. */
enum { SHAPES = 15 };
extern const size_t shapes[SHAPES][3];
extern const char *const op_name[OPS];
struct shape shape_of(const size_t *s);
enum { OURS, PLAIN, REGISTERS, OWNS };
extern struct rival owns[OWNS];
extern uint8_t refused; /* not 0 once the library has refused a call, or found what is not so */
work spoil;

/* The cell of the next CHANGE, which does not lie on the diagonal of S, or of the next CHANGE_S, which does; and the bytes that it is to hold,
   others each time. Each call goes on to the next column and the next row, so that in a stripe that is in no cache the cell is not either; H and D
   are two columns, and may be. To choose it takes some 4 ns, which are in the time of every contestant. */
struct cell {
    size_t column, row;
    const uint8_t *bytes;
};
struct cell next_cell(const struct shape *, enum op);

/* What CHANGES, CHANGES_APPEND and CHANGES_S do in one call, by 256 calls of change. The items of CHANGES are any cells, those of CHANGES_APPEND
   follow each other, down each data column and on to the next, those of CHANGES_S lie on the diagonal of S. `shape_of` makes the lists; each time
   other items are taken, and other bytes. */
work calls_any, calls_append, calls_s;

/* Shelf images, every column present. `image_of` gives the place that belongs to a slot of pool PACKED, which begins at `stripes`, in two pools that
   are twice as large: `images` has the image of the slot's stripe, which `make_image` puts there by plain.c, and WALK goes over it; `written` is where
   WRITE puts one. `judgings` judges the image as often as a walk over it is to, once for each column and once for the end. */
extern uint8_t *stripes, *images, *written;
uint8_t *image_of(uint8_t *of, const uint8_t *slot);
size_t image_length(const struct shape *);
work make_image, judgings;
const char *own_check(const struct shape *, uint8_t *slot, uint8_t *good);

/* rivals.c: codes of others. `rivals_prepare` makes their tables for a shape and clears the operations that they lack there;
   `rivals_check` compares what they compute with `stripe`, encoded by plain.c, and gives the name of one that is wrong, or null. */
enum { PQ_SSE, PQ, RS_SSE, RS, EVENODD, BLAUM_ROTH, OTHERS };
extern struct rival others[OTHERS];
void rivals_prepare(const struct shape *);
const char *rivals_check(const struct shape *, const uint8_t *stripe, uint8_t *packed, uint8_t *padded);
#endif
