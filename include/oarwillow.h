/* Oarwillow: stripes kept in the EVENODD code.
 *
 * A shape is three numbers: m, an odd prime from 3 to 127; k, the data columns, 1 to m; b, the bytes in a cell, 1 to 4,096. A column is
 * m - 1 cells. A stripe is k + 2 columns one after another: data 0 to k - 1, then H (number k), then D (number k + 1). A bench is two
 * columns. `places` is a presence map: one byte a place, place 0 first; 1 is present, any other byte is absent.
 *
 * Every call but the two lengths returns 0, or the number of the refusal (`enum oarwillow_refusal`): the first that applies, in the
 * order given at each call. A refused call changes no byte of a stripe, a bench or an image. The numbers behind pointers, and the places
 * that oarwillow_read and oarwillow_contents give, are results: they are written on every call, also on a refused one. The place of
 * oarwillow_walk is read first, and stays on a refusal.
 *
 * What C must see to: each pointer is valid for the length that goes with it; where that length is 0 it may be null, or any other
 * pointer that C allows, as one past the end of an array. Maps and the pointers to one number are not null; numbers behind pointers, and
 * lists of numbers, are aligned as their type is; no two of a call's pointers overlap, save that buffers that are only read may be the
 * same. Bytes may stand at any address: stripes, benches, images, cells and maps need no alignment. A list's length counts its numbers.
 *
 * What a call needs: its stack, less than 64 KiB, so that a thread of 128 KiB is safe (as measured, rewrite takes 55 KiB, locate 44,
 * check and restore 40, each other call 5 at most); and memcpy, memmove and memset, which the compiler may call. It allocates nothing, has no
 * globals, keeps no pointer after it has returned and makes no call of the system. So any number of threads may call at once, each with
 * its own buffers, and a stripe that is only read may be shared.
 *
 * The largest stripe has 66,576,384 bytes (m = 127, k = 127, b = 4,096), its bench 1,032,192 and its image 66,577,424.
 *
 * How to build, where it is installed: cc program.c $(pkg-config --cflags --libs oarwillow)
 */
#ifndef OARWILLOW_H
#define OARWILLOW_H

#include <stddef.h>
#include <stdint.h>

#define OARWILLOW_VERSION "0.13.0"

/* Why a call is refused. Other numbers are never given. */
enum oarwillow_refusal {
    OARWILLOW_DONE = 0,           /* not refused */
    OARWILLOW_WRONG_M = 1,        /* m is not an odd prime from 3 to 127 */
    OARWILLOW_STRIPE_LENGTH = 2,  /* stripe length differs */
    OARWILLOW_BENCH_LENGTH = 3,   /* bench length differs */
    OARWILLOW_AMBIGUOUS = 4,      /* three or more columns absent */
    OARWILLOW_CONTRADICTED = 5,   /* no valid stripe agrees with every column that is read: restore with at most two absent, rewrite */
    OARWILLOW_UNMENDABLE = 6,     /* locate: no valid stripe differs in at most one column */
    OARWILLOW_NO_SUCH_COLUMN = 7, /* column number not below k + 2, in change and changes not below k */
    OARWILLOW_MALFORMED = 8,      /* image malformed, or in walk a place above k + 2 */
    OARWILLOW_STRAY_COLUMN = 9,   /* map has a place at or above k + 2 present */
    OARWILLOW_TOO_LONG = 10,      /* program input longer than 16,384 bytes; never from these calls */
    OARWILLOW_NO_SUCH_ROW = 11,   /* row number not below m - 1 */
    OARWILLOW_WRONG_K = 12,       /* k is 0 or above m */
    OARWILLOW_WRONG_B = 13,       /* b is 0 or above 4,096 */
    OARWILLOW_CELL_LENGTH = 14,   /* cell length differs from b */
    OARWILLOW_WRONG_LISTS = 15,   /* lists differ in length or hold more than 256 items, or their bytes are not b for each */
    OARWILLOW_SHORT_BUFFER = 16,  /* lent buffer shorter than the image */
    OARWILLOW_LYING_MAP = 17      /* map lies: its two numbers are not what its places say; never from these calls, for in C a map is
                                     its places alone, and its two numbers are made on the way in */
};

/* The reason that a number stands for, in words; of a number that is never given it says so. */
static inline const char *oarwillow_reason(uint8_t number)
{
    switch (number) {
    case OARWILLOW_DONE: return "not refused";
    case OARWILLOW_WRONG_M: return "m is not an odd prime from 3 to 127";
    case OARWILLOW_STRIPE_LENGTH: return "stripe length differs";
    case OARWILLOW_BENCH_LENGTH: return "bench length differs";
    case OARWILLOW_AMBIGUOUS: return "three or more columns absent";
    case OARWILLOW_CONTRADICTED: return "no valid stripe agrees with every column that is read";
    case OARWILLOW_UNMENDABLE: return "no valid stripe differs in at most one column";
    case OARWILLOW_NO_SUCH_COLUMN: return "column number not below k + 2, in change and changes not below k";
    case OARWILLOW_MALFORMED: return "image malformed, or in walk a place above k + 2";
    case OARWILLOW_STRAY_COLUMN: return "map has a place at or above k + 2 present";
    case OARWILLOW_TOO_LONG: return "program input longer than 16,384 bytes";
    case OARWILLOW_NO_SUCH_ROW: return "row number not below m - 1";
    case OARWILLOW_WRONG_K: return "k is 0 or above m";
    case OARWILLOW_WRONG_B: return "b is 0 or above 4,096";
    case OARWILLOW_CELL_LENGTH: return "cell length differs from b";
    case OARWILLOW_WRONG_LISTS: return "lists differ in length or hold more than 256 items, or their bytes are not b for each";
    case OARWILLOW_SHORT_BUFFER: return "lent buffer shorter than the image";
    case OARWILLOW_LYING_MAP: return "map lies: its two numbers are not what its places say";
    default: return "a number that is never given";
    }
}

#ifdef __cplusplus
extern "C" {
#endif

/* Writes H and D from the data columns, which stay. Refusals: 1, 12, 13, 2. */
uint8_t oarwillow_encode(size_t m, size_t k, size_t b, uint8_t *stripe, size_t stripe_len);

/* What oarwillow_check and oarwillow_locate found. */
enum oarwillow_found {
    OARWILLOW_FOUND_REFUSED = 0, /* nothing: the call was refused */
    OARWILLOW_FOUND_INTACT = 1,  /* the stripe is valid, and some byte is not zero */
    OARWILLOW_FOUND_BLANK = 2,   /* every byte is zero: perhaps no job ever wrote it. It obeys every parity rule */
    OARWILLOW_FOUND_BROKEN = 3,  /* oarwillow_check alone: the stripe is not valid */
    OARWILLOW_FOUND_COLUMN = 4   /* oarwillow_locate alone: a valid stripe differs in exactly one column */
};

/* Counts the rows whose H equation breaks and the numbers whose D equation breaks; a cell counts once. Writes no byte of the stripe.
 * `found` is one of `enum oarwillow_found`: OARWILLOW_FOUND_INTACT exactly when both counts are 0 and some byte is not zero;
 * OARWILLOW_FOUND_BLANK exactly when every byte is zero; OARWILLOW_FOUND_BROKEN exactly when some count is not 0. Both counts are 0 for
 * intact and for blank, and on a refusal, with OARWILLOW_FOUND_REFUSED: `found` tells them apart. Refusals: 1, 12, 13, 2. */
uint8_t oarwillow_check(size_t m, size_t k, size_t b, const uint8_t *stripe, size_t stripe_len, size_t *rows, size_t *diagonals,
                        uint8_t *found);

/* Restores the columns that are absent to the bench: the lowest to the first half, the other to the second; a half that is not needed
 * stays. Gives how many were restored and their numbers, 129 standing for none. What stands in an absent column's place never alters
 * the answer. A blank stripe is valid, and is restored as any other: to tell it, copy the restored columns to their places in the
 * stripe, and ask oarwillow_check. On a refusal: 0, 129, 129. Refusals: 1, 12, 13, 2, 3, 9, 4, 5. */
uint8_t oarwillow_restore(size_t m, size_t k, size_t b, const uint8_t places[129], const uint8_t *stripe, size_t stripe_len,
                          uint8_t *bench, size_t bench_len, size_t *count, size_t *first, size_t *second);

/* Says which column is wrong, of a stripe with every column present; writes no byte of the stripe. `found` is one of `enum
 * oarwillow_found`: OARWILLOW_FOUND_INTACT exactly when the stripe is valid and not blank, OARWILLOW_FOUND_BLANK exactly when every byte
 * is zero, both with column 129; OARWILLOW_FOUND_COLUMN exactly when some valid stripe differs from it in exactly one column, and
 * `column` is its number. On a refusal: OARWILLOW_FOUND_REFUSED and 129. Where two columns are wrong it gives 6, or names a third, which
 * is right, and never one of the two: look before you rewrite. Refusals: 1, 12, 13, 2, 6. */
uint8_t oarwillow_locate(size_t m, size_t k, size_t b, const uint8_t *stripe, size_t stripe_len, uint8_t *found, size_t *column);

/* Puts into the column that is named the one content that makes the stripe valid. It follows from the other columns, which stay; what
 * stood in the column is not read, and never alters the answer. 5 is decided before the first byte is written: no valid stripe agrees
 * with the other columns. Where two other columns are wrong and it passes, the damage is sealed: the stripe is valid, and wrong in
 * three. Where two may be, keep the column's bytes first, or mark the two that you suspect absent and restore. Refusals: 1, 12, 13, 2,
 * 7, 5. */
uint8_t oarwillow_rewrite(size_t m, size_t k, size_t b, uint8_t *stripe, size_t stripe_len, size_t column);

/* Changes the cell in that row of that data column to the b bytes of `cell`, and with it the parity cells that depend on it: H's cell in
 * its row, and D's cell in row (row + column) mod m; where that is m - 1 the cell lies on the diagonal of S, and every cell of D changes.
 * No other byte is read or written, so the cost does not grow with k, and with m on the diagonal of S alone. Byte o of the data, counted
 * from the start of the stripe, is in column o / ((m - 1) b), and there in row o % ((m - 1) b) / b.
 *
 * A valid stripe becomes what oarwillow_encode would make of the edited data; a blank one is changed as any other, and is blank
 * afterwards only where the new bytes are zeros too. Of a broken one exactly the same equations are broken afterwards, each by the same
 * amount: no damage is covered up, oarwillow_check counts what it counted, and oarwillow_locate names the column that it named.
 *
 * The stripe must still hold the old bytes: build the new cell, all b bytes of it, in a buffer of your own, never in the stripe. The
 * cell's own column must have been read, or copied to its place after it was restored; other columns may be absent, H and D too, and are
 * restored after the change. What a bench was filled with before it is out of date. Nothing is judged: where the old bytes were wrong,
 * the damage stays in H and D, and a rewrite of the column that oarwillow_locate names puts the new bytes there with the damage added.
 * Make the same change once more after such a rewrite; or check, and mend, a stripe that you do not trust before you change it. Nobody
 * may read or change the stripe meanwhile. Refusals: 1, 12, 13, 2, 7 for a column not below k (H and D cannot be named), 11, 14. */
uint8_t oarwillow_change(size_t m, size_t k, size_t b, uint8_t *stripe, size_t stripe_len, size_t column, size_t row,
                         const uint8_t *cell, size_t cell_len);

/* Makes up to 256 changes of one stripe in one call. Item n is the cell in row rows[n] of the data column columns[n], and its new bytes
 * are the b bytes of `cells` from n * b on. Where all pass, the stripe is what oarwillow_change would leave of it, called with the items
 * one at a time in list order: a cell that is named twice ends with the later bytes. Where one would be refused, nothing is changed, and
 * `item` is the number of the first such item, counted from 0; it is 256 where no item is refused: where the call passes, and on 1, 12,
 * 13, 2 and 15. Every item is judged before the first byte is written. For a right stripe an empty list with no bytes passes and changes
 * nothing.
 *
 * What is said of oarwillow_change holds of each item: every column that an item names must have been read, or copied to its place after
 * it was restored. Cells on the diagonal of S change every cell of D: what they add to D is gathered in 4,096 bytes of the stack, which
 * are cleared first, and added once. Of the stripe no byte is read or written but those of cells that an item names, or that depend on
 * one. For one cell, or a few, oarwillow_change is as quick or quicker. Refusals: 1, 12, 13, 2, 15, then of each item in turn 7 for a
 * column not below k, and 11. */
uint8_t oarwillow_changes(size_t m, size_t k, size_t b, uint8_t *stripe, size_t stripe_len, const size_t *columns, size_t columns_len,
                          const size_t *rows, size_t rows_len, const uint8_t *cells, size_t cells_len, size_t *item);

/* Says where a column lies: `from_bench` 0 for the stripe and 1 for the bench, and the part's start and length there. It reads no byte
 * and does not judge whether the bench was filled. On a refusal: 0, 0, 0. Refusals: 1, 12, 13, 2, 3, 9, 7, 4. */
uint8_t oarwillow_show(size_t m, size_t k, size_t b, const uint8_t places[129], const uint8_t *stripe, size_t stripe_len,
                       const uint8_t *bench, size_t bench_len, size_t column, size_t *from_bench, size_t *start, size_t *length);

/* Says what a shelf image has, its shape and its presence map, without a stripe: oarwillow_stripe_length then gives the length of the
 * stripe that oarwillow_read asks for. The whole image is judged, as oarwillow_read does it, but for 2. On a refusal: shape 0 0 0, and
 * every place absent. Refusals: 8 for under eight bytes or a non-zero fourth number, 1, 12, 13, 8 for any other departure. */
uint8_t oarwillow_contents(const uint8_t *image, size_t image_len, uint8_t places[129], size_t *m, size_t *k, size_t *b);

/* Reads a shelf image: its shape, its presence map, and the bodies of the present columns to their places in the stripe; absent
 * columns' bytes stay. On a refusal: shape 0 0 0, and every place absent. Refusals: 8 for under eight bytes or a non-zero fourth
 * number, 1, 12, 13, 8 for any other departure, 2. */
uint8_t oarwillow_read(const uint8_t *image, size_t image_len, uint8_t *stripe, size_t stripe_len, uint8_t places[129], size_t *m,
                       size_t *k, size_t *b);

/* Writes the shelf image of a stripe's present columns to the start of `image`, and gives its length: 8 + 8(k + 2) bytes, and then
 * (m - 1)b for each present column; oarwillow_gaps tells how many there are. With every column present the image is 8(k + 3) bytes longer
 * than the stripe. Bytes past the image stay. Any number of columns may be absent, all too: what stands in an absent column's place is not
 * read, and never enters the image. What the columns hold is not judged. oarwillow_read gives back the shape, the map and every present
 * column of what was written, and writing what it gave makes the same image again. On a refusal: length 0. Refusals: 1, 12, 13, 2, 9, 16 for
 * an image_len below the image's length. */
uint8_t oarwillow_write(size_t m, size_t k, size_t b, const uint8_t places[129], const uint8_t *stripe, size_t stripe_len, uint8_t *image,
                        size_t image_len, size_t *length);

/* Walks over a shelf image, one present column after another, with no stripe and no copy. `place` is 0 before the first step. A step
 * finds the first present column at or after it: `column` is its number, its bytes are the `length` bytes of the image from `start` on,
 * and `place` becomes its number plus one. Where none is left the walk is at its end: column 129, start 0, length 0, and `place` becomes
 * k + 2, so that a further step says so again. Walked to its end from place 0, an image hands out its present columns, in order, each
 * once. Each step judges the image as oarwillow_contents does it, and reads no byte of a body: a walk over every column costs one such
 * judgement for each, and one for the end. On a refusal: column 129, start 0, length 0, and `place` as it was. Refusals: 8 for under eight
 * bytes or a non-zero fourth number, 1, 12, 13, 8 for any other departure, then 8 for a place above k + 2. */
uint8_t oarwillow_walk(const uint8_t *image, size_t image_len, size_t *place, size_t *column, size_t *start, size_t *length);

/* Says what a map has: `present`, how many of its 129 places are present, and `highest`, the highest of them, 129 for none; and of the
 * places 0 to k + 1, which are the columns with k data columns, `absent`, how many are absent, and `first` and `second`, the two lowest
 * of these, 129 for none. k is any number: the map has no place from 129 on, so from k = 127 on all 129 are meant. It is never refused:
 * it returns 0. */
uint8_t oarwillow_gaps(size_t k, const uint8_t places[129], size_t *present, size_t *highest, size_t *absent, size_t *first,
                       size_t *second);

/* How many bytes a stripe of that shape has, (k + 2)(m - 1)b, at most 66,576,384; 0 where the three numbers are no shape, which the other
 * calls refuse with 1, 12 or 13. The length is what it returns; it takes any numbers. */
size_t oarwillow_stripe_length(size_t m, size_t k, size_t b);

/* How many bytes a bench has, 2(m - 1)b, at most 1,032,192, whatever k is; 0 where m is not an odd prime from 3 to 127, or b is 0 or
 * above 4,096. The length is what it returns; it takes any numbers. */
size_t oarwillow_bench_length(size_t m, size_t b);

#ifdef __cplusplus
}
#endif

#endif
