/* A small stripe from C: encode it, lose two columns, restore them, and print every column from where show says that it lies; then put the stripe
 * together, and have check say whether it is intact or blank.
 *
 *    make install PREFIX=DIR
 *    export PKG_CONFIG_PATH=DIR/lib/pkgconfig
 *    cc example/example.c $(pkg-config --cflags --libs oarwillow) -o target/example && target/example
 */
#include <stdio.h>
#include <string.h>

#include "oarwillow.h"

enum { M = 3, K = 3, B = 1, COLUMN = (M - 1) * B };

/* Says which call was refused, by what number, and what that means. */
static int refused(const char *call, uint8_t number)
{
    printf("%s: refused, %u: %s\n", call, (unsigned)number, oarwillow_reason(number));
    return 1;
}

int main(void)
{
    /* three data columns, and room for H and D */
    uint8_t stripe[(K + 2) * COLUMN] = {0x01, 0x02, 0x04, 0x08, 0x10, 0x20};
    uint8_t bench[2 * COLUMN] = {0};
    uint8_t places[129] = {1, 1, 1, 1, 1};
    uint8_t answer;

    answer = oarwillow_encode(M, K, B, stripe, sizeof stripe);
    if (answer != 0)
        return refused("encode", answer);

    /* columns 0 and 2 are lost: what stands in their places is not read */
    places[0] = 0;
    places[2] = 0;
    memset(stripe, 0xee, COLUMN);
    memset(stripe + 2 * COLUMN, 0xee, COLUMN);

    size_t count, first, second;
    answer = oarwillow_restore(M, K, B, places, stripe, sizeof stripe, bench, sizeof bench, &count, &first, &second);
    if (answer != 0)
        return refused("restore", answer);
    printf("restored %zu: columns %zu and %zu\n", count, first, second);

    for (size_t column = 0; column < K + 2; column++) {
        size_t from_bench, start, length;
        answer = oarwillow_show(M, K, B, places, stripe, sizeof stripe, bench, sizeof bench, column, &from_bench, &start, &length);
        if (answer != 0)
            return refused("show", answer);
        const uint8_t *part = (from_bench ? bench : stripe) + start;
        printf("%zu %s", column, from_bench ? "restored" : "present");
        for (size_t i = 0; i < length; i++)
            printf(" %02x", part[i]);
        printf("\n");
    }

    /* restore returns 0 of a blank stripe too, in which every byte is zero. Check tells it from an intact one, once the restored columns stand in their
     * places: what stood there before, check would read. */
    memcpy(stripe + first * COLUMN, bench, COLUMN);
    memcpy(stripe + second * COLUMN, bench + COLUMN, COLUMN);
    size_t rows, diagonals;
    uint8_t found;
    answer = oarwillow_check(M, K, B, stripe, sizeof stripe, &rows, &diagonals, &found);
    if (answer != 0)
        return refused("check", answer);
    printf("%s\n", found == OARWILLOW_FOUND_INTACT ? "intact" : found == OARWILLOW_FOUND_BLANK ? "blank: no good stripe" : "broken");
    return found != OARWILLOW_FOUND_INTACT;
}
