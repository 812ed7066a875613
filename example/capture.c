/* What a capture host does: takes a job's log from standard input, lays it out as the data of one stripe, encodes it, and writes the stripe's shelf image
 * to standard output. No offset is typed by hand. Columns that could not be kept are named, and are absent in the image.
 *
 *    cc example/capture.c $(pkg-config --cflags --libs oarwillow) -o target/capture
 *    target/capture 5 4 16 <job.log | shelf         shape m k b, all columns present
 *    target/capture 5 4 16 1 3 <job.log | shelf     columns 1 and 3 absent: shelf restores them
 *
 * A log that is shorter than the data is filled up with zeros; a longer one is not cut, but refused. For an empty log shelf prints `answer 0 blank`, which
 * is never good. shelf reads images of up to 16,384 bytes.
 */
#include <errno.h>
#include <stdio.h>
#include <stdlib.h>

#include "oarwillow.h"

static int fail(const char *why)
{
    fprintf(stderr, "capture: %s\n", why);
    return 1;
}

/* Says which call was refused, by what number, and what that means. */
static int refused(const char *call, uint8_t number)
{
    fprintf(stderr, "capture: %s: refused, %u: %s\n", call, (unsigned)number, oarwillow_reason(number));
    return 1;
}

/* The number that a word is, and whether it is one. */
static int number(const char *word, size_t *value)
{
    char *end;
    errno = 0;
    unsigned long n = strtoul(word, &end, 10);
    *value = n;
    return *word >= '0' && *word <= '9' && *end == '\0' && errno == 0;
}

int main(int argc, char **argv)
{
    size_t m, k, b, column, length;
    uint8_t places[129] = {0}, answer;
    if (argc < 4 || !number(argv[1], &m) || !number(argv[2], &k) || !number(argv[3], &b))
        return fail("usage: capture M K B [ABSENT COLUMN]... <LOG >IMAGE");

    /* the stripe's length is 0 where m, k and b are no shape: encode then says which of them is wrong */
    size_t stripe_len = oarwillow_stripe_length(m, k, b), data = stripe_len == 0 ? 0 : stripe_len / (k + 2) * k;
    size_t image_len = stripe_len == 0 ? 0 : 8 + 8 * (k + 2) + stripe_len;
    uint8_t *stripe = calloc(1, stripe_len + 1), *image = malloc(image_len + 1);
    if (stripe == NULL || image == NULL)
        return fail("no memory");

    /* the log, and whether there is more of it */
    if (stripe_len != 0 && (fread(stripe, 1, data, stdin) == data && getchar() != EOF))
        return fail("the log is longer than the stripe's data");
    if (ferror(stdin))
        return fail("the log cannot be read");

    answer = oarwillow_encode(m, k, b, stripe, stripe_len);
    if (answer != OARWILLOW_DONE)
        return refused("encode", answer);

    /* every column is present, but those that are named */
    for (size_t t = 0; t < k + 2; t++)
        places[t] = 1;
    for (int i = 4; i < argc; i++) {
        if (!number(argv[i], &column) || column >= k + 2)
            return fail("an absent column is a number below k + 2");
        places[column] = 0;
    }

    answer = oarwillow_write(m, k, b, places, stripe, stripe_len, image, image_len, &length);
    if (answer != OARWILLOW_DONE)
        return refused("write", answer);
    if (fwrite(image, 1, length, stdout) != length || fflush(stdout) != 0)
        return fail("the image cannot be written");
    free(stripe);
    free(image);
    return 0;
}
