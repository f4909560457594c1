/* An example for a customer's program: opens a whole picture in its place.
 *
 *     picture WIDTH HALF < picture > opened
 *
 * Reads a picture of grey bytes from standard input, rows of WIDTH pixels one after another, takes away what is bright and
 * has no room for a square of 2 HALF + 1 pixels a side, and writes the picture. Its exit status is 0, the filter's number
 * where it refuses, 6 where the picture is longer than the room here, 74 where the output cannot be written, or 64 where a
 * word is not a number: digits and nothing else. Nothing is written then.
 */
#include "kelafshir.h"
#include "words.h"

#include <stdio.h>

enum { MOST = 1 << 20 };

static uint8_t picture[MOST + 1], row[KELAFSHIR_WIDEST];

int main(int count, char **words)
{
    if (!are_numbers(2, count, words)) {
        fputs("picture WIDTH HALF < picture > opened\n", stderr);
        return 64;
    }
    size_t width = number_of(words[1], KELAFSHIR_WIDEST + 1), got = fread(picture, 1, sizeof picture, stdin);
    if (got > MOST) return KELAFSHIR_MEMORY;

    uint8_t half = byte_of(words[2]);
    uint8_t opening[] = {KELAFSHIR_EROSION, half, half, half, half, KELAFSHIR_DILATION, half, half, half, half};
    size_t rows = width == 0 ? 0 : got / width;
    struct kelafshir_filtered done = kelafshir_filter_picture(opening, 2, width, rows, picture, got, row, sizeof row);
    if (done.number != KELAFSHIR_DONE) return done.number;
    if (fwrite(picture, 1, got, stdout) != got || fflush(stdout) != 0) return 74;
    return 0;
}
