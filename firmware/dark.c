/* An example for a customer's program: how much of a picture is dark pits.
 *
 *     dark WIDTH HALF < picture
 *
 * Reads a picture of grey bytes from standard input, rows of WIDTH pixels one after another, closes it by a square of
 * 2 HALF + 1 pixels a side, which makes light what is dark and has no room for the square, and writes by how much it got
 * lighter, all counted pixels together. Its exit status is 0, the number where a call refuses, 6 where the picture is longer
 * than the room here, 74 where the output cannot be written, or 64 where a word is not a number: digits and nothing else.
 * Nothing is written then.
 */
#include "closed.h"
#include "words.h"

/* The sum over all rows of both pictures; or the number of the first that is refused. */
static int residue(size_t width, size_t rows, uint8_t half, uint64_t *sum)
{
    *sum = 0;
    for (size_t y = 0; y < rows; y++) {
        uint64_t added;
        uint8_t number = kelafshir_dark(half, half, half, half, y, rows, closed + y * width, width, picture + y * width,
                                        width, &added);
        if (number != KELAFSHIR_DONE) return number;
        *sum += added;
    }
    return KELAFSHIR_DONE;
}

int main(int count, char **words)
{
    if (!are_numbers(2, count, words)) {
        fputs("dark WIDTH HALF < picture\n", stderr);
        return 64;
    }
    size_t width = number_of(words[1], KELAFSHIR_WIDEST + 1), rows;
    uint8_t half = byte_of(words[2]);
    int number = close_picture(width, half, &rows);
    if (number != KELAFSHIR_DONE) return number;

    uint64_t sum;
    number = residue(width, rows, half, &sum);
    if (number != KELAFSHIR_DONE) return number;
    return printf("%llu\n", (unsigned long long)sum) < 0 || fflush(stdout) != 0 ? 74 : 0;
}
