/* An example for the scanner bench: filters rows as they come.
 *
 *     bench KIND LEFT RIGHT WIDTH < rows > filtered
 *
 * Reads rows of WIDTH grey bytes from standard input and writes each one filtered before it reads the next. Its exit
 * status is 0, the filter's number where it refuses, 13 where the input ends inside a row, 74 where the output cannot be
 * written, or 64 where a word is not a number: digits and nothing else.
 */
#include "kelafshir.h"
#include "words.h"

#include <stdio.h>

static uint8_t row[KELAFSHIR_LONGEST_ROW + 1], out[KELAFSHIR_LONGEST_ROW + 1];

int main(int count, char **words)
{
    if (!are_numbers(4, count, words)) {
        fputs("bench KIND LEFT RIGHT WIDTH < rows > filtered\n", stderr);
        return 64;
    }
    uint8_t kind = byte_of(words[1]), left = byte_of(words[2]), right = byte_of(words[3]);
    size_t width = number_of(words[4], sizeof row);

    /* A row of zeros first, so that what the filter refuses is known before a row is read. */
    int number = kelafshir_filter_row(kind, left, right, row, width, out, width);
    if (number != KELAFSHIR_DONE) return number;

    for (;;) {
        size_t got = fread(row, 1, width, stdin);
        if (got != width) return got == 0 ? KELAFSHIR_DONE : KELAFSHIR_ENDS_EARLY;
        kelafshir_filter_row(kind, left, right, row, width, out, width);
        if (fwrite(out, 1, width, stdout) != width || fflush(stdout) != 0) return 74;
    }
}
