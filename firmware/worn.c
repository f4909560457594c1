/* An example for a sorting bench: is a picture too worn?
 *
 *     worn WIDTH HALF LIMIT < picture
 *
 * Reads a picture of grey bytes from standard input, rows of WIDTH pixels one after another, closes it by a square of
 * 2 HALF + 1 pixels a side, and asks row by row whether its dark residue is over LIMIT. It stops at the row that makes it so
 * and writes which one that is, counted from 0: `yes, after row 2`. Where no row does it writes `no`. LIMIT may be any
 * number: no residue is over 255 x 4,096 x 65,535, so a larger one is taken for that.
 *
 * Its exit status is 0, the number where a call refuses, 6 where the picture is longer than the room here, 74 where the
 * output cannot be written, or 64 where a word is not a number: digits and nothing else. Nothing is written then.
 */
#include "closed.h"
#include "words.h"

static const size_t LARGEST_RESIDUE = (size_t)255 * KELAFSHIR_WIDEST * KELAFSHIR_MOST_ROWS;

/* Asks with row after row of both pictures, until the answer is yes or no or a pair is refused. */
static struct kelafshir_worn_told answered(struct kelafshir_question question)
{
    struct kelafshir_worn_told told = {KELAFSHIR_DONE, KELAFSHIR_NOT_YET, question};
    size_t width = question.width;
    while (told.number == KELAFSHIR_DONE && told.answer == KELAFSHIR_NOT_YET) {
        size_t at = told.question.row * width;
        told = kelafshir_worn_pair(told.question, closed + at, width, picture + at, width);
    }
    return told;
}

static int is_written(struct kelafshir_worn_told told)
{
    int length = told.answer == KELAFSHIR_YES ? printf("yes, after row %zu\n", told.question.row - 1) : printf("no\n");
    return length >= 0 && fflush(stdout) == 0;
}

int main(int count, char **words)
{
    if (!are_numbers(3, count, words)) {
        fputs("worn WIDTH HALF LIMIT < picture\n", stderr);
        return 64;
    }
    size_t width = number_of(words[1], KELAFSHIR_WIDEST + 1), rows;
    uint8_t half = byte_of(words[2]);
    int number = close_picture(width, half, &rows);
    if (number != KELAFSHIR_DONE) return number;

    uint64_t limit = number_of(words[3], LARGEST_RESIDUE);
    struct kelafshir_worn_begun begun = kelafshir_worn_start(half, half, half, half, width, rows, limit);
    if (begun.number != KELAFSHIR_DONE) return begun.number;
    struct kelafshir_worn_told told = answered(begun.question);
    if (told.number != KELAFSHIR_DONE) return told.number;
    return is_written(told) ? 0 : 74;
}
