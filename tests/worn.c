/* Asks the question through kelafshir.h, one call after the other, for worn.py.
 *
 * Of each call standard input has fourteen numbers of 8 bytes, low byte first: whether it is a pair, where a start is 0;
 * whether the rows lie at the back of their rooms; whether they are there; the fields of the question in the header's order,
 * of which a start takes all but the last two; and the lengths of the closed row and of the input row. Rows that are there
 * follow. Standard output gets the number, the answer, a byte that is 1 where nothing beside what was lent is changed, the
 * question's fields, 8 bytes each, and the rows that are there as they are then.
 *
 * Both rows lie against a page that nobody may touch, with their last byte or with their first, so a byte read or written
 * outside on that side stops the run; rows that are not there lie in such a page whole. The bytes on the open side are
 * compared afterwards. With a word on the command line, closed or input, the outermost byte of that row is not there and
 * lent nevertheless: the run must die of it.
 */
#include "kelafshir.h"
#include "lent.h"

enum number {
    IS_PAIR, AT_BACK, IS_THERE, LEFT, RIGHT, UP, DOWN, WIDTH, ROWS, LIMIT, ROW, SUM, CLOSED_LENGTH, INPUT_LENGTH, NUMBERS
};

/* What an answer has before the rows: three bytes and nine numbers. */
enum { FIELDS = 9, TOLD = 3 + 8 * FIELDS };

static struct block closed, input;

/* ---- one call */

/* A start has the answer 0. */
static struct kelafshir_worn_told called(const size_t *given)
{
    struct kelafshir_question q = {(uint8_t)given[LEFT], (uint8_t)given[RIGHT], (uint8_t)given[UP], (uint8_t)given[DOWN],
                                   given[WIDTH], given[ROWS], given[LIMIT], given[ROW], given[SUM]};
    if (given[IS_PAIR] != 0) return kelafshir_worn_pair(q, closed.at, closed.length, input.at, input.length);
    struct kelafshir_worn_begun begun = kelafshir_worn_start(q.left, q.right, q.up, q.down, q.width, q.rows, q.limit);
    return (struct kelafshir_worn_told){begun.number, 0, begun.question};
}

static int is_answered(const size_t *given)
{
    struct kelafshir_worn_told answer = called(given);
    struct kelafshir_question q = answer.question;
    const size_t fields[FIELDS] = {q.left, q.right, q.up, q.down, q.width, q.rows, q.limit, q.row, q.sum};
    uint8_t told[TOLD] = {answer.number, answer.answer, is_intact(&closed) && is_intact(&input)};
    for (int i = 0; i < FIELDS; i++) put_number(told + 3 + 8 * i, fields[i]);
    return is_written(told, sizeof told)
        && (given[IS_THERE] == 0 || (is_block_written(&closed) && is_block_written(&input))) && fflush(stdout) == 0;
}

/* Lends a row, all of it, all but a byte, or nothing where rows are not there. 0 where it is too long for its room or for the
 * guard that it lies in, or not all comes. */
static int is_row_lent(struct block *block, const size_t *given, enum number length, int is_lacking)
{
    if (given[length] > (given[IS_THERE] != 0 ? room - BESIDE : GUARD)) return 0;
    return is_lent(block, given[length], given[AT_BACK] != 0, given[IS_THERE] == 0 ? given[length] : (size_t)is_lacking);
}

/* 0 where an extent is no byte, or a row cannot be lent. */
static int is_all_lent(const size_t *given, char lacking)
{
    for (int i = LEFT; i <= DOWN; i++)
        if (given[i] > 255) return 0;
    return is_row_lent(&closed, given, CLOSED_LENGTH, lacking == 'c')
        && is_row_lent(&input, given, INPUT_LENGTH, lacking == 'i');
}

int main(int count, char **words)
{
    closed.room = guarded_room(room);
    input.room = guarded_room(room);
    size_t given[NUMBERS];
    while (are_read(given, NUMBERS)) {
        if (!is_all_lent(given, count > 1 ? words[1][0] : 0)) return 65;
        if (!is_answered(given)) return 74;
    }
    return 0;
}
