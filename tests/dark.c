/* Asks for dark residues through kelafshir.h, one call after the other, for dark.py.
 *
 * Of each call standard input has nine numbers of 8 bytes, low byte first: whether what is lent lies at the back of its
 * room, the extents left, right, up and down, the row's number, the row count, and the lengths of the closed row and of the
 * input row; then both rows, and what stands in the place of the sum, 8 bytes. Standard output gets the number, a byte that
 * is 1 where nothing beside what was lent is changed, and the rows and the place of the sum as they are then.
 *
 * All three lie against a page that nobody may touch, with their last byte or with their first, so a byte read or written
 * outside on that side stops the run. The bytes on the open side are compared afterwards. With a word on the command line,
 * closed or input, the outermost byte of that row is not there and lent nevertheless, and with the word sum the place of the
 * sum: the run must die of it.
 */
#include "kelafshir.h"
#include "lent.h"

enum number { AT_BACK, LEFT, RIGHT, UP, DOWN, ROW, ROWS, CLOSED_LENGTH, INPUT_LENGTH, NUMBERS };

static struct block closed, input, sum;

/* ---- one call */

static uint8_t called(const size_t *given)
{
    return kelafshir_dark((uint8_t)given[LEFT], (uint8_t)given[RIGHT], (uint8_t)given[UP], (uint8_t)given[DOWN], given[ROW],
                          given[ROWS], closed.at, closed.length, input.at, input.length, (uint64_t *)(void *)sum.at);
}

static int is_answered(const size_t *given)
{
    uint8_t told[2] = {called(given)};
    told[1] = is_intact(&closed) && is_intact(&input) && is_intact(&sum);
    return is_written(told, sizeof told) && is_block_written(&closed) && is_block_written(&input) && is_block_written(&sum)
        && fflush(stdout) == 0;
}

/* 0 where an extent is no byte, a row is too long for its room, or not all comes. */
static int is_all_lent(const size_t *given, char lacking)
{
    for (int i = LEFT; i <= DOWN; i++)
        if (given[i] > 255) return 0;
    if (given[CLOSED_LENGTH] > room - BESIDE || given[INPUT_LENGTH] > room - BESIDE) return 0;
    int at_back = given[AT_BACK] != 0;
    return is_lent(&closed, given[CLOSED_LENGTH], at_back, lacking == 'c')
        && is_lent(&input, given[INPUT_LENGTH], at_back, lacking == 'i')
        && is_lent(&sum, sizeof(uint64_t), at_back, lacking == 's' ? sizeof(uint64_t) : 0);
}

int main(int count, char **words)
{
    closed.room = guarded_room(room);
    input.room = guarded_room(room);
    sum.room = guarded_room(room);
    size_t given[NUMBERS];
    while (are_read(given, NUMBERS)) {
        if (!is_all_lent(given, count > 1 ? words[1][0] : 0)) return 65;
        if (!is_answered(given)) return 74;
    }
    return 0;
}
