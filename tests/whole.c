/* Applies plans to whole pictures through kelafshir.h, one call after the other, for whole.py.
 *
 * Of each call standard input has seven numbers of 8 bytes, low byte first: what is called (0 the filter of grey bytes, 1
 * that of floats, 2 a job), whether what is lent lies at the back of its room, the stage count, the width, the rows, and the
 * lengths of the picture and of the lent row, in pixels; then the stages, the picture and the row. A job is given as the
 * picture, and its output as the row.
 * Standard output gets the number, the row and the column (8 bytes each; of a job the length that was written, and 0), a
 * byte that is 1 where nothing beside what was lent is changed, and the stages, the picture and the row as they are then.
 *
 * All three lie against a page that nobody may touch, with their last byte or with their first, so a byte read or written
 * outside on that side stops the run. The bytes on the open side are compared afterwards. With a word on the command line,
 * stages, picture or row, the outermost byte of that one is not there and lent nevertheless: the run must die of it.
 */
#include "kelafshir.h"
#include "lent.h"

enum what { GREY, FLOATS, JOB };
enum number { WHAT, AT_BACK, STAGE_COUNT, WIDTH, ROWS, PICTURE_LENGTH, ROW_LENGTH, NUMBERS };

static struct block stages, picture, row;

/* ---- one call */

static struct kelafshir_filtered called(const size_t *given)
{
    size_t count = given[STAGE_COUNT], width = given[WIDTH], rows = given[ROWS];
    if (given[WHAT] == GREY)
        return kelafshir_filter_picture(stages.at, count, width, rows, picture.at, given[PICTURE_LENGTH], row.at,
                                        given[ROW_LENGTH]);
    if (given[WHAT] == FLOATS)
        return kelafshir_filter_rates(stages.at, count, width, rows, (float *)picture.at, given[PICTURE_LENGTH],
                                      (float *)row.at, given[ROW_LENGTH]);
    struct kelafshir_job_run run = kelafshir_run_job(picture.at, picture.length, row.at, row.length);
    return (struct kelafshir_filtered){run.number, run.written, 0};
}

static int is_answered(const size_t *given)
{
    struct kelafshir_filtered answer = called(given);
    uint8_t told[18] = {answer.number};
    put_number(told + 1, answer.row);
    put_number(told + 9, answer.column);
    told[17] = is_intact(&stages) && is_intact(&picture) && is_intact(&row);
    return is_written(told, sizeof told) && is_block_written(&stages) && is_block_written(&picture)
        && is_block_written(&row) && fflush(stdout) == 0;
}

/* Lengths in pixels become bytes here. 0 where one is too long for its room, or not all of it comes. */
static int is_all_lent(const size_t *given, char lacking)
{
    size_t size = given[WHAT] == FLOATS ? 4 : 1, most = room / 5 - BESIDE;
    if (given[STAGE_COUNT] > most || given[PICTURE_LENGTH] > most || given[ROW_LENGTH] > most) return 0;
    int at_back = given[AT_BACK] != 0;
    return is_lent(&stages, 5 * given[STAGE_COUNT], at_back, lacking == 's')
        && is_lent(&picture, size * given[PICTURE_LENGTH], at_back, lacking == 'p')
        && is_lent(&row, size * given[ROW_LENGTH], at_back, lacking == 'r');
}

int main(int count, char **words)
{
    stages.room = guarded_room(room);
    picture.room = guarded_room(room);
    row.room = guarded_room(room);
    size_t given[NUMBERS];
    while (are_read(given, NUMBERS)) {
        if (!is_all_lent(given, count > 1 ? words[1][0] : 0)) return 65;
        if (!is_answered(given)) return 74;
    }
    return 0;
}
