/* The one-row filter for the scanner bench's firmware, without positions and with them, a whole job in memory, plans
 * applied to whole pictures, the dark residue of a row, and the question whether a picture's residue is over a limit, for
 * C99 and C++.
 *
 * `sh firmware/archive.sh` proves them all and writes target/staticlib/libfirmware.a for x86-64 Linux; link that. None keeps
 * anything between calls or takes memory but of the stack, a job about 100 KB and the others a little, so calls may run
 * side by side. Of the C library they may need memcpy and memset. Floats are compared in the float environment that a C
 * program starts with: one that has the processor take subnormal numbers for zeros may get zeros for them.
 */
#ifndef KELAFSHIR_H
#define KELAFSHIR_H

#include <stddef.h>
#include <stdint.h>

#ifdef __cplusplus
extern "C" {
#endif

/* The kind: an erosion gives the smallest value under the window, a dilation the largest. */
enum kelafshir_kind {
    KELAFSHIR_EROSION = 0,
    KELAFSHIR_DILATION = 1
};

/* The largest extent; the most pixels of a row that is filtered by itself; the most stages of a plan; and the most columns
 * and rows of a picture. */
enum kelafshir_limit {
    KELAFSHIR_LARGEST_EXTENT = 31,
    KELAFSHIR_LONGEST_ROW = 65535,
    KELAFSHIR_MOST_STAGES = 16,
    KELAFSHIR_WIDEST = 4096,
    KELAFSHIR_MOST_ROWS = 65535
};

/* The numbers that a call or a job can be refused with. The one-row filters give 0, 2, 3, 4 and 7 only; a job in memory 0 to
 * 6, 8, 13, 14 and 15; a call on a whole picture 0 to 4, 6, 7 and, of floats, 8; the residue 0, 3, 4, 7, 16 and 21; a
 * question's start 0, 3, 4 and 21, and its pairs 0, 7, 9, 12 and 16. */
enum kelafshir_number {
    KELAFSHIR_DONE = 0,
    KELAFSHIR_STAGE_COUNT = 1,      /* the stage count is 0 or over 16 */
    KELAFSHIR_STAGE_KIND = 2,       /* a stage kind is not erosion or dilation */
    KELAFSHIR_EXTENT = 3,           /* an extent is over 31 */
    KELAFSHIR_SIZE = 4,             /* a width, a row count or a line's length is 0 or too large, a row number is not below the row
                                       count, or a run is stopped with no row read */
    KELAFSHIR_SAMPLE_KIND = 5,      /* the sample kind is not grey or float, or not the state's */
    KELAFSHIR_MEMORY = 6,           /* too few queue cells, column records, bytes of output or places of a row are lent */
    KELAFSHIR_ROW_LENGTH = 7,       /* a row is not as long as the width, two rows differ, or a picture is not width x rows */
    KELAFSHIR_NOT_FINITE = 8,       /* a pixel is not finite */
    KELAFSHIR_ALL_READ = 9,         /* a row or pixel is offered when all have been read, or a stop is said twice or in a fixed run */
    KELAFSHIR_NO_DRAIN = 10,        /* a drain is asked before all are read or the stop is said, or after the last output */
    KELAFSHIR_NOT_THERE = 11,       /* a read-out or a view names what is not there */
    KELAFSHIR_STATE = 12,           /* the state or question breaks its rules */
    KELAFSHIR_ENDS_EARLY = 13,      /* a job ends early */
    KELAFSHIR_BYTES_AFTER = 14,     /* a job has bytes after its last row */
    KELAFSHIR_CELLS = 15,           /* a job needs over 4,096 cells */
    KELAFSHIR_NEGATIVE = 16,        /* a counted residue pixel would be negative */
    KELAFSHIR_FILTER_ORDER = 17,    /* the filter order is 0 or over 4 */
    KELAFSHIR_OVER_ONE_STAGE = 20,  /* positions are asked of a plan of over one stage */
    KELAFSHIR_EMPTY_BAND = 21,      /* no pixel of the picture is counted */
    KELAFSHIR_LAST_NUMBER = 28      /* a row of an open run is past the last number, 4,294,967,295 */
};

/* Filters one row of grey bytes. Pixels off the row take no part.
 *
 * An erosion gives at x the smallest value of columns x - left to x + right; a dilation the largest of columns
 * x - right to x + left. Both rows belong to the caller, have the lengths given with them and must not overlap. The row
 * is only read.
 *
 * Answers KELAFSHIR_DONE, or the first of these that is so:
 *   KELAFSHIR_STAGE_KIND   the kind is neither
 *   KELAFSHIR_EXTENT       left or right is over 31
 *   KELAFSHIR_SIZE         row_length is 0 or over 65,535
 *   KELAFSHIR_ROW_LENGTH   out_length is not row_length
 * and then out is as it was.
 */
uint8_t kelafshir_filter_row(uint8_t kind, uint8_t left, uint8_t right, const uint8_t *row, size_t row_length, uint8_t *out,
                             size_t out_length);

/* Filters one row as kelafshir_filter_row does, and tells where each of its pixels came from: positions[x] is the column
 * that gave out[x], counted from 0, and the last one where several under the window have that value.
 *
 * positions_length is in positions, not in bytes. All three rows belong to the caller, have the lengths given with them and
 * must not overlap. The row is only read.
 *
 * Answers KELAFSHIR_DONE, or the first of these that is so:
 *   KELAFSHIR_STAGE_KIND   the kind is neither
 *   KELAFSHIR_EXTENT       left or right is over 31
 *   KELAFSHIR_SIZE         row_length is 0 or over 65,535
 *   KELAFSHIR_ROW_LENGTH   out_length or positions_length is not row_length
 * and then out and positions are as they were.
 */
uint8_t kelafshir_filter_row_positions(uint8_t kind, uint8_t left, uint8_t right, const uint8_t *row, size_t row_length,
                                       uint8_t *out, size_t out_length, uint16_t *positions, size_t positions_length);

/* What a job in memory comes to: a number, and how many bytes were written. */
struct kelafshir_job_run {
    uint8_t number;
    size_t written;
};

/* Runs a job: the bytes of a plan, an image head and its rows, whole or damaged, as the program reads them. Writes what the
 * program would write to the front of out: byte 2 and the image head's five bytes, for each output row byte 1 and the row,
 * last byte 0 and the number; of a refused head byte 0 and the number alone.
 *
 * out must have room for a full run, also where the rows turn out to be cut short: 6 bytes, for each row of the head 1 byte
 * and the row's, and 2 bytes. 2 bytes are enough where the head is refused. Both blocks belong to the caller, have the
 * lengths given with them and must not overlap. The job is only read, and what lies in out behind the answer is as it was.
 *
 * It takes about 100 KB of the stack: three rows, 4,096 queue cells of either kind of sample, and as many column records.
 *
 * Answers how many bytes were written and the number that they end with: KELAFSHIR_DONE, or the first refusal in the order
 * in which a job is read:
 *   the room        KELAFSHIR_MEMORY: out_length is less; written is 0, and out is as it was
 *   the count       KELAFSHIR_ENDS_EARLY, KELAFSHIR_STAGE_COUNT
 *   all stages      KELAFSHIR_ENDS_EARLY; then stage by stage KELAFSHIR_STAGE_KIND, KELAFSHIR_EXTENT
 *   the head        KELAFSHIR_ENDS_EARLY, KELAFSHIR_SAMPLE_KIND, KELAFSHIR_SIZE, KELAFSHIR_CELLS
 *   row by row      KELAFSHIR_ENDS_EARLY, KELAFSHIR_NOT_FINITE; rows that were due before it are written
 *   bytes after     KELAFSHIR_BYTES_AFTER; all rows are written
 */
struct kelafshir_job_run kelafshir_run_job(const uint8_t *job, size_t job_length, uint8_t *out, size_t out_length);

/* What a call on a whole picture comes to: a number, and for KELAFSHIR_NOT_FINITE the first such pixel; else zeros. */
struct kelafshir_filtered {
    uint8_t number;
    size_t row;
    size_t column;
};

/* Applies a plan to a whole picture of grey bytes, in its place, one stage after another. Pixels off the picture take no part.
 *
 * A stage is five bytes, as in a job: kind, left, right, up, down. An erosion gives in row y and column x the smallest value
 * of rows y - up to y + down and columns x - left to x + right; a dilation the largest of rows y - down to y + up and columns
 * x - right to x + left.
 *
 * stages points to stage_count stages, so to five times as many bytes. The picture is its rows one after another,
 * picture_length pixels together. row is room to work in, row_length pixels and at least width; what its first width pixels
 * hold after a call that is done is not told, and what lies past them is as it was. All three belong to the caller and must
 * not overlap; one whose length is 0 may be null. The stages are only read.
 *
 * Answers KELAFSHIR_DONE, or the first of these that is so:
 *   KELAFSHIR_STAGE_COUNT  stage_count is 0 or over 16
 *   stage by stage         KELAFSHIR_STAGE_KIND, KELAFSHIR_EXTENT
 *   KELAFSHIR_SIZE         width is 0 or over 4,096, or rows is 0 or over 65,535
 *   KELAFSHIR_ROW_LENGTH   picture_length is not width times rows
 *   KELAFSHIR_MEMORY       row_length is less than width
 * and then picture and row are as they were.
 */
struct kelafshir_filtered kelafshir_filter_picture(const uint8_t *stages, size_t stage_count, size_t width, size_t rows,
                                                   uint8_t *picture, size_t picture_length, uint8_t *row, size_t row_length);

/* The same of a picture of 32-bit floats; its lengths are in floats. A negative zero is read as a positive one, so none is
 * left. After the others comes
 *   KELAFSHIR_NOT_FINITE   a pixel is an infinity or no number; the answer names the first, row by row from the top, its row
 *                          and column counted from 0
 * and then too picture and row are as they were.
 */
struct kelafshir_filtered kelafshir_filter_rates(const uint8_t *stages, size_t stage_count, size_t width, size_t rows,
                                                 float *picture, size_t picture_length, float *row, size_t row_length);

/* The dark residue of one row of a picture: how much a closing made it lighter, closed value minus input value, added up
 * over the row's counted pixels. The picture's residue is the sum over its rows.
 *
 * left, right, up and down are the extents of the closing. Counted are the pixels from which no window of the closing
 * reaches past the picture's edge: columns left + right to width - 1 - (left + right), the width being closed_length, of
 * rows up + down to rows - 1 - (up + down). Rows are numbered from 0. A row outside adds 0. With all extents 0 every pixel
 * is counted.
 *
 * Both rows and the place for the sum belong to the caller, and that place must not overlap a row. The rows have the lengths
 * given with them and are only read; one whose length is 0 may be null.
 *
 * Answers KELAFSHIR_DONE and puts the row's sum at sum, whatever stood there, or the first of these that is so:
 *   KELAFSHIR_EXTENT       an extent is over 31
 *   KELAFSHIR_SIZE         closed_length is 0 or over 4,096, rows is 0 or over 65,535, or row is not below rows
 *   KELAFSHIR_ROW_LENGTH   input_length is not closed_length
 *   KELAFSHIR_EMPTY_BAND   no pixel of the picture is counted: told for each of its rows
 *   KELAFSHIR_NEGATIVE     a counted closed value is below the input's
 * and then sum is as it was.
 */
uint8_t kelafshir_dark(uint8_t left, uint8_t right, uint8_t up, uint8_t down, size_t row, size_t rows, const uint8_t *closed,
                       size_t closed_length, const uint8_t *input, size_t input_length, uint64_t *sum);

/* A question: is a picture's dark residue over a limit? It belongs to the caller, who keeps it between calls, hands it in with
 * each pair of rows and takes the one that comes back in its place. A call changes nothing of what it is handed.
 *
 * left, right, up and down are the extents of the closing, width and rows the picture's size. row is how many rows were
 * read, and sum their residues together. Yes was answered exactly where sum is over limit.
 */
struct kelafshir_question {
    uint8_t left, right, up, down;
    size_t width, rows;
    uint64_t limit;
    size_t row;
    uint64_t sum;
};

/* What a start comes to: a number, and the question before the first pair; all zeros where it is refused. */
struct kelafshir_worn_begun {
    uint8_t number;
    struct kelafshir_question question;
};

/* The answers. Look at the number first: where it is not KELAFSHIR_DONE the answer is not yet, as a refusal is neither yes nor
 * no. */
enum kelafshir_worn_answer {
    KELAFSHIR_NOT_YET = 0,
    KELAFSHIR_YES = 1,
    KELAFSHIR_NO = 2
};

/* What a pair of rows comes to: a number, the answer, and the question after it. */
struct kelafshir_worn_told {
    uint8_t number;
    uint8_t answer;
    struct kelafshir_question question;
};

/* Starts a question about a picture of this size, under a closing with these extents. Over the limit is more than it: a
 * residue that equals it is not over.
 *
 * Answers KELAFSHIR_DONE and the question, or the first of these that is so, and all zeros:
 *   KELAFSHIR_EXTENT       an extent is over 31
 *   KELAFSHIR_SIZE         width is 0 or over 4,096, or rows is 0 or over 65,535
 *   KELAFSHIR_EMPTY_BAND   no pixel of the picture is counted
 */
struct kelafshir_worn_begun kelafshir_worn_start(uint8_t left, uint8_t right, uint8_t up, uint8_t down, size_t width,
                                                 size_t rows, uint64_t limit);

/* Asks with the next row of the picture, top to bottom: the closed row and the input's, whose residue is kelafshir_dark's.
 *
 * Answers KELAFSHIR_YES at the first row where the sum over the rows so far is over the limit. After that no row is looked
 * at: whatever is handed in gets the same answer and the same question. Answers KELAFSHIR_NO with the last row, where the
 * sum is not over the limit then; and KELAFSHIR_NOT_YET before.
 *
 * Both rows belong to the caller, have the lengths given with them and are only read; one whose length is 0 may be null.
 * Answers KELAFSHIR_DONE and the question with this row read, or the first of these that is so:
 *   KELAFSHIR_STATE        the question breaks its rules: a start would refuse its extents or its size, row is over rows, or
 *                          sum is over 255 x width x row
 * and, unless yes was answered,
 *   KELAFSHIR_ALL_READ     all rows were read
 *   KELAFSHIR_ROW_LENGTH   closed_length or input_length is not the width
 *   KELAFSHIR_NEGATIVE     a counted closed value is below the input's
 * and then KELAFSHIR_NOT_YET and the question as it was. After the last two the right pair may follow.
 */
struct kelafshir_worn_told kelafshir_worn_pair(struct kelafshir_question question, const uint8_t *closed, size_t closed_length,
                                               const uint8_t *input, size_t input_length);

#ifdef __cplusplus
}
#endif

#endif
