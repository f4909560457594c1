/* Runs jobs in memory through kelafshir.h, one after the other, for memory.py.
 *
 * Of each job standard input has three numbers of 8 bytes, low byte first: the job's length, the length of the output to
 * lend, and how many bytes of the output to give back; then the job. Standard output gets the number, the length that was
 * written (8 bytes), a byte that is 1 where all else is as it was, and the bytes of the output.
 *
 * The job and the output lie against a page that nobody may touch, so a byte read or written past either stops the run.
 * With a word on the command line the last byte of a job is not there and lent nevertheless: the run must die of it.
 */
#include "kelafshir.h"

#include <stdio.h>

void *mmap(void *, size_t, int, int, int, long);
int mprotect(void *, size_t, int);

enum { GUARD = 65536, BESIDE = 64, MARK = 0xa5 };

/* The longest job of the tests. The longest output that a head can ask for: 65,535 rows of 4,096 floats. All of an output is
 * watched up to this length, and its front and its last bytes where it is longer. */
static const size_t job_room = 16777216, out_room = 1073807360, watched = 1048576;

/* Memory is taken where it is touched and not before, so an output may be lent that the machine has no memory for. */
static uint8_t *guarded(size_t room)
{
    uint8_t *all = mmap(NULL, GUARD + room + GUARD, 3, 0x4022, -1, 0);    /* read and write; private, no file, no reserve */
    if (mprotect(all, GUARD, 0) != 0 || mprotect(all + GUARD + room, GUARD, 0) != 0) __builtin_trap();
    return all + GUARD;
}

static void fill(uint8_t *at, size_t length)
{
    for (size_t i = 0; i < length; i++) at[i] = MARK;
}

static int is_filled(const uint8_t *at, size_t length)
{
    for (size_t i = 0; i < length; i++)
        if (at[i] != MARK) return 0;
    return 1;
}

/* ---- the stream */

static int is_read(uint8_t *bytes, size_t length)
{
    return fread(bytes, 1, length, stdin) == length;
}

static size_t number_of(const uint8_t *bytes)
{
    size_t number = 0;
    for (int i = 7; i >= 0; i--) number = number << 8 | bytes[i];
    return number;
}

static int is_written(const uint8_t *bytes, size_t length)
{
    return fwrite(bytes, 1, length, stdout) == length;
}

/* ---- one job */

static uint8_t *job_space, *out_space;

/* An output that is watched whole ends at the guard, with bytes beside it that are watched too; a longer one begins at the
 * guard, so that the same memory serves for all of them. */
static int is_answered(const uint8_t *job, size_t job_length, size_t out_length, size_t shown)
{
    int is_long = out_length > watched;
    uint8_t *out = is_long ? out_space : out_space + out_room - out_length;
    size_t beside = is_long ? 0 : BESIDE, front = is_long ? watched : out_length;
    fill(out - beside, beside + front);
    if (is_long) fill(out + out_length - BESIDE, BESIDE);

    struct kelafshir_job_run run = kelafshir_run_job(job, job_length, out, out_length);
    size_t written = run.written < front ? run.written : front;
    uint8_t told[10] = {run.number};
    for (int i = 0; i < 8; i++) told[1 + i] = (uint8_t)(run.written >> 8 * i);
    told[9] = is_filled(out - beside, beside) && is_filled(out + written, front - written)
        && (!is_long || is_filled(out + out_length - BESIDE, BESIDE));
    return is_written(told, sizeof told) && is_written(out, shown) && fflush(stdout) == 0;
}

int main(int count, char **words)
{
    (void)words;
    uint8_t lengths[24];
    job_space = guarded(job_room);
    out_space = guarded(out_room);
    while (is_read(lengths, sizeof lengths)) {
        size_t job_length = number_of(lengths), out_length = number_of(lengths + 8), shown = number_of(lengths + 16);
        if (job_length > job_room || out_length > out_room || shown > out_length) return 64;
        size_t there = count > 1 ? job_length - 1 : job_length;
        uint8_t *job = job_space + job_room - there;
        if (!is_read(job, there)) return 65;
        if (!is_answered(job, job_length, out_length, shown)) return 74;
    }
    return 0;
}
