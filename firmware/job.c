/* An example for a customer's program: runs a job without a process of its own.
 *
 *     job < job > answer
 *
 * Reads a job from standard input, runs it in memory and writes its answer, the very bytes that ./kelafshir writes. Its
 * exit status is the answer's number, 0 for a full run; 6 where the answer may be longer than the room here, and then
 * nothing is written.
 */
#include "kelafshir.h"

#include <stdio.h>

static uint8_t job[1 << 24], answer[1 << 24];

int main(void)
{
    size_t got = fread(job, 1, sizeof job, stdin);
    struct kelafshir_job_run run = kelafshir_run_job(job, got, answer, sizeof answer);
    if (fwrite(answer, 1, run.written, stdout) != run.written || fflush(stdout) != 0) return 74;
    return run.number;
}
