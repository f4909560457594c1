#!/usr/bin/env python3
"""Holds a job in memory to definition.py: every byte of the output, on the cases of document 01, on its line P filtered twice, on float
patterns and on random jobs.

    python3 tests/memory.py COUNT SEED COMMAND..

COMMAND runs tests/memory.c. Each job is run three times: with exactly the room that its head asks for, with one byte less,
and with plenty. tests/memory.sh builds it all and runs this.
"""
import itertools
import multiprocessing
import random
import struct
import subprocess
import sys

from cases import tables
from definition import GREY, answer
from jobs import random_jobs

TOO_LITTLE_ROOM = 6


def room(expected):
    """The bytes of a full run of the head: 2 where it is refused; else 6, each row with its marker, and 2."""
    if expected[0] == 0:
        return 2
    sample, width, rows = struct.unpack('<BHH', expected[1:6])
    return 6 + rows * (1 + width * (1 if sample == GREY else 4)) + 2


def run(command, job, lent, shown):
    """The number, the length, whether all else is as it was, and the first bytes of the output."""
    command.stdin.write(struct.pack('<QQQ', len(job), lent, shown) + job)
    command.stdin.flush()
    told = command.stdout.read(10)
    if len(told) < 10:
        sys.exit('the run ends with %d on the job %s with %d bytes' % (command.wait(), job.hex(), lent))
    number, written, is_intact = struct.unpack('<BQB', told)
    return number, written, bool(is_intact), command.stdout.read(shown)


def differences(command, job, expected, rng):
    needed, length = room(expected), len(expected)
    whole = expected[-1], length, True, expected
    for name, lent, shown, due in (
            ('exact room', needed, length, whole),
            ('one byte less', needed - 1, 0, (TOO_LITTLE_ROOM, 0, True, b'')),
            ('plenty of room', needed + rng.choice((1, 2, 3, 100, 4096)), length, whole)):
        got = run(command, job, lent, shown)
        if got != due:
            yield 'DIFFERENCE %s\n  job      %s\n  expected %s %s\n  got      %s %s' % (
                name, job.hex(), due[:3], due[3].hex(), got[:3], got[3].hex())


def main(count, seed, words):
    rng = random.Random(seed)
    known = tables()
    jobs = [given for _, given, _ in known] + list(random_jobs(rng, count))
    printed = [expected for _, _, expected in known]
    passed = failed = 0
    with multiprocessing.Pool() as pool, subprocess.Popen(words, stdin=subprocess.PIPE, stdout=subprocess.PIPE) as command:
        defined = itertools.chain(printed, pool.imap(answer, jobs[len(printed):], 50))
        for given, expected in zip(jobs, defined):
            wrong = list(differences(command, given, expected, rng))
            print(*wrong, sep='\n', end='\n' if wrong else '')
            failed += len(wrong)
            passed += 3 - len(wrong)
        command.stdin.close()
        failed += command.wait() != 0
    print('%d passed, %d failed' % (passed, failed))
    return failed != 0


if __name__ == '__main__':
    sys.exit(main(int(sys.argv[1]), int(sys.argv[2]), sys.argv[3:]))
