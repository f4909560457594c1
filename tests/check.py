#!/usr/bin/env python3
"""Holds the program to definition.py: every byte that it writes, on the cases of document 01, on its line P filtered twice, on float
patterns and on random jobs.

    python3 tests/check.py [COUNT] [--seed N] [--program PATH]
    python3 tests/check.py --self

COUNT random jobs, small, tall and wide, whole and damaged, the same ones for the same seed; before them three tall ones that
are fed in pieces; after them COUNT / 3 pairs of jobs that have the same answer, where a picture is filtered once and twice, or
by two stages and by one. A difference is printed with its job in hexadecimal. --self needs no program: it holds definition.py to
the tables' answers, those that document 01 prints among them, and to the laws of filtering twice on random jobs; and the random
jobs to giving every number that the program can give, and late in tall jobs and in wide ones every number that a row can give;
and its lines to a table with the positions that gave their values.
"""
import argparse
import collections
import os
import pathlib
import random
import select
import struct
import subprocess
import sys

from cases import float_lines, lines, tables
from definition import DILATION, EROSION, GREY, Stage, answer, filtered, line_answers
from jobs import narrow_jobs, random_jobs
from twice import in_order, same_answers, values

TOP = pathlib.Path(__file__).resolve().parent.parent


def make_ready(program):
    """The first use of ./kelafshir may prove and build it, for minutes, and tells of it on standard error. That is no part of a job."""
    subprocess.run([program], input=b'', stdout=subprocess.DEVNULL, timeout=3600)


def at_once(program, given):
    run = subprocess.run([program], input=given, capture_output=True, timeout=60)
    if run.returncode or run.stderr:
        return run.stdout, 'status %d, %s' % (run.returncode, run.stderr)
    return run.stdout, ''


def in_pieces(program, given, rng):
    """Gives the job in pieces. After each the program must have written what the job, ended there, would give but for
    the last two bytes: an output row is written when it is due, not later."""
    run = subprocess.Popen([program], stdin=subprocess.PIPE, stdout=subprocess.PIPE, bufsize=0)
    got, start, late = b'', 0, ''
    for end in sorted(rng.sample(range(len(given) + 1), min(4, len(given)))):
        try:
            run.stdin.write(given[start:end])
        except BrokenPipeError:
            break
        start, due = end, len(answer(given[:end])) - 2
        while len(got) < due and select.select([run.stdout], [], [], 10)[0]:
            piece = os.read(run.stdout.fileno(), due - len(got))
            if not piece:
                break
            got += piece
        if len(got) < due:
            late = 'after %d bytes of the job only %d of %d are written' % (end, len(got), due)
            break
    try:
        return got + run.communicate(given[start:], timeout=60)[0], late
    finally:
        run.kill()


def differs(name, given, expected, got, complaint=''):
    """1 where the bytes differ or there is a complaint, and says so; else 0."""
    if got == expected and not complaint:
        return 0
    first = len(os.path.commonprefix([expected, got]))
    start = max(0, first - 16)
    print('DIFFERENCE', name, complaint)
    print('  job %s\n  differs at byte %d; from byte %d on' % (given.hex(), first, start))
    print('  expected %s\n  got      %s' % (expected[start:start + 64].hex(), got[start:start + 64].hex()))
    return 1


def all_jobs(rng, count):
    """Each job: its name, its bytes, its answer where a table or another job has it, and whether it is fed in pieces."""
    for name, given, expected in tables():
        yield name, given, expected, False
    for at, given in enumerate(narrow_jobs(rng)):
        yield 'narrow %d' % at, given, None, True
    for at, given in enumerate(random_jobs(rng, count)):
        yield str(at), given, None, at % 20 == 19 and len(given) < 2000
    for name, given, other in same_answers(rng, count // 3):
        expected = answer(given)
        yield name, given, expected, False
        yield name + ', the other', other(expected), expected, False


def check_program(program, count, rng):
    make_ready(program)
    passed = failed = 0
    numbers = collections.Counter()
    for name, given, expected, is_fed_slowly in all_jobs(rng, count):
        expected = expected or answer(given)
        try:
            got, complaint = in_pieces(program, given, rng) if is_fed_slowly else at_once(program, given)
        except subprocess.TimeoutExpired:
            got, complaint = b'', 'does not end'
        wrong = differs(name, given, expected, got, complaint)
        failed, passed = failed + wrong, passed + 1 - wrong
        numbers[expected[-1]] += 1
    print('jobs by their number:', ', '.join('%d: %d' % pair for pair in sorted(numbers.items())))
    return passed, failed


def size_of(expected):
    """'tall' where late rows are written, 'wide' where columns past 2,047 are; a refused head has no size and is small."""
    if expected[0] == 0:
        return 'small'
    sample, width, _ = struct.unpack('<BHH', expected[1:6])
    rows = (len(expected) - 8) // (1 + width * (1 if sample == GREY else 4))
    return 'tall' if rows >= 150 else 'wide' if width > 2048 else 'small'


EVERY_NUMBER = {'small': (0, 1, 2, 3, 4, 5, 8, 13, 14, 15), 'tall': (0, 8, 13, 14), 'wide': (0, 8, 13, 14)}


def check_definition(rng):
    passed = failed = 0
    for name, given, expected in tables():
        wrong = differs(name, given, expected, answer(given))
        failed, passed = failed + wrong, passed + 1 - wrong
    answers = [answer(given) for given in random_jobs(rng, 1000)]
    found = {(size_of(expected), expected[-1]) for expected in answers}
    for size, numbers in EVERY_NUMBER.items():
        missing = [number for number in numbers if (size, number) not in found]
        if missing:
            print('no %s random job gives' % size, missing)
        failed, passed = failed + bool(missing), passed + (not missing)
    return passed, failed


def check_laws(rng, count):
    """definition.py by the laws of filtering twice: the same answer, and nowhere above."""
    passed = failed = 0
    for name, given, other in same_answers(rng, count):
        expected = answer(given)
        wrong = differs(name, other(expected), expected, answer(other(expected)), 'refused' if expected[-1] else '')
        failed, passed = failed + wrong, passed + 1 - wrong
    for name, given, higher in in_order(rng, count):
        wrong = any(low > high for low, high in zip(values(answer(given)), values(answer(higher)), strict=True))
        if wrong:
            print('NOT IN ORDER %s\n  lower  %s\n  higher %s' % (name, given.hex(), higher.hex()))
        failed, passed = failed + wrong, passed + 1 - wrong
    return passed, failed


def check_lines(rng, count):
    """definition.py's lines by the table; the last position of the longest line; and on random lines the same values as a picture's, and
    positions as the best pair of a value and a position has them."""
    def held(name, expected, got):
        if expected != got:
            print('DIFFERENCE %s\n  expected %s\n  got      %s' % (name, expected, got))
        return expected == got

    same = [held('line %s' % row, list(zip(values, positions)), line_answers(kind, left, right, row))
             for kind, left, right, row, values, positions in [*lines(), *float_lines()]]
    same += [held('65,535 alike', (7, 65534), line_answers(kind, 1, 1, [7] * 65535)[-1]) for kind in (EROSION, DILATION)]
    for _ in range(count):
        stage = Stage(rng.randrange(2), rng.randrange(32), rng.randrange(32), 0, 0)
        row = [rng.randrange(rng.choice((2, 5, 256))) for _ in range(rng.randint(1, 80))]
        sign = -1 if stage.kind == EROSION else 1
        back, ahead = (stage.left, stage.right) if stage.kind == EROSION else (stage.right, stage.left)
        pairs = [max((sign * row[q], q) for q in range(len(row)) if x - back <= q <= x + ahead) for x in range(len(row))]
        same.append(held('line %s of %s' % (row, stage), list(zip(filtered(stage, [row])[0], [q for _, q in pairs])), line_answers(*stage[:3], row)))
    return same.count(True), same.count(False)


def main():
    words = argparse.ArgumentParser()
    words.add_argument('count', nargs='?', type=int, default=5000)
    words.add_argument('--self', action='store_true', dest='itself')
    words.add_argument('--seed', type=int, default=1)
    words.add_argument('--program', default=str(TOP / 'kelafshir'))
    given = words.parse_args()
    rng = random.Random(given.seed)
    parts = (check_definition(rng), check_laws(rng, 300), check_lines(rng, 100)) if given.itself else (check_program(given.program, given.count, rng),)
    passed, failed = map(sum, zip(*parts))
    print('%d passed, %d failed' % (passed, failed))
    return 1 if failed else 0


if __name__ == '__main__':
    sys.exit(main())
