#!/usr/bin/env python3
"""Holds runs that ask for origins to the definitions: every answer, state, output row and origin, and all of the memory after every call.

    python3 tests/origins.py [COUNT [SEED [COMMAND..]]]
    python3 tests/origins.py --self
    python3 tests/origins.py --write [COMMAND..]

COMMAND runs the program of crates/origins; without one it is target/bin/origins, which tests/origins.sh proves and builds before it runs this. Run are
pictures whose origins are known, each pair of things that can be wrong, and COUNT random pictures, the same ones for the same seed: each picture with
its rows counted and open with a stop, each time beside a run that does not ask, with calls between them that are refused; some are mixed, or far on.
--self needs no program: it holds the readings of origin_reading.py to definition.py, to each other and to answers made by hand, and the comparison to
telling wrong lines. --write writes crates/origins/stdin and stdout anew, from runs that are held to the definitions as they go.
"""
import collections
import multiprocessing
import pathlib
import random
import re
import sys

from definition import DILATION, EROSION, FLOAT, GREY, Stage, filtered
from origin_calls import Program, Slices
from origin_cases import KEPT, SCRIPTS, TWO, pairs, start_orders
from origin_random import any_shape, picture, random_runs
from origin_reading import asked_start_rules, last_pixel, origins, step_rules
from origin_run import Difference
from runs import FIXED, LAST, OPEN, STOPPED, Lent, Plan, State, first_of, plan_of

TOP = pathlib.Path(__file__).resolve().parent.parent
CRATE = TOP / 'crates' / 'origins'
BUILT = [str(TOP / 'target' / 'bin' / 'origins')]

# ---- the comparison

# Numbers that stand next to each other in an order, with the first one's place: 12 is twice in a step's. No call can be told both 9 and 28, since one is
# for a run that is not open and the other for one that is: 12 and 7 stand next to both. A start's 20 is of two stages, and its 5 and 4 are told of one.
SHARED = {(12, 20, 0), (20, 5, 1), (5, 6, 2), (6, 12, 3)}
NEXT = {(call, *pair) for call in ('origin row', 'origin drain') for pair in SHARED} | {
    ('origin row', 12, 9, 4), ('origin row', 12, 28, 4), ('origin row', 9, 7, 5), ('origin row', 28, 7, 6), ('origin row', 7, 8, 7),
    ('origin drain', 12, 10, 4), ('origin drain', 10, 7, 5),
    ('start', 1, 2, 0), ('start', 2, 3, 1), ('start', 3, 2, 2), ('start', 3, 20, 4), ('start', 20, 5, 5), ('start', 5, 4, 4), ('start', 4, 6, 5)}


def scripted(program, make):
    """Runs a script. Those about the order of numbers have to bring about each two things that are wrong whose numbers stand next to each other."""
    rng = random.Random(make.__name__)
    program.title('script %s' % make.__name__)
    if make not in (pairs, start_orders):
        return make(program, rng)
    noted, calls = set(), ('start',) if make is start_orders else ('origin row', 'origin drain')
    make(program, rng, noted)
    missing = {pair for pair in NEXT if pair[0] in calls} - noted
    assert not missing, 'not together: %s' % sorted(missing)


def by_number(lines):
    """How often each call got each number, 0 where it was taken."""
    found = (re.match(r'(?:(?:grey|rate) )?([a-z ]+): (?:refused )?(\d+|not yet|row)', line) for line in lines)
    return collections.Counter((match[1], int(match[2]) if match[2].isdigit() else 0) for match in found if match and match[1] in CALLS)


CALLS = 'start', 'origin row', 'origin drain', 'row', 'drain', 'stop'


def carried_out(task):
    """A script or random runs, by its name: how much was compared, the numbers, and what was wrong."""
    words, name = task
    lines, checked = [], 0
    try:
        with Program(words) as program:
            lines = program.lines
            try:
                if name[0].isdigit():
                    random_runs(program, name)
                else:
                    scripted(program, next(make for make in SCRIPTS if make.__name__ == name))
            finally:
                checked = program.checked
    except Exception as wrong:  # whatever a wrong program brings about is told
        said = 'DIFFERENCE in %s, command %d\n%s: %s\n' % (name, len(lines), type(wrong).__name__, wrong)
        return checked, by_number(lines), said + ''.join('  after    %s\n' % line[:160] for line in lines[-6:])
    return checked, by_number(lines), ''


def check_runs(count, seed, words):
    passed = failed = 0
    numbers = collections.Counter()
    tasks = [(words, make.__name__) for make in SCRIPTS] + [(words, '%d.%d' % (seed, at)) for at in range(count)]
    with multiprocessing.Pool() as pool:
        for checked, told, wrong in pool.imap(carried_out, tasks):
            passed, failed = passed + checked, failed + bool(wrong)
            numbers += told
            if wrong and failed <= 3:
                print(wrong, end='')
    for call in CALLS:
        print('%s by its number:' % call, ', '.join('%d: %d' % (number, times) for (name, number), times in sorted(numbers.items()) if name == call))
    return passed, failed


# ---- the tests of the tests

def check_readings(rng):
    """Origins of random pictures, by both readings: the pixel there has the value that definition.py gives."""
    for _ in range(120):
        stage, width, height = any_shape(rng)
        sample = rng.randrange(2)
        rows = [[value + 0 for value in row] for row in picture(rng, sample, width, min(height, 20))]
        out = filtered(stage, rows)
        yield all([rows[q][x] for q, x in origins(stage, rows, y)] == out[y] for y in range(len(rows)))


def check_by_hand():
    """Origins by hand: the last pixel row by row, whatever column it has."""
    all_one = Stage(DILATION, 1, 1, 1, 1)
    for stage, rows, at, origin in (
            (all_one, [[0, 0, 0], [0, 9, 0], [0, 0, 0]], (2, 0), (1, 1)), (all_one._replace(kind=EROSION), [[0, 0, 0], [0, 9, 0], [0, 0, 0]], (0, 0), (1, 0)),
            (all_one._replace(kind=EROSION), [[0, 0, 0], [0, 9, 0], [0, 0, 0]], (1, 1), (2, 2)), (all_one, [[5, 9], [9, 5]], (0, 1), (1, 0)),
            (all_one, [[-0.0, 0.0]], (0, 0), (0, 1)), (all_one, [[0.0, -0.0]], (0, 0), (0, 1)),
            # a dilation's window is reflected: one to the left of the pixel for one to the right of the origin
            (Stage(DILATION, 0, 1, 0, 0), [[7, 7, 7]], (0, 1), (0, 1)), (Stage(EROSION, 0, 1, 0, 0), [[7, 7, 7]], (0, 1), (0, 2)),
            (Stage(DILATION, 0, 0, 0, 2), [[7], [7], [7], [6]], (3, 0), (2, 0)), (Stage(EROSION, 0, 0, 0, 2), [[7], [7], [7], [6]], (0, 0), (2, 0))):
        yield last_pixel(stage, rows, *at) == origin


def check_numbers():
    """Starts and steps, and their numbers as the sentences of documents 01 and 02 have them."""
    one, two = plan_of(TWO[:1]), plan_of(TWO)
    for number, plan, sample, width, rows, cells, records in (
            (0, one, 0, 3, 3, 9, 3), (20, two, 0, 3, 3, 4096, 1024), (20, two, 7, 3, 3, 4096, 1024), (20, two, 7, 0, 0, 0, 0), (5, one, 7, 0, 0, 0, 0),
            (4, one, 1, 0, 0, 0, 0), (6, one, 1, 3, 3, 8, 3), (6, one, 1, 3, 3, 9, 2), (1, Plan(17, two.stages), 7, 0, 0, 0, 0),
            (1, Plan(0, two.stages), 7, 0, 0, 0, 0),
            (3, plan_of([TWO[0], TWO[1]._replace(up=32)]), 7, 3, 3, 0, 0), (2, plan_of([TWO[0], TWO[1]._replace(kind=2, up=32)]), 7, 3, 3, 0, 0)):
        yield first_of(asked_start_rules(FIXED, plan, sample, width, rows, cells, Lent(0, 0, records, 1024))) == number
        yield first_of(asked_start_rules(FIXED, plan, sample, width, rows, cells, Lent(0, 0, 1024, records))) == number
    state = State(one, GREY, 3, FIXED, 3, 1)
    fit = Slices([], [0] * 3, [0] * 3, [0] * 3, [0] * 9, [0] * 9, [0] * 9, [0] * 3, [0] * 3)
    row, off = [1, 2, 3], [1.0, float('nan'), 2.0]
    for number, kind, given, slices, pixels in (
            (0, GREY, state, fit, row), (12, GREY, state._replace(width=0, plan=two), fit, row), (20, GREY, state._replace(plan=two), fit, row),
            (20, FLOAT, state._replace(plan=two), fit, row), (20, GREY, state._replace(plan=two, step=3), fit._replace(columns=[]), row[:2]),
            (5, FLOAT, state, fit._replace(columns=[]), row), (6, GREY, state, fit._replace(columns=[0] * 8, starts=[3] * 3), row),
            (6, GREY, state, fit._replace(values=[0] * 8), row), (6, GREY, state, fit._replace(lengths=[0] * 2), row),
            (12, GREY, state._replace(step=3), fit._replace(starts=[0, 3, 0]), row), (12, GREY, state, fit._replace(lengths=[0, 0, 4]), row),
            (9, GREY, state._replace(step=3), fit, row[:2]), (28, GREY, state._replace(ending=OPEN, step=LAST), fit._replace(out=[]), row),
            (9, GREY, state._replace(ending=STOPPED, step=3), fit, row), (7, GREY, state, fit, row[:2]), (7, GREY, state, fit._replace(out=[0] * 4), row),
            (7, GREY, state, fit._replace(origin_rows=[0] * 2), row), (7, GREY, state, fit._replace(origin_columns=[]), row),
            (8, FLOAT, state._replace(sample=FLOAT), fit, off), (7, FLOAT, state._replace(sample=FLOAT), fit._replace(origin_rows=[]), off)):
        yield first_of(step_rules(True, False, kind, given, slices, pixels)) == number
    last = state._replace(step=3)
    for number, given, slices in (
            (10, state, fit), (0, last, fit), (10, last._replace(step=4), fit._replace(out=[])), (10, state._replace(ending=OPEN), fit),
            (20, state._replace(plan=two), fit), (7, last, fit._replace(origin_rows=[0] * 4)), (7, last, fit._replace(origin_columns=[0] * 2)),
            (7, last, fit._replace(out=[0] * 2)), (6, state, fit._replace(columns=[0] * 8))):
        yield first_of(step_rules(True, True, GREY, given, slices, ())) == number
    # a step that does not ask looks at no columns and at one output row
    yield first_of(step_rules(False, False, GREY, state, fit._replace(columns=[], origin_rows=[], origin_columns=[]), row)) == 0
    fits_two = fit._replace(values=[0] * 18, positions=[0] * 18, starts=[0] * 6, lengths=[0] * 6)
    yield first_of(step_rules(False, True, GREY, last._replace(plan=two), fits_two, ())) == 0


class Replay(Program):
    """A program that tells the lines of the crate's file, whatever it is given."""

    def __init__(self, lines):
        self.commands, self.lines, self.checked, self.left = [], [], 0, iter(lines)

    def __exit__(self, *_):
        pass

    def tell(self, given):
        return next(self.left, '')


def replayed(make, lines):
    """Whether the lines of a script are found right."""
    try:
        with Replay(lines) as program:
            scripted(program, make)
            return next(program.left, None) is None
    except (Difference, AssertionError, AttributeError, KeyError, ValueError):
        return False


def scripts_kept():
    """The scripts of the crate's file with their lines."""
    parts = (CRATE / 'stdout').read_text().split('script ')[1:]
    return [(make, ('script ' + part).splitlines(True)) for make, part in zip(KEPT, parts, strict=True)]


def check_comparison(rng):
    """Right lines are taken, and a line with a character changed, a line too few and one too many are told."""
    for make, lines in scripts_kept():
        yield replayed(make, lines)
        yield not replayed(make, lines[:-1])
        yield not replayed(make, lines + lines[-1:])
        for at in rng.sample(range(len(lines)), 30):
            place = rng.randrange(len(lines[at]) - 1)
            wrong = lines[at][:place] + chr(ord(lines[at][place]) ^ 1) + lines[at][place + 1:]
            yield not replayed(make, lines[:at] + [wrong] + lines[at + 1:])
            yield not replayed(make, lines[:at] + lines[at + 1:])


def check_self():
    rng = random.Random(1)
    parts = {'readings': check_readings(rng), 'origins by hand': check_by_hand(), 'numbers': check_numbers(), 'comparison': check_comparison(rng)}
    total = collections.Counter()
    for name, checks in parts.items():
        counts = collections.Counter(checks)
        if counts[False]:
            print('%d of %s are wrong' % (counts[False], name))
        total += counts
    return total[True], total[False]


# ---- the files of the crate

def write_files(words):
    with Program(words) as program:
        for make in KEPT:
            scripted(program, make)
    (CRATE / 'stdin').write_bytes(b''.join(program.commands))
    (CRATE / 'stdout').write_text(''.join(line + '\n' for line in program.lines))
    print('%d commands' % len(program.lines))


def main(words):
    if words[:1] == ['--write']:
        return write_files(words[1:] or BUILT)
    if words == ['--self']:
        passed, failed = check_self()
    else:
        count, seed = (int(word) for word in (words + ['100', '1'][len(words):])[:2])
        passed, failed = check_runs(count, seed, words[2:] or BUILT)
    print('%d passed, %d failed' % (passed, failed))
    return failed != 0


if __name__ == '__main__':
    sys.exit(main(sys.argv[1:]))
