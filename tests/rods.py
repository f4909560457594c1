#!/usr/bin/env python3
"""Writes the stdout of crates/rods: what definition.py says of the questions that its program asks. The gate compares.

    python3 tests/rods.py
"""
import pathlib

from definition import NO, NOT_YET, YES, Question, Refusal, worn_pair, worn_start

# extents with which all of a picture is counted, and what a refused start hands back
ALL, ZEROS = (0, 0, 0, 0), Question(*[0] * 9)
WORDS = {NOT_YET: 'not yet', YES: 'yes', NO: 'no'}
WIDEST, MOST_ROWS, GREATEST = 4096, 65535, 2 ** 64 - 1
FIRST, SECOND, THIRD = ([5, 5], [1, 2]), ([4, 4], [1, 1]), ([3, 3], [3, 3])
LIGHTER, LONGER = ([4, 4], [5, 1]), ([4, 4, 4], [5, 1, 1])
LENGTHS = [([4, 4, 4], [4, 4]), ([4, 4], [4, 4, 4]), ([4, 4], [9]), ([], [4, 4]), ([4, 4, 4], [4, 4, 4]), ([], [])]


# ---- what is told of a call, by both ways

def told(question):
    return '; %d %d %d %d, %d by %d, limit %d, row %d, sum %d' % question


def started(name, extents, width, rows, limit):
    """The line of a start, and the question that it hands back."""
    number, question = 0, ZEROS
    try:
        question = worn_start(extents, width, rows, limit)
    except Refusal as refusal:
        number = refusal.number
    return '%s: %d%s; from C %d%s\n' % (name, number, told(question), number, told(question)), question


def asked(name, question, pair):
    """The line of a pair, and the question after it."""
    try:
        answer, question = worn_pair(question, *pair)
        said, number = WORDS[answer], 0
    except Refusal as refusal:
        answer, said, number = NOT_YET, 'refused %d' % refusal.number, refusal.number
    return '%s: %s%s; from C %d and %d%s\n' % (name, said, told(question), number, answer, told(question)), question


def rows_of(pair):
    return ', '.join(' '.join(map(str, [word, *row])) for word, row in zip(('closed', 'input'), pair))


def run(name, extents, width, rows, limit, *pairs):
    """The lines of a start and of the pairs after it."""
    line, question = started(name, extents, width, rows, limit)
    yield line
    for pair in pairs:
        line, question = asked(rows_of(pair), question, pair)
        yield line


def state(name, question, pair=SECOND):
    """The line of a pair on a question that no call made."""
    return asked('%s, %s' % (name, rows_of(pair)), question, pair)[0]


# ---- pictures of 2 columns and 3 rows

def three(name, limit, *pairs):
    return run(name, ALL, 2, 3, limit, *pairs)


def limits():
    for limit in 6, 7, 12, 13, 0, GREATEST:
        yield from three('limit %d' % limit, limit, FIRST, SECOND, THIRD)
    yield from three('limit 0 and nothing worn', 0, THIRD, THIRD, THIRD)


def after_yes():
    more = [([], []), LIGHTER, THIRD, ([4, 4, 4], [1]), ([], [4, 4, 4]), THIRD]
    yield from three('limit 10, and pairs after the yes', 10, FIRST, SECOND, *more)
    yield from three('a yes with the last row', 10, THIRD, SECOND, FIRST, ([], []), SECOND)


def refusals():
    yield from three('refused before the yes', 10, FIRST, LIGHTER, SECOND)
    read = [*LENGTHS, FIRST, *LENGTHS, LIGHTER, SECOND, *LENGTHS, THIRD]
    yield from three('refused before the no', 13, *read, LIGHTER, *LENGTHS, THIRD)


# ---- pictures of 7 columns and 5 rows, of which a band is counted

def nines_and(*given):
    return [9] * 7, list(given)


def bands():
    row, beside = nines_and(*range(1, 8)), nines_and(1, 10, 3, 4, 5, 10, 7)
    lighter, short = nines_and(10, 10, 10, 0, 10, 10, 10), nines_and(*range(1, 7))
    yield from run('a band, limit 45', (1, 1, 1, 0), 7, 5, 45, short, lighter, short, lighter, row, beside, row, short, lighter)
    yield from run('a band, limit 44', (1, 1, 1, 0), 7, 5, 44, row, row, row, row, row, short)
    for name, extents, limit in (
            ('left 2, down 1', (2, 0, 0, 1), 45), ('right 2, up 1', (0, 2, 1, 0), 44),
            ('left 1, up 2', (1, 0, 2, 0), 25), ('right 1, down 2', (0, 1, 0, 2), 24)):
        yield from run(name, extents, 7, 5, limit, *[row] * 5)


# ---- extents and sizes, of starts and of questions that no call made

def one_extent(extent):
    """This extent on each side in turn."""
    for at, side in enumerate(('left', 'right', 'up', 'down')):
        yield side, tuple(extent if place == at else 0 for place in range(4))


def far_extents():
    yield 'extents 31', (31,) * 4, WIDEST, MOST_ROWS
    for side, extents in one_extent(32):
        yield side + ' 32', extents, WIDEST, MOST_ROWS


def near_bands():
    """Bands that are just empty, and next to them those that are not."""
    sides = dict(one_extent(1))
    for side, columns in ('left', 2), ('right', 2), ('left', 3):
        yield '%s 1 of %d columns' % (side, columns), sides[side], columns, 3
    for side, rows in ('up', 2), ('down', 2), ('up', 3):
        yield '%s 1 of %d rows' % (side, rows), sides[side], 2, rows


def start_sizes():
    yield 'left 255 and right 1', (255, 1, 0, 0), WIDEST, MOST_ROWS
    yield '1 column and 1 row', ALL, 1, 1
    for columns in 0, 4097, 2 ** 32 + 2:
        yield '%d columns' % columns if columns else 'no column', ALL, columns, 3
    for rows in 0, 65535, 65536, 2 ** 32 + 3:
        yield '%d rows' % rows if rows else 'no row', ALL, 2, rows


def start_bands():
    for name, columns, rows in ('124 columns', 124, 125), ('124 rows', 125, 124), ('125 of both', 125, 125):
        yield 'extents 31 of ' + name, (31,) * 4, columns, rows


def start_orders():
    sides, ones = dict(one_extent(32)), dict(one_extent(1))
    yield 'left 32 before no column', sides['left'], 0, 3
    yield 'down 32 before 65536 rows', sides['down'], 2, 65536
    yield 'up 32 before an empty band', sides['up'], 2, 64
    yield '4097 columns before an empty band', ones['up'], 4097, 2
    yield '65536 rows before an empty band', ones['left'], 2, 65536
    yield 'right 32 before both', (0, 32, 1, 0), 4097, 2


def starts():
    for part in far_extents, start_sizes, near_bands, start_bands, start_orders:
        for case in part():
            yield from run(*case, 77, SECOND)


# ---- questions that no call made

def small(limit, row, total):
    return Question(*ALL, 2, 3, limit, row, total)


def state_rows():
    for row in 2, 3, 4, 65537, 2 ** 32 + 1:
        yield state('row %d of 3' % row, small(13, row, 0))
    yield state('the greatest row', small(13, GREATEST, 0))


def state_sums():
    for limit, row, total in (
            (1000, 1, 510), (1000, 1, 511), (1000, 0, 0), (1000, 0, 1), (1026, 2, 1020), (1025, 2, 1020), (1026, 2, 1021),
            (1530, 3, 1530), (1529, 3, 1530), (1530, 3, 1531)):
        yield state('row %d, sum %d' % (row, total), small(limit, row, total))
    yield state('a limit of 2^32', small(2 ** 32, 1, 7))
    yield state('a sum of 2^32', small(10, 1, 2 ** 32))
    yield state('the greatest sum', small(10, 1, GREATEST))


def state_sizes():
    for name, width in ('0', 0), ('1', 1), ('4096', 4096), ('4097', 4097), ('2^32 + 2', 2 ** 32 + 2):
        yield 'width ' + name, ALL, width, 3
    for name, rows in ('no row', 0), ('1 row', 1), ('65535 rows', 65535), ('65536 rows', 65536), ('2^32 + 3 rows', 2 ** 32 + 3):
        yield name, ALL, 2, rows


def state_orders():
    yield state('over the limit and row 4 of 3', small(10, 4, 13))
    yield state('over the limit and sum 511', small(10, 1, 511))
    yield state('over the limit and all rows read', small(10, 3, 13))
    yield state('over the limit and 3 columns', small(10, 2, 13), LONGER)
    yield state('over the limit and lighter', small(10, 2, 13), LIGHTER)
    yield state('row 4 of 3 before 3 columns', small(13, 4, 0), LONGER)
    yield state('sum 511 before lighter', small(1000, 1, 511), LIGHTER)
    yield state('sum 1531 before all rows read', small(2000, 3, 1531))
    yield state('all rows read before 3 columns', small(13, 3, 0), LONGER)
    yield state('all rows read before lighter', small(13, 3, 0), LIGHTER)
    yield state('3 columns before lighter', small(13, 1, 0), LONGER)
    yield state('lighter', small(13, 1, 0), LIGHTER)


def largest():
    """The last row of the largest picture, and a row more."""
    pair, read, most = ([255] * WIDEST, [0] * WIDEST), 255 * WIDEST * (MOST_ROWS - 1), 255 * WIDEST * MOST_ROWS
    for name, limit, total in (
            ('the largest sum, limit as much', most, read), ('the largest sum, limit 1 less', most - 1, read),
            ('the largest sum and limit', GREATEST, read), ('a sum 1 over the most', most, read + 1)):
        line, question = asked(name, Question(*ALL, WIDEST, MOST_ROWS, limit, MOST_ROWS - 1, total), pair)
        yield line
        yield asked('a row more', question, pair)[0]


def states():
    yield from state_rows()
    yield from state_sums()
    for part in state_sizes, far_extents, near_bands:
        for name, extents, width, rows in part():
            yield state(name, Question(*extents, width, rows, 13, 0, 0))
    yield from state_orders()
    yield from largest()


if __name__ == '__main__':
    made = ''.join(line for part in (limits, after_yes, refusals, bands, starts, states) for line in part())
    (pathlib.Path(__file__).resolve().parent.parent / 'crates' / 'rods' / 'stdout').write_text(made)
