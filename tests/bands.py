#!/usr/bin/env python3
"""Writes the stdout of crates/bands: what definition.py says of the rows that its program asks for. The gate compares.

    python3 tests/bands.py
"""
import pathlib

from definition import Refusal, row_residue

NINES, RISING = [9] * 7, [1, 2, 3, 4, 5, 6, 7]
WIDE, DIM, LIGHT = [9] * 4097, [0] * 4097, [255] * 4096
# what stands in the caller's place before a call from C
STOOD = 77


def with_ten(column):
    return RISING[:column] + [10] + RISING[column + 1:]


def rows():
    for row, count in [(row, 5) for row in range(6)] + [(0, 0), (0, 65536), (0, 2), (1, 2), (1, 3), (65533, 65535), (65534, 65535)]:
        yield 'row %d of %d' % (row, count), (1, 1), row, count, NINES, RISING


def lighter():
    for column in 0, 3, 4, 5:
        yield 'column %d lighter' % column, (1, 1), 2, 5, NINES, with_ten(column)
    yield 'column 3 of row 0 lighter', (1, 1), 0, 5, NINES, with_ten(3)


def widths():
    for name, across, width in (('4 columns', 1, 4), ('5 columns', 1, 5), ('no column', 0, 0), ('1 column, all of it', 0, 1)):
        yield name, (across, across), 2, 5, NINES[:width], RISING[:width]
    for width in 124, 125, 4096, 4097:
        yield '%d columns' % width, (31, 31), 1, 3, WIDE[:width], DIM[:width]
    yield '4096 columns, all of them', (0, 0), 1, 3, LIGHT, DIM[:4096]


def sides():
    for extents, row, given in (((0, 2, 0, 2), 1, 'down 2'), ((0, 2, 0, 2), 2, 'down 2'), ((2, 0, 2, 0), 3, 'up 2'), ((2, 0, 2, 0), 4, 'up 2')):
        yield 'row %d of 6, %s' % (row, given), extents, row, 6, NINES, RISING
    for at, side in (1, 'right'), (2, 'up'), (3, 'down'):
        yield side + ' 32', [32 if place == at else 0 for place in range(4)], 0, 5, NINES, RISING


def orders():
    given = with_ten(2)
    yield 'left 32 before no rows', (32, 1), 0, 0, NINES, given
    yield 'right 32 before no columns', (1, 32), 0, 5, [], []
    yield 'row 5 of 5 before 6 columns', (1, 1), 5, 5, NINES, given[:6]
    yield '3 columns before an empty band', (1, 1), 2, 5, NINES[:4], given[:3]
    yield 'an empty band before a lighter column', (1, 1), 2, 5, NINES[:4], given[:4]
    yield '6 columns before a lighter one', (1, 1), 2, 5, NINES, given[:6]


def line(name, extents, row, count, closed, given):
    """The answer of the call, and of the one from C. Of two extents, with up 1 and down 0."""
    try:
        total = row_residue((*extents, 1, 0)[:4], row, count, closed, given)
        return '%s: sum %d; from C 0 and %d\n' % (name, total, total)
    except Refusal as refusal:
        return '%s: refused %d; from C %d and %d\n' % (name, refusal.number, refusal.number, STOOD)


if __name__ == '__main__':
    made = ''.join(line(*case) for part in (rows(), lighter(), widths(), sides(), orders()) for case in part)
    (pathlib.Path(__file__).resolve().parent.parent / 'crates' / 'bands' / 'stdout').write_text(made)
