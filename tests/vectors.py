#!/usr/bin/env python3
"""Writes the vectors of crates/vectors: the lines and the jobs into data/, and what definition.py says of them behind
the lines 'lines' and 'jobs' of stdout. The crate's program runs the same lines and jobs, and the gate compares.

    python3 tests/vectors.py [--list]

--list writes nothing and prints each line's file and what it is, and each job's file, the number that ends its answer, and its name.
"""
import math
import pathlib
import struct
import sys

from cases import cases, float_lines, job, lines
from definition import DILATION, EROSION, Stage, answer, line_answers, rectangle

CRATE = pathlib.Path(__file__).resolve().parent.parent / 'crates' / 'vectors'

ONE = [(DILATION, 1, 0, 0, 0)]
# one dilation and one erosion, each with one row of look-ahead
AHEAD = [(DILATION, 1, 1, 1, 0), (EROSION, 0, 1, 0, 1)]
SMALLEST, LARGEST = struct.unpack('<2f', struct.pack('<2I', 1, 0x7f7fffff))
GREYS = [bytes([7, 2, 9]), bytes([8, 0, 6]), bytes([3, 5, 1])]
RATES = [[2.5, -1.0, 0.5], [-1.0, 0.5, 2.5], [0.25, 4.0, -3.0]]


def floats(values):
    return struct.pack('<%df' % len(values), *values)


def float_job(plan, rows):
    """The job of these stages over these rows of floats."""
    head = struct.pack('<BHH', 1, len(rows[0]), len(rows))
    return bytes([len(plan)]) + b''.join(map(bytes, plan)) + head + b''.join(map(floats, rows))


def noise(x, y):
    """A byte that looks like chance: one step of a linear congruential generator, from x and y."""
    return ((x * 73856093 ^ y * 19349663) * 1664525 + 1013904223) % 2 ** 32 >> 24


def drawn(x, y):
    """A byte of slopes up and down with noise on them: no row repeats, and on a slope the first and the last pixel of a window tell."""
    return abs((2 * x + y) % 382 - 191) + noise(x, y) % 64


def grey_rows(width, rows):
    return [bytes(drawn(x, y) for x in range(width)) for y in range(rows)]


def rate_rows(width, rows):
    """The same slopes in floats of both signs, with more noise after the point."""
    return [[drawn(x, y) / 8 - 12 + noise(y, x) / 4096 for x in range(width)] for y in range(rows)]


def changed(given, at, *values):
    """The job with other bytes from a place on."""
    return given[:at] + bytes(values) + given[at + len(values):]


def with_rows(rows, given):
    """The job with another row count in its head."""
    return changed(given, 4 + 5 * given[0], *struct.pack('<H', rows))


def plans():
    """1, 2 and 3, at each place and in their order."""
    sixteen = job([(DILATION, 1, 1, 1, 1)] * 16, GREYS)
    for count in 0, 17, 255:
        yield 'count %d' % count, changed(sixteen, 0, count)
    yield 'count 0 and nothing after', b'\0'
    yield 'count 17 before a kind', changed(sixteen, 0, 17, 9)
    for stage in 0, 7, 15:
        at = 1 + 5 * stage
        for kind in 2, 255:
            yield 'kind %d of stage %d' % (kind, stage), changed(sixteen, at, kind)
        for place, side in enumerate(('left', 'right', 'up', 'down'), 1):
            yield '%s 32 of stage %d' % (side, stage), changed(sixteen, at + place, 32)
    yield 'left 255', changed(sixteen, 2, 255)
    yield 'kind before extent of one stage', changed(sixteen, 1, 2, 32)
    yield 'extent of stage 0 before kind of stage 1', changed(changed(sixteen, 5, 32), 6, 2)
    yield 'kind of stage 0 before extent of stage 1', changed(changed(sixteen, 1, 2), 7, 32)
    yield 'extent before sample kind', changed(changed(sixteen, 5, 32), 81, 2)
    yield '16 stages over 3 rows', sixteen


def heads():
    """5, 4 and 15, at each place and in their order."""
    given = job(ONE, GREYS)
    for sample in 2, 255:
        yield 'sample kind %d' % sample, changed(given, 6, sample)
    yield 'width 0', changed(given, 7, 0, 0)
    yield 'width 4,097', changed(given, 7, 1, 16)
    yield 'width 65,535', changed(given, 7, 255, 255)
    yield 'no row', changed(given, 9, 0, 0)
    yield 'sample kind before width', changed(given, 6, 2, 0, 0)
    yield 'width before cells', changed(job([(EROSION, 0, 0, 31, 31)], GREYS), 7, 1, 16)
    yield 'row count before cells', changed(job([(EROSION, 0, 0, 31, 31)], GREYS), 7, 0, 16, 0, 0)
    yield 'cells over in the first stage', job([(EROSION, 0, 0, 1, 0)], [bytes(4096)])
    yield 'cells over in the last stage', job([(EROSION, 0, 0, 0, 0)] * 16, [bytes(257)])
    yield '4,096 cells of 16 stages', job([(EROSION, 0, 0, 0, 0)] * 16, [bytes(256)])
    yield 'cells over, and no row byte read', job([(EROSION, 0, 0, 31, 31)], [bytes(66)])[:11]
    yield 'cells over, floats', float_job([(DILATION, 0, 0, 31, 31)], [[0.0] * 66])


def cuts():
    """13 at each group and inside each, before its other checks."""
    given = job(AHEAD, GREYS)
    for end, name in ((0, 'the count'), (1, 'the stages'), (3, 'the first stage'), (6, 'the second stage'), (10, 'the stages, a byte less'),
                      (11, 'the head'), (12, 'the head, a byte read'), (15, 'the head, a byte less'), (16, 'row 0'), (18, 'row 0, a byte less'),
                      (19, 'row 1'), (20, 'row 1, a byte read'), (22, 'row 2'), (24, 'row 2, a byte less')):
        yield 'cut at ' + name, given[:end]
    rates = float_job(AHEAD, RATES)
    for end, name in (16, 'row 0'), (17, 'a float'), (27, 'row 0, a byte less'), (40, 'row 2'), (51, 'row 2, a byte less'):
        yield 'floats cut at ' + name, rates[:end]
    for name, whole in ('grey', job(ONE, GREYS)), ('floats', float_job(ONE, RATES)):
        size = (len(whole) - 11) // 3
        yield name + ', a row written, cut at row 1', whole[:11 + size]
        yield name + ', two rows written, cut in row 2', whole[:-1]
    yield 'cut stages before their kind', changed(given, 1, 9)[:10]
    yield 'cut head before its sample kind', changed(given, 11, 9)[:15]
    yield 'cut row before its pixels', float_job(ONE, [[math.nan, 0.0, 0.0]])[:22]


def ends():
    """14, and 0, with and without a look-ahead."""
    for name, given in (('grey', job(AHEAD, GREYS)), ('floats', float_job(AHEAD, RATES)), ('no look-ahead', job(ONE, GREYS))):
        yield name + ', whole', given
        yield name + ', a byte after', given + b'\0'
        yield name + ', 40 bytes after', given + bytes(range(40))


def pixels():
    """8 at each place, and the floats that are accepted."""
    for name, value in ('not-a-number', math.nan), ('infinity', math.inf), ('negative infinity', -math.inf):
        yield name + ' in row 0, column 0', float_job(AHEAD, [[value, 0.0, 1.0]] + RATES[1:])
        yield name + ' in row 1, column 1', float_job(AHEAD, [RATES[0], [0.0, value, 1.0], RATES[2]])
        yield name + ' in the last row and column', float_job(AHEAD, RATES[:2] + [[0.0, 1.0, value]])
    yield 'signalling not-a-number', changed(float_job(ONE, RATES), 11, 1, 0, 0x80, 0x7f)
    yield 'case 12: a not-a-number, then the right row', float_job(ONE, [RATES[0], [-1.0, math.nan, math.nan], RATES[1]])
    yield 'case 12: the right row alone', float_job(ONE, RATES[:2])
    yield 'a pixel before the bytes after', float_job(ONE, [[math.inf, 0.0, 0.0]]) + b'\0'
    for kind, name in (EROSION, 'eroded'), (DILATION, 'dilated'):
        plan = [(kind, 1, 0, 0, 0)]
        yield 'both zeros, ' + name, float_job(plan, [[0.0, -0.0, 0.0, -0.0], [-0.0, -0.0, -0.0, -0.0]])
        yield 'smallest and largest, ' + name, float_job(plan, [[SMALLEST, -SMALLEST, LARGEST, -LARGEST, 0.0, -0.0, 1.0]])


def sizes():
    """Widths 1 and 4,096, one row and many."""
    ramp = [value * 37 % 251 for value in range(4096)]
    yield 'width 1, one row', job(AHEAD, [b'\7'])
    yield 'width 1, one row of floats', float_job(AHEAD, [[-0.5]])
    yield 'width 4,096', job([(DILATION, 3, 2, 0, 0)], [bytes(ramp), bytes(reversed(ramp))])
    yield 'width 4,096, floats', float_job([(EROSION, 31, 31, 0, 0)], [[value / 8 - 10 for value in ramp]])
    yield 'all extents 31, fewer rows than the look-ahead', job([(DILATION, 31, 31, 31, 31)] * 4, [bytes(ramp[at:at + 10]) for at in range(5)])


def cut_pixels():
    """A row that holds a not-a-number: 13 where it is cut behind that, and 8 where it is all there, also where the job ends with it."""
    for name, plan in ('', ONE), ('look-ahead, ', AHEAD):
        for row in range(3):
            given = with_rows(3, float_job(plan, RATES[:row] + [[0.5, math.nan, -math.inf]]))
            yield '%sa not-a-number in row %d, cut behind it' % (name, row), given[:-4]
            yield '%sa not-a-number in row %d, a byte less' % (name, row), given[:-1]
            yield '%sa not-a-number in row %d, and the job ends with it' % (name, row), given


OPENING = [(EROSION, 2, 1, 31, 31), (DILATION, 2, 1, 31, 31)]
THREE = [(DILATION, 1, 0, 3, 1), (EROSION, 0, 2, 31, 31), (DILATION, 1, 1, 0, 2)]
# the alternate sequential filter of order 4
SIXTEEN = [(kind, order, order, order, order) for order in range(1, 5) for kind in (EROSION, DILATION, DILATION, EROSION)]


def tall():
    """300 and 2,000 rows, none like another, through windows of 63 down among others."""
    for name, plan in ('dilated', [(DILATION, 31, 31, 31, 31)]), ('eroded', [(EROSION, 31, 31, 31, 31)]):
        yield '300 rows, %s by 63 x 63' % name, job(plan, grey_rows(65, 300))
        yield '300 rows of floats, %s by 63 x 63' % name, float_job(plan, rate_rows(12, 300))
    for name, plan in ('an opening with a window of 63 down', OPENING), ('16 stages', SIXTEEN):
        yield '300 rows, ' + name, job(plan, grey_rows(20, 300))
        yield '300 rows of floats, ' + name, float_job(plan, rate_rows(8, 300))
    for name, plan in ('an opening with a window of 63 down', OPENING), ('three stages with a window of 63 down', THREE):
        yield '2,000 rows, ' + name, job(plan, grey_rows(8, 2000))
        yield '2,000 rows of floats, ' + name, float_job(plan, rate_rows(3, 2000))


def damaged_late(rows, greys, rates):
    """13, 8 and 14 late in jobs of so many rows: what is due before is written."""
    late, size = rows * 4 // 5, len(rates[0])
    spoiled = rates[:late] + [[0.0] * (size - 2) + [math.nan, 0.5]]
    name = '{:,} rows, '.format(rows)
    yield name + 'a byte after', job(THREE, greys) + b'\0'
    yield name + 'cut at row %d' % late, with_rows(rows, job(THREE, greys[:late]))
    yield name + 'cut in the last row', job(THREE, greys)[:-1]
    yield name + 'a byte after floats', float_job(THREE, rates) + b'\0'
    yield name + 'cut in row %d, floats' % late, with_rows(rows, float_job(THREE, rates[:late + 1]))[:-5]
    yield name + 'a not-a-number in row %d' % late, float_job(THREE, spoiled + rates[late + 1:])
    yield name + 'a not-a-number in the last row and column', float_job(THREE, rates[:-1] + [rates[-1][:-1] + [math.nan]])
    yield name + 'a not-a-number in row %d, cut behind it' % late, with_rows(rows, float_job(THREE, spoiled))[:-4]
    yield name + 'a not-a-number in row %d, a byte less' % late, with_rows(rows, float_job(THREE, spoiled))[:-1]


def tall_damaged():
    yield from damaged_late(300, grey_rows(8, 300), rate_rows(5, 300))
    yield from damaged_late(2000, grey_rows(4, 2000), rate_rows(2, 2000))


def wide():
    """Columns past 2,047, none like another, windows of 63 across among others; whole and damaged there."""
    for kind, name in (EROSION, 'eroded'), (DILATION, 'dilated'):
        yield 'width 4,096, 4 rows, %s by 63' % name, job([(kind, 31, 31, 0, 0)], grey_rows(4096, 4))
        yield 'width 4,096, 2 rows of floats, %s by 63' % name, float_job([(kind, 31, 31, 0, 0)], rate_rows(4096, 2))
        yield 'width 2,049, 4 rows, %s with left 31' % name, job([(kind, 31, 0, 0, 0)], grey_rows(2049, 4))
        yield 'width 3,001, 2 rows of floats, %s with left 5, right 31' % name, float_job([(kind, 5, 31, 0, 0)], rate_rows(3001, 2))
    plan, rates = [(DILATION, 31, 31, 0, 0)], rate_rows(2100, 2)
    spoiled = [rates[0], rates[1][:2090] + [math.nan] + rates[1][2091:]]
    yield 'width 4,096, a byte after', job(plan, grey_rows(4096, 2)) + b'\0'
    yield 'width 4,096, cut in the last column', job(plan, grey_rows(4096, 2))[:-1]
    yield 'width 2,100, a not-a-number in column 2,090', float_job(plan, spoiled)
    yield 'width 2,100, a not-a-number in column 2,090, cut behind it', float_job(plan, spoiled)[:-36]
    yield 'width 2,100, a not-a-number in column 2,090, a byte less', float_job(plan, spoiled)[:-1]


EXTENTS = (0, 0), (0, 3), (3, 0), (1, 1), (5, 9), (31, 31), (31, 0), (0, 31)


def drawn_lines(extents):
    """Kind, left, right and pixels of lines below the window and beyond a queue's places: of 2, 5 and 256 values, and two slopes, which
    fill a queue."""
    for kind in EROSION, DILATION:
        for at, (left, right) in enumerate(extents):
            for length, count in (2, 2), (9, 5), (64, 2), (150, 256):
                yield kind, left, right, [noise(x, at) % count for x in range(length)]
            yield kind, left, right, [abs(x - 100) for x in range(200)]


def drawn_float_lines():
    """The same lines in floats: few values with both zeros among them, and many of both signs."""
    few = -1.0, -0.0, 0.0, 0.5, -0.0
    for kind, left, right, row in drawn_lines(EXTENTS[1::2]):
        yield kind, left, right, [few[value] if max(row) < 5 else value / 8 - 12 for value in row]


def told(kind, left, right, row, word):
    """What the steps of a line tell: F times nothing yet, each pixel and the position that gave it, and a drain that is refused."""
    ahead = rectangle(Stage(kind, left, right, 0, 0))[1]
    return ':%s%s, refused 10\n' % (' -' * ahead, ''.join(' %s@%d' % (word(value), position) for value, position in line_answers(kind, left, right, row)))


def longest():
    """65,535 equal pixels, extents 31: what the last one read tells, and the drains."""
    last = line_answers(EROSION, 31, 31, [7] * 65535)[-32:]
    return '65535 alike:%s, refused 10\n' % ''.join(' %d@%d' % pair for pair in last)


def all_lines():
    """Each line's file, what it is, its bytes and what its steps tell."""
    greys = [line[:4] for line in lines()] + list(drawn_lines(EXTENTS))
    rates = [line[:4] for line in float_lines()] + list(drawn_float_lines())
    for letter, group, packed, word in ('g', greys, bytes, str), ('r', rates, floats, lambda value: struct.pack('>f', value).hex()):
        for at, (kind, left, right, row) in enumerate(group):
            name = '%s, left %d, right %d, pixels %d' % (('eroded', 'dilated')[kind], left, right, len(row))
            given = struct.pack('<BBBH', kind, left, right, len(row)) + packed(row)
            # adding 0 reads a negative zero as positive zero
            yield '%s%03d' % (letter, at), name, given, told(kind, left, right, [value + 0 for value in row], word)


def jobs():
    for name, given, expected in cases():
        assert answer(given) == expected, name
        yield name, given
    # What is added goes to the end: docs/ACCEPTANCE.md names the files by their numbers.
    for group in plans, heads, cuts, ends, pixels, sizes, cut_pixels, tall, tall_damaged, wide:
        yield from group()


def main():
    is_list = sys.argv[1:] == ['--list']
    line_files = list(all_lines())
    job_files = [('j%03d' % at, name, given, answer(given)) for at, (name, given) in enumerate(jobs())]
    if is_list:
        for file, name, _, _ in line_files:
            print(file, '  ', name)
        for file, name, _, expected in job_files:
            print(file, '%2d' % expected[-1], name)
        return
    data = CRATE / 'data'
    data.mkdir(exist_ok=True)
    for old in data.iterdir():
        old.unlink()
    for file, _, given, _ in line_files + job_files:
        (data / file).write_bytes(given)
    stdout = CRATE / 'stdout'
    by_hand = stdout.read_bytes().partition(b'lines\n')[0]
    of_lines = {letter: ''.join(file + expected for file, _, _, expected in line_files if file[0] == letter) for letter in 'gr'}
    of_jobs = b''.join(file.encode() + b'\n' + expected + b'\n' for file, _, _, expected in job_files)
    stdout.write_bytes(by_hand + ('lines\n' + of_lines['g'] + longest() + of_lines['r']).encode() + b'jobs\n' + of_jobs)
    print('%d lines, %d jobs' % (len(line_files), len(job_files)))


if __name__ == '__main__':
    main()
