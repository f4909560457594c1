#!/usr/bin/env python3
"""Holds the dark residue, from C, to definition.py: every byte that a call tells, and the residues of whole pictures.

    python3 tests/dark.py COUNT SEED COMMAND..
    python3 tests/dark.py --self

COMMAND runs tests/dark.c. Each call is made twice, with what is lent against a guard behind it and before it. The calls: rows whose answers
are known; the edges of the rules; COUNT random rows and rectangles, most with a band of 0 to 3 pixels; and every choice of things that can
be wrong, together. The pictures: half of COUNT random ones with pits and end caps, closed by the definition, whose residue is the sum of
their rows' answers; as many that are cut out of a larger one, which have the residue that their counted pixels have there; and an end cap.
A difference is printed with its call. tests/dark.sh builds it all and runs this.
--self needs no command: the definition answers in its place. It holds what is expected here to the known answers and to the pictures, the
choices of wrong things to the number of the first, the random calls to giving every number, and the comparison to telling every wrong outcome.
"""
import collections
import contextlib
import io
import itertools
import random
import struct
import subprocess
import sys

import jobs
from definition import Refusal, after, closing, counted, picture_residue, row_residue

# The rows as bytes, and the 8 bytes that stand in the place of the sum before the call.
Call = collections.namedtuple('Call', 'left right up down row rows closed input place')
# What a call comes to: the number, whether nothing beside is changed, and what is lent.
Outcome = collections.namedtuple('Outcome', 'number is_intact closed input place')


def extents(call):
    return call[:4]


# ---- what is expected

def outcome(call):
    """What the call has to come to by the definition."""
    try:
        place, number = row_residue(extents(call), *call[4:8]).to_bytes(8, 'little'), 0
    except Refusal as refusal:
        place, number = call.place, refusal.number
    return Outcome(number, True, call.closed, call.input, place)


def known_outcome(call, number, total):
    return Outcome(number, True, call.closed, call.input, call.place if number else total.to_bytes(8, 'little'))


RAMP = 1, 2, 3, 4, 5, 6, 7
# The extents, the row and the row count, the input row, the length of the closed row, which is all 9, and the number and the sum.
KNOWN = [((1, 1, 1, 0), row, 5, RAMP, 7, 0, 15 if 1 <= row <= 3 else 0) for row in range(5)] + [
    ((0, 0, 0, 0), 2, 5, RAMP, 7, 0, 35),
    ((1, 1, 1, 0), 5, 5, RAMP, 7, 4, 0), ((1, 1, 1, 0), 0, 0, RAMP, 7, 4, 0), ((1, 1, 1, 0), 0, 65536, RAMP, 7, 4, 0),
    ((1, 1, 1, 0), 2, 5, (10,) + RAMP[1:], 7, 0, 15),
    ((1, 1, 1, 0), 2, 5, RAMP[:3] + (10,) + RAMP[4:], 7, 16, 0), ((1, 1, 1, 0), 0, 5, RAMP[:3] + (10,) + RAMP[4:], 7, 0, 0),
    ((1, 1, 1, 0), 2, 5, RAMP[:4], 4, 21, 0), ((1, 1, 1, 0), 2, 5, RAMP[:5], 5, 0, 6),
    ((1, 1, 1, 0), 0, 2, RAMP, 7, 21, 0), ((1, 1, 1, 0), 1, 2, RAMP, 7, 21, 0), ((1, 1, 1, 0), 1, 3, RAMP, 7, 0, 15),
    ((32, 1, 1, 0), 0, 0, RAMP, 7, 3, 0), ((1, 1, 1, 0), 5, 5, RAMP[:6], 7, 4, 0), ((1, 1, 1, 0), 2, 5, RAMP[:3], 4, 7, 0),
    ((1, 1, 1, 0), 2, 5, (1, 2, 10, 4), 4, 21, 0),
    ((31, 31, 0, 0), 0, 1, (10,) * 124, 124, 21, 0), ((31, 31, 0, 0), 0, 1, (10,) * 62 + (2,) + (10,) * 62, 125, 0, 7),
    ((0, 0, 0, 0), 0, 1, (0,) * 4096, 4096, 0, 36864), ((0, 0, 0, 0), 0, 1, (0,) * 4097, 4097, 4, 0),
]


def known_calls(rng):
    for rectangle, row, rows, given, length, number, total in KNOWN:
        call = Call(*rectangle, row, rows, b'\t' * length, bytes(given), rng.randbytes(8))
        yield 'known', call, known_outcome(call, number, total)


# ---- rows

def any_extent(rng):
    return rng.choice((0, 0, 1, 2, 3, 31, rng.randrange(32)))


def any_pair(rng, width):
    """A closed row that is nowhere below the input row."""
    given = rng.randbytes(width)
    return bytes(rng.choice((value, rng.randint(value, 255))) for value in given), given


def a_row(rng, first, last, count):
    """A row number near the edges of the band, near those of the picture, or any below the count."""
    near = rng.choice((first, last, 0, count - 1)) + rng.choice((-1, 0, 0, 1))
    return max(0, rng.choice((near, near, rng.randrange(count))))


def darkened(rng, call):
    """With one to three pixels that would be negative, at the edges of the band or anywhere."""
    closed, given = bytearray(call.closed), bytearray(call.input)
    columns = counted(extents(call), len(closed), call.rows)[0]
    for _ in range(rng.choice((1, 1, 3))):
        x = rng.choice((columns.start - 1, columns.start, columns.stop - 1, columns.stop, rng.randrange(len(closed)))) % len(closed)
        closed[x] = rng.randrange(255)
        given[x] = rng.randint(closed[x] + 1, 255)
    return call._replace(closed=bytes(closed), input=bytes(given))


def any_call(rng):
    left, right, up, down = rectangle = [any_extent(rng) for _ in range(4)]
    width = 2 * (left + right) + rng.choice((0, 1, 2, 3, rng.randint(1, 300)))
    rows = 2 * (up + down) + rng.choice((0, 1, 2, 3, rng.randint(1, 300)))
    row = a_row(rng, up + down, rows - 1 - (up + down), max(1, rows))
    call = Call(*rectangle, row, rows, *any_pair(rng, width), rng.randbytes(8))
    return darkened(rng, call) if width and rng.randrange(3) == 0 else call


def random_calls(rng, count):
    for at in range(count):
        yield 'row %d' % at, any_call(rng)


def limits(rng):
    """The edges of every rule, in every order of wrong things."""
    for width, length, rows in itertools.product((0, 1, 4096, 4097), (0, 1, 4096, 4097), (0, 1, 125, 65535, 65536, 2 ** 64 - 1)):
        for row, rectangle in itertools.product(
                {0, max(0, rows - 1), rows, 2 ** 64 - 1}, ((0,) * 4, (31,) * 4, (32, 0, 0, 0), (0, 0, 0, 255))):
            yield 'limits', Call(*rectangle, row, rows, b'\xff' * width, bytes(length), rng.randbytes(8))


# ---- calls that are refused: each damage changes one thing of a call

def whole_call(rng):
    """A call that is taken, of a row in the band. Its band is not empty with any one extent that is too large."""
    width, rows = rng.randint(573, 600), rng.randint(573, 600)
    return Call(*(rng.randint(1, 31) for _ in range(4)), rows // 2, rows, *any_pair(rng, width), rng.randbytes(8))


def wrong_extent(rng, call):
    return call._replace(**{rng.choice(('left', 'right', 'up', 'down')): rng.choice((32, 255))})


def empty_across(rng, call):
    reach = 2 * (call.left + call.right)
    width = rng.choice((reach, rng.randint(1, reach)))
    return call._replace(closed=call.closed[:width], input=call.input[:width])


def empty_down(rng, call):
    reach = 2 * (call.up + call.down)
    rows = rng.choice((reach, rng.randint(1, reach)))
    return call._replace(rows=rows, row=rng.randrange(rows))


def wrong_width(rng, call):
    """Too wide, or no pixel at all where none is counted."""
    width = 0 if not counted(extents(call), len(call.closed), 1)[0] else rng.choice((4097, 4098, 65536 + len(call.closed)))
    return call._replace(closed=(call.closed * 120)[:width], input=(call.input * 120)[:width])


def wrong_rows(rng, call):
    """Too many, or none at all where none is counted."""
    rows = 0 if not counted(extents(call), 1, call.rows)[1] else rng.choice((65536, 65536 + call.rows, 2 ** 32 + call.rows, 2 ** 64 - 1))
    return call._replace(rows=rows)


def wrong_row(rng, call):
    """Not below the row count; some have the low bits of one that is."""
    return call._replace(row=max(call.rows, rng.choice((call.rows, 65536 + call.row, 2 ** 32 + call.row, 2 ** 63 + call.row, 2 ** 64 - 1))))


def wrong_length(rng, call):
    return call._replace(input=rng.choice((call.input[:-1], b'', call.input * 2, call.input + bytes(65536))) or call.input + b'\0')


def negative(_, call):
    """All pixels that are there."""
    return call._replace(closed=bytes(len(call.closed)), input=b'\1' * len(call.input))


# With their numbers, in an order in which each can be done.
DAMAGES = ((wrong_extent, 3), (empty_across, 21), (empty_down, 21), (wrong_width, 4), (wrong_rows, 4), (wrong_row, 4), (wrong_length, 7),
           (negative, 16))
ORDER = 3, 4, 7, 21, 16
TOGETHER = [choice for count in range(len(DAMAGES) + 1) for choice in itertools.combinations(DAMAGES, count)]


def damaged(rng, damages):
    call = whole_call(rng)
    for damage, _ in damages:
        call = damage(rng, call)
    return call


def refused_calls(rng):
    """Every choice of damages, four times."""
    for damages in TOGETHER * 4:
        yield ' and '.join(damage.__name__ for damage, _ in damages) or 'nothing wrong', damaged(rng, damages)


# ---- pictures

def rod(rng, width, rows):
    """A light rod with noise, dark end caps at some of its edges, and dark pits."""
    picture = [[rng.randint(180, 200) for _ in range(width)] for _ in range(rows)]
    left, right, up, down = (rng.randrange(4) for _ in range(4))
    for y, x in itertools.product(range(rows), range(width)):
        if x < left or x >= width - right or y < up or y >= rows - down:
            picture[y][x] = rng.randint(0, 20)
    for _ in range(rng.randrange(6)):
        x, y = rng.randrange(width), rng.randrange(rows)
        for pit_row in picture[y:y + rng.randint(1, 3)]:
            pit_row[x:x + 2] = [rng.randrange(100) for _ in pit_row[x:x + 2]]
    return picture


def a_picture(rng, width, rows):
    return rng.choice((rod, rod, rng.choice(jobs.PICTURES)))(rng, width, rows)


def a_rectangle(rng):
    """The extents of a closing: a few are wide, and then not high, for the definition's time."""
    if rng.randrange(6) == 0:
        return rng.randrange(32), rng.randrange(32), rng.randrange(2), 0
    return tuple(rng.choice((0, 1, 1, 2, 3)) for _ in range(4))


def band_size(rng, reach, least):
    return max(1, 2 * reach + rng.choice((least, 1, 2, 3, rng.randint(1, 12))))


def residue_asked(ask, rectangle, closed, picture, at_back):
    """The numbers that the rows get, and the sum of what they add."""
    answers = [ask(Call(*rectangle, row, len(picture), bytes(one), bytes(other), b'\xaa' * 8), at_back)
               for row, (one, other) in enumerate(zip(closed, picture))]
    return {answer.number for answer in answers}, sum(struct.unpack('<Q', answer.place)[0] for answer in answers if answer.number == 0)


def whole_pictures(ask, rng, count):
    """No row of a picture and its closing is refused, but all of them where the band is empty."""
    for at in range(count):
        rectangle = left, right, up, down = a_rectangle(rng)
        picture = a_picture(rng, band_size(rng, left + right, 0), band_size(rng, up + down, 0))
        closed = after(closing(rectangle), picture)
        is_empty = len(picture[0]) <= 2 * (left + right) or len(picture) <= 2 * (up + down)
        due = ({21}, 0) if is_empty else ({0}, picture_residue(rectangle, closed, picture))
        yield 'picture %d, %s' % (at, rectangle), residue_asked(ask, rectangle, closed, picture, at % 2), due


def part_of(picture, x, y, width, rows):
    return [row[x:x + width] for row in picture[y:y + rows]]


def cut_pictures(ask, rng, count):
    """A part of a larger picture: in its band its closing is that of the larger one, so its residue is what these pixels have there."""
    for at in range(count):
        rectangle = left, right, up, down = a_rectangle(rng)
        width, rows = band_size(rng, left + right, 1), band_size(rng, up + down, 1)
        x, y = rng.randrange(5), rng.randrange(5)
        larger = a_picture(rng, x + width + rng.randrange(5), y + rows + rng.randrange(5))
        larger_closed, part = after(closing(rectangle), larger), part_of(larger, x, y, width, rows)
        closed = after(closing(rectangle), part)
        inner = left + right, up + down, width - 2 * (left + right), rows - 2 * (up + down)
        there = x + inner[0], y + inner[1], *inner[2:]
        yield 'the band of part %d, %s' % (at, rectangle), part_of(closed, *inner), part_of(larger_closed, *there)
        due = sum(map(sum, part_of(larger_closed, *there))) - sum(map(sum, part_of(larger, *there)))
        yield 'part %d, %s' % (at, rectangle), residue_asked(ask, rectangle, closed, part, at % 2), ({0}, due)


def end_cap(ask):
    """A rod whose dark end is cut to one column by the picture's edge: over all columns the closing counts it as damage, in the band not, and
    in the larger picture, which has the whole end, not either. A pit in the middle is counted in all of them."""
    rectangle, larger = (1, 1, 1, 1), [[0, 0, 0, 0] + [9] * 9 for _ in range(7)]
    larger[3][8] = 5
    part = part_of(larger, 3, 0, 10, 7)
    for name, picture, extents_told, due in (
            ('over all columns', part, (0, 0, 0, 0), 67), ('in the band', part, rectangle, 4), ('of the larger one', larger, rectangle, 4)):
        got = residue_asked(ask, extents_told, after(closing(rectangle), picture), picture, 1)
        yield 'an end cap ' + name, got, ({0}, due)


# ---- the runs

def run(command, call, at_back):
    given = struct.pack('<9Q', at_back, *call[:6], len(call.closed), len(call.input))
    command.stdin.write(given + call.closed + call.input + call.place)
    command.stdin.flush()
    told = command.stdout.read(2)
    if len(told) < 2:
        sys.exit('the run ends with %d on %s' % (command.wait(), shown(call)))
    return Outcome(told[0], told[1] == 1, *(command.stdout.read(length) for length in (len(call.closed), len(call.input), 8)))


def shown(call):
    return 'extents %d %d %d %d, row %d of %d, lengths %d and %d\n  closed   %s\n  input    %s' % (
        *call[:6], len(call.closed), len(call.input), call.closed.hex(), call.input.hex())


def wrong_of(name, call, due, got):
    """Whether something is wrong, and says so."""
    wrong = [field for field in Outcome._fields if getattr(due, field) != getattr(got, field)]
    if wrong:
        print('DIFFERENCE %s: %s\n  %s' % (name, ', '.join(wrong), shown(call)))
        for word, one in ('expected', due), ('got     ', got):
            print('  %s %d, at the sum %s' % (word, one.number, one.place.hex()))
    return bool(wrong)


def compared(ask, calls, is_wrong=wrong_of):
    """How often all is right and how often not, and how often each number is due. Each call has its name and what it has to come to."""
    counts, numbers = collections.Counter(), collections.Counter()
    for name, call, due in calls:
        for side_name, at_back in ('at the front', 0), ('at the back', 1):
            counts[is_wrong('%s, %s' % (name, side_name), call, due, ask(call, at_back))] += 1
        numbers[due.number] += 1
    print('calls by their number:', ', '.join('%d: %d' % pair for pair in sorted(numbers.items())))
    return counts[False], counts[True]


def compared_pictures(pairs):
    counts = collections.Counter()
    for name, got, due in pairs:
        counts[got == due] += 1
        if got != due:
            print('DIFFERENCE %s\n  expected %s\n  got      %s' % (name, due, got))
    return counts[True], counts[False]


def defined_calls(rng, count):
    for name, call in itertools.chain(limits(rng), random_calls(rng, count), refused_calls(rng)):
        yield name, call, outcome(call)


def pictures(ask, rng, count):
    return itertools.chain(whole_pictures(ask, rng, count), cut_pictures(ask, rng, count), end_cap(ask))


def check_command(count, seed, words):
    rng = random.Random(seed)
    with subprocess.Popen(words, stdin=subprocess.PIPE, stdout=subprocess.PIPE) as command:
        def ask(call, at_back):
            return run(command, call, at_back)

        yield compared(ask, itertools.chain(known_calls(rng), defined_calls(rng, count)))
        yield compared_pictures(pictures(ask, rng, count // 2))
        command.stdin.close()
        status = command.wait()
        if status:
            print('the run ends with %d' % status)
        yield 0, int(status != 0)


# ---- the tests of the tests

def spoilt(due):
    """Outcomes that are wrong: each has one thing changed, by as little as can be."""
    yield due._replace(number=due.number ^ 1)
    yield due._replace(is_intact=False)
    for name in 'closed', 'input', 'place':
        given = getattr(due, name)
        for at in {0, len(given) - 1} if given else ():
            yield due._replace(**{name: given[:at] + bytes([given[at] ^ 1]) + given[at + 1:]})


def check_comparison(rng):
    """Wrong outcomes are told, in silence."""
    counts = collections.Counter()
    for _, call in itertools.chain(random_calls(rng, 100), itertools.islice(refused_calls(rng), len(TOGETHER))):
        due = outcome(call)
        with contextlib.redirect_stdout(io.StringIO()):
            counts.update(wrong_of('spoilt', call, due, wrong) for wrong in spoilt(due))
    if counts[False]:
        print('%d wrong outcomes are not told' % counts[False])
    return counts[True], counts[False]


def check_choices(rng):
    """The number of every choice of damages is that of the first in the order. Random calls give every number but those for an extent and
    for two lengths, which are never wrong there."""
    counts = collections.Counter()
    for damages in TOGETHER:
        number = outcome(damaged(rng, damages)).number
        first = min((number for _, number in damages), key=ORDER.index, default=0)
        counts[number == first] += 1
        if number != first:
            print('%s give %d' % (' and '.join(damage.__name__ for damage, _ in damages), number))
    found = {outcome(call).number for _, call in random_calls(rng, 500)}
    if found != {0, 4, 16, 21}:
        print('random calls give %s' % sorted(found))
    counts[found == {0, 4, 16, 21}] += 1
    return counts[True], counts[False]


def check_itself(rng):
    def ask(call, _):
        return outcome(call)

    yield compared(ask, known_calls(rng))
    yield compared_pictures(pictures(ask, rng, 100))
    yield check_choices(rng)
    yield check_comparison(rng)


def main(words):
    parts = check_itself(random.Random(1)) if words == ['--self'] else check_command(int(words[0]), int(words[1]), words[2:])
    passed, failed = map(sum, zip(*parts))
    print('%d passed, %d failed' % (passed, failed))
    return failed != 0


if __name__ == '__main__':
    sys.exit(main(sys.argv[1:]))
