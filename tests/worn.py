#!/usr/bin/env python3
"""Holds the question whether a picture is too worn, from C, to definition.py: every field that a call tells, and the answers of whole runs.

    python3 tests/worn.py COUNT SEED COMMAND..
    python3 tests/worn.py --self

COMMAND runs tests/worn.c. Each call is made twice, with its rows against a guard behind them and before them; where rows must not be looked
at, again with rows of other lengths that lie in the guard whole. The calls: runs, states and starts whose answers are known; the edges of
the rules; COUNT random questions with limits about their sums; and every choice of things that can be wrong, together. The runs: half of
COUNT random pictures with pits and end caps, closed by the definition, and as many of noise, with limits about the sums of their first
rows. Pairs that are refused come in between, and two pairs past the last row; the answers are those that the sums of the picture give.
A difference is printed with its call. tests/worn.sh builds it all and runs this.
--self needs no command: the definition answers in its place. It holds what is expected here to the known answers and to the runs, the
choices of wrong things to what the first of them gives, the random calls to giving every number and answer, and the comparison to telling
every wrong outcome.
"""
import collections
import contextlib
import io
import itertools
import random
import struct
import subprocess
import sys

from dark import Call as DarkCall
from dark import a_picture, a_rectangle, a_row, any_extent, any_pair, band_size, compared, compared_pictures, darkened
from definition import NO, NOT_YET, YES, Question, Refusal, after, closing, counted, row_residue, worn_answers, worn_pair, worn_start

# Whether it is a pair; the question, of which a start takes all but the row and the sum; the rows as bytes, and whether they are there.
Call = collections.namedtuple('Call', 'is_pair question closed input are_there')
# What a call comes to: the number, the answer, the question, whether nothing beside is changed, and the rows.
Outcome = collections.namedtuple('Outcome', 'number answer question is_intact closed input')

LARGEST = 2 ** 64 - 1
ZEROS = Question(*(0,) * 9)


def start(question):
    return Call(False, question, b'', b'', True)


def pair(question, closed, given):
    return Call(True, question, bytes(closed), bytes(given), True)


def most(question):
    return 255 * question.width * question.row


# ---- what is expected

def told(question, closed, given):
    """The number, the answer and the question."""
    try:
        return 0, *worn_pair(question, closed, given)
    except Refusal as refusal:
        return refusal.number, NOT_YET, question


def begun(question):
    try:
        return 0, NOT_YET, worn_start(question[:4], question.width, question.rows, question.limit)
    except Refusal as refusal:
        return refusal.number, NOT_YET, ZEROS


def outcome(call):
    """What the call has to come to by the definition."""
    answer = told(call.question, call.closed, call.input) if call.is_pair else begun(call.question)
    return Outcome(*answer, True, call.closed, call.input)


def is_unseen(call, due):
    """Whether the call must not look at its rows: 12, and the yes that is given again."""
    return call.is_pair and (due.number == 12 or call.question.limit < call.question.sum)


def unseen(rng, call, due):
    """The same with rows that are not there, of other lengths."""
    width = call.question.width
    lengths = rng.choices((0, 1, width - 1, width, width + 1, 65536), k=2)
    closed, given = (bytes(length % 65537) for length in lengths)
    return call._replace(closed=closed, input=given, are_there=False), due._replace(closed=closed, input=given)


def with_unseen(rng, calls):
    for name, call, due in calls:
        yield name, call, due
        if is_unseen(call, due):
            yield name + ', rows that are not there', *unseen(rng, call, due)


# ---- known answers

# Of three rows of two pixels with all extents 0: the limit; then the pairs, each with its number and answer, and the row and sum after it.
FIRST, SECOND, THIRD = ((5, 5), (1, 2)), ((4, 4), (1, 1)), ((3, 3), (3, 3))
RUNS = (
    (10, [(FIRST, 0, NOT_YET, 1, 7), (SECOND, 0, YES, 2, 13), (((), ()), 0, YES, 2, 13), (THIRD, 0, YES, 2, 13), (THIRD, 0, YES, 2, 13)]),
    (13, [(FIRST, 0, NOT_YET, 1, 7), (SECOND, 0, NOT_YET, 2, 13), (THIRD, 0, NO, 3, 13), (THIRD, 9, NOT_YET, 3, 13)]),
    (6, [(FIRST, 0, YES, 1, 7), (SECOND, 0, YES, 1, 7)]),
    (0, [(THIRD, 0, NOT_YET, 1, 0), (THIRD, 0, NOT_YET, 2, 0), (THIRD, 0, NO, 3, 0)]),
    (12, [(FIRST, 0, NOT_YET, 1, 7), (((4, 4), (5, 1)), 16, NOT_YET, 1, 7), (((4, 4, 4), (1, 1)), 7, NOT_YET, 1, 7),
          (((4, 4), (1,)), 7, NOT_YET, 1, 7), (SECOND, 0, YES, 2, 13)]),
)
# The extents, the width and the row count, the row and the sum, and the number of a pair of equal rows where the sum is not over the limit.
STATES = (
    ((0, 0, 0, 0), 2, 3, 4, 0, 12), ((0, 0, 0, 0), 2, 3, 3, 9, 9), ((0, 0, 0, 0), 2, 3, 1, 510, 0), ((0, 0, 0, 0), 2, 3, 1, 511, 12),
    ((0, 0, 0, 0), 2, 3, 0, 0, 0), ((0, 0, 0, 0), 2, 3, 0, 1, 12), ((0, 0, 0, 0), 0, 3, 1, 0, 12), ((0, 0, 0, 0), 2, 0, 0, 0, 12),
    ((1, 0, 0, 0), 2, 3, 1, 9, 12), ((1, 0, 0, 0), 3, 3, 1, 9, 0), ((0, 0, 0, 1), 2, 2, 1, 9, 12), ((0, 0, 0, 1), 2, 3, 1, 9, 0),
    ((31, 31, 31, 31), 125, 125, 1, 9, 0), ((31, 31, 31, 31), 124, 125, 1, 9, 12), ((31, 31, 31, 31), 125, 124, 1, 9, 12),
    ((32, 0, 0, 0), 125, 125, 1, 9, 12), ((0, 32, 0, 0), 125, 125, 1, 9, 12), ((0, 0, 32, 0), 125, 125, 1, 9, 12),
    ((0, 0, 0, 32), 125, 125, 1, 9, 12), ((0, 0, 0, 0), 4096, 65535, 65534, 68448952320, 0),
    ((0, 0, 0, 0), 4096, 65535, 65534, 68448952321, 12), ((0, 0, 0, 0), 4096, 65535, 65535, 68449996800, 9),
    ((0, 0, 0, 0), 4096, 65535, 65535, 68449996801, 12), ((0, 0, 0, 0), 4096, 65535, 65536, 9, 12), ((0, 0, 0, 0), 4097, 3, 1, 9, 12),
    ((0, 0, 0, 0), 4096, 65536, 1, 9, 12),
)
# The extents, the width and the row count, and the number.
STARTS = (
    ((0, 0, 0, 0), 1, 1, 0), ((0, 0, 0, 0), 4096, 65535, 0), ((31, 31, 31, 31), 125, 125, 0), ((31, 31, 31, 31), 124, 125, 21),
    ((31, 31, 31, 31), 125, 124, 21), ((1, 0, 0, 0), 2, 3, 21), ((0, 1, 0, 0), 2, 3, 21), ((0, 0, 1, 0), 3, 2, 21),
    ((0, 0, 0, 1), 3, 2, 21), ((32, 0, 0, 0), 0, 0, 3), ((0, 32, 0, 0), 1, 1, 3), ((0, 0, 32, 0), 1, 1, 3), ((0, 0, 0, 32), 1, 1, 3),
    ((31, 0, 0, 0), 0, 1, 4), ((31, 0, 0, 0), 4097, 1, 4), ((0, 0, 31, 0), 1, 0, 4), ((0, 0, 31, 0), 1, 65536, 4),
)
# The last row of the largest picture, where every pixel adds 255: the sums before it and after it; limits, with their answers.
BEFORE_LAST, AFTER_LAST = 68448952320, 68449996800
LAST_ROW = (BEFORE_LAST, YES), (AFTER_LAST - 1, YES), (AFTER_LAST, NO), (LARGEST, NO)


def known_pairs():
    for limit, steps in RUNS:
        question = Question(0, 0, 0, 0, 2, 3, limit, 0, 0)
        for rows, number, answer, row, total in steps:
            due = question._replace(row=row, sum=total)
            call = pair(question, *rows)
            yield 'limit %d' % limit, call, Outcome(number, answer, due, True, call.closed, call.input)
            question = due


def state_due(question, number):
    """What a pair of equal rows gives."""
    if number != 12 and question.limit < question.sum:
        return 0, YES, question
    if number:
        return number, NOT_YET, question
    return 0, NO if question.row + 1 == question.rows else NOT_YET, question._replace(row=question.row + 1)


def known_states():
    """Each with the largest limit and its own sum, which it is not over, and with two that it is over; the rows dark and light."""
    for extents, width, rows, row, total, number in STATES:
        for limit, value in itertools.product(sorted({LARGEST, total, max(0, total - 1), 0}), (b'\0', b'\xff')):
            question = Question(*extents, width, rows, limit, row, total)
            call = pair(question, value * width, value * width)
            yield 'a state', call, Outcome(*state_due(question, number), True, call.closed, call.input)


def known_starts():
    for extents, width, rows, number in STARTS:
        question = Question(*extents, width, rows, 1000, 0, 0)
        yield 'a start', start(question), Outcome(number, NOT_YET, ZEROS if number else question, True, b'', b'')


def known_last_row():
    for limit, answer in LAST_ROW:
        question = Question(0, 0, 0, 0, 4096, 65535, limit, 65534, BEFORE_LAST)
        call = pair(question, b'\xff' * 4096, bytes(4096))
        yield 'the largest sum', call, Outcome(0, answer, question._replace(row=65535, sum=AFTER_LAST), True, call.closed, call.input)


def known_calls():
    return itertools.chain(known_pairs(), known_states(), known_starts(), known_last_row())


# ---- questions

def a_sum(rng, largest):
    return rng.choice((0, largest, rng.randint(0, largest), rng.randint(0, largest), largest + 1, min(largest, 2 ** 32)))


def a_size(rng, reach, largest):
    return min(largest, 2 * reach + rng.choice((0, 1, 2, 3, rng.randint(1, 300))))


def about(rng, question, residue):
    """The question with a limit about its sum, or about the sum with this residue."""
    total = question.sum + residue
    limit = rng.choice((total - 1, total, total + 1, question.sum - 1, question.sum, total % 2 ** 32, 0, LARGEST))
    return question._replace(limit=limit % 2 ** 64)


def rows_of(rng, question):
    """A pair for the question's row, in a third of the cases with negative pixels, and the residue; 0 where there is none."""
    rows, width = any_pair(rng, question.width), question.width
    if width and rng.randrange(3) == 0:
        rows = darkened(rng, DarkCall(*question[:4], question.row, question.rows, *rows, b''))[6:8]
    try:
        return rows, row_residue(question[:4], question.row, question.rows, *rows)
    except Refusal:
        return rows, 0


def any_call(rng):
    left, right, up, down = extents = [any_extent(rng) for _ in range(4)]
    width = a_size(rng, left + right, 4096)
    rows = rng.choice((a_size(rng, up + down, 65535), a_size(rng, up + down, 65535), 65535))
    row = rng.choice((a_row(rng, up + down, rows - 1 - (up + down), max(1, rows)), rows))
    question = Question(*extents, width, rows, 0, row, 0)
    question = question._replace(sum=a_sum(rng, most(question)))
    lines, residue = rows_of(rng, question)
    return pair(about(rng, question, residue), *lines)


def random_calls(rng, count):
    for at in range(count):
        yield 'question %d' % at, any_call(rng)


def wide_calls(rng):
    """Sums of more than 32 bits."""
    for _ in range(40):
        question = Question(*(any_extent(rng) for _ in range(4)), rng.choice((4095, 4096)), 65535, 0, rng.randint(40000, 65534), 0)
        question = question._replace(sum=rng.choice((2 ** 32 - 1, 2 ** 32, rng.randint(0, most(question)), most(question))))
        lines, residue = rows_of(rng, question)
        yield 'a wide question', pair(about(rng, question, residue), *lines)


def edge_questions(rng):
    """The edges of every rule, together."""
    rectangles = (0,) * 4, (31,) * 4, (32, 0, 0, 0), (0, 0, 0, 255), (0, 1, 0, 0), (0, 0, 1, 0)
    for width, rows, extents in itertools.product((0, 1, 2, 3, 4096, 4097), (0, 1, 2, 3, 65535, 65536, LARGEST), rectangles):
        for row in {0, 1, max(0, rows - 1), rows, min(rows + 1, LARGEST)}:
            largest = min(LARGEST - 1, 255 * width * row)
            total = rng.choice((0, 1, largest, largest + 1, LARGEST))
            yield Question(*extents, width, rows, rng.choice((0, max(0, total - 1), total, LARGEST)), row, total)


def edges(rng):
    for question in edge_questions(rng):
        lengths = rng.choice(((question.width,) * 2, rng.choices((0, 1, 2, 3, 4096, 4097), k=2)))
        yield 'edges', pair(question, rng.choice((b'\1', b'\xff')) * lengths[0], bytes(lengths[1]))
        yield 'edges', start(question)


# ---- calls that have something wrong: each damage changes one thing of a call

def whole_call(rng):
    """A pair that is taken, of a row in the band. Its band is not empty with any one extent that is too large."""
    width, rows = rng.randint(573, 600), rng.randint(573, 600)
    total = rng.randint(1, 255)
    question = Question(*(rng.randint(1, 31) for _ in range(4)), width, rows, total + rng.randrange(300), rows // 2, total)
    return pair(question, *any_pair(rng, width))


def changed(call, **fields):
    return call._replace(question=call.question._replace(**fields))


def too_large(rng, least, small):
    """Not below the least; some have the low bits of one that is."""
    numbers = least, 2 ** 16 + small, 2 ** 32 + small, 2 ** 63 + small, LARGEST
    return rng.choice([number for number in numbers if least <= number <= LARGEST])


def wrong_extent(rng, call):
    return changed(call, **{rng.choice(('left', 'right', 'up', 'down')): rng.choice((32, 255))})


def empty_across(rng, call):
    """With rows of the width that there is then."""
    reach = 2 * (call.question.left + call.question.right)
    width = rng.choice((reach, rng.randint(1, reach)))
    return changed(call, width=width)._replace(closed=call.closed[:width], input=call.input[:width])


def empty_down(rng, call):
    reach = 2 * (call.question.up + call.question.down)
    rows = rng.choice((reach, rng.randint(2, reach)))
    return changed(call, rows=rows, row=rng.randrange(1, rows))


def wrong_width(rng, call):
    """Too wide, or no pixel at all where none is counted."""
    is_empty = not counted(call.question[:4], call.question.width, 1)[0]
    width = 0 if is_empty else too_large(rng, 4097, call.question.width)
    return changed(call, width=width)


def wrong_rows(rng, call):
    """Too many, or none at all where none is counted."""
    is_empty = not counted(call.question[:4], 1, call.question.rows)[1]
    return changed(call, rows=0 if is_empty else too_large(rng, 65536, call.question.rows))


def wrong_row(rng, call):
    return changed(call, row=too_large(rng, min(LARGEST, call.question.rows + 1), call.question.row))


def wrong_sum(rng, call):
    return changed(call, sum=too_large(rng, min(LARGEST, most(call.question) + 1), call.question.sum))


def over(rng, call):
    """Yes was answered."""
    return changed(call, limit=rng.randrange(call.question.sum))


def all_read(_, call):
    return changed(call, row=call.question.rows)


def other_row(rng, row):
    """Of another length; a few have its low bits."""
    if rng.randrange(16) == 0:
        return row + bytes(65536)
    return rng.choice((row[:-1], b'', row * 2, row + b'\0')) if row else b'\0'


def wrong_closed(rng, call):
    return call._replace(closed=other_row(rng, call.closed))


def wrong_input(rng, call):
    """Of another length than the width, be it that of the closed row."""
    width = len(call.input)
    return call._replace(input=call.closed if len(call.closed) != width and rng.randrange(2) else other_row(rng, call.input))


def negative(_, call):
    """All pixels that are there."""
    return call._replace(closed=bytes(len(call.closed)), input=b'\1' * len(call.input))


def choices_of(damages):
    return [choice for count in range(len(damages) + 1) for choice in itertools.combinations(damages, count)]


# With what they give, a number or the yes, in an order in which each can be done.
DAMAGES = ((wrong_extent, 12), (empty_across, 12), (empty_down, 12), (wrong_width, 12), (wrong_rows, 12), (all_read, 9), (wrong_row, 12),
           (wrong_sum, 12), (over, 'yes'), (wrong_closed, 7), (wrong_input, 7), (negative, 16))
ORDER = 12, 'yes', 9, 7, 16
TOGETHER = choices_of(DAMAGES)
UNBROKEN = choices_of([damage for damage in DAMAGES if damage[1] != 12])
START_DAMAGES = (wrong_extent, 3), (empty_across, 21), (empty_down, 21), (wrong_width, 4), (wrong_rows, 4)
START_ORDER = 3, 4, 21
START_TOGETHER = choices_of(START_DAMAGES)


def damaged(rng, damages):
    call = whole_call(rng)
    for damage, _ in damages:
        call = damage(rng, call)
    return call


def first_of(damages, order):
    return min((given for _, given in damages), key=order.index, default=0)


def names_of(damages):
    return ' and '.join(damage.__name__ for damage, _ in damages) or 'nothing wrong'


def refused_calls(rng):
    """Every choice of damages; those of questions that break no rule, and those of a start, more often."""
    for damages in TOGETHER + UNBROKEN * 20:
        yield names_of(damages), damaged(rng, damages)
    for damages in START_TOGETHER * 8:
        yield names_of(damages), start(damaged(rng, damages).question)


# ---- runs

def negative_at(rng, call, column):
    closed, given = bytearray(call.closed), bytearray(call.input)
    closed[column] = rng.randrange(255)
    given[column] = rng.randint(closed[column] + 1, 255)
    return call._replace(closed=bytes(closed), input=bytes(given))


def no_band(_, call):
    """As narrow as makes the band empty, be it no column at all."""
    return changed(call, width=2 * (call.question.left + call.question.right))


DAMAGES_BETWEEN = wrong_closed, wrong_input, wrong_extent, no_band, wrong_width, wrong_rows, wrong_row, wrong_sum


def between(rng, call):
    """In place of this pair one that is refused, or as little looked at as any after a yes."""
    question = call.question
    columns, rows = counted(question[:4], question.width, question.rows)
    if question.row in rows and rng.randrange(2):
        return negative_at(rng, call, rng.choice(columns))
    return rng.choice(DAMAGES_BETWEEN)(rng, call)


def run_asked(ask, rng, question, closed, picture, at_back):
    """The numbers and answers that the rows of a picture get, and two pairs past them; the question at the end; and the call that does not
    come to what it has to, the last, where there is one."""
    answers, wrong = [], []

    def asked(call):
        got = ask(call, at_back)
        wrong.extend([call] if got != outcome(call) else [])
        return got

    question = asked(start(question)).question
    for rows in itertools.chain(zip(closed, picture), [(closed[-1], picture[-1])] * 2):
        right = pair(question, *rows)
        while not wrong and rng.randrange(2):
            asked(between(rng, right))
        if not wrong:
            got = asked(right)
            answers.append((got.number, got.answer))
            question = got.question
    return answers, question, wrong


def run_due(question, closed, picture):
    """By the sums of the picture."""
    answers = worn_answers(question[:4], question.limit, closed, picture)
    read = answers.index(YES) + 1 if YES in answers else len(answers)
    total = sum(row_residue(question[:4], y, len(picture), closed[y], picture[y]) for y in range(read))
    past = (0, YES) if YES in answers else (9, NOT_YET)
    return [(0, answer) for answer in answers] + [past] * 2, question._replace(row=read, sum=total), []


def limits_of(rng, extents, closed, picture):
    """Both ends, and three about each of some sums of first rows."""
    residues = [row_residue(extents, y, len(picture), *rows) for y, rows in enumerate(zip(closed, picture))]
    sums = list(itertools.accumulate(residues))
    chosen = {sums[-1], rng.choice(sums), rng.choice(sums)}
    return sorted({0, LARGEST}.union(*({max(0, total - 1), total, total + 1} for total in chosen)))


def picture_runs(ask, rng, name, extents, closed, picture):
    for limit in limits_of(rng, extents, closed, picture):
        question = Question(*extents, len(picture[0]), len(picture), limit, 0, 0)
        got = run_asked(ask, rng, question, closed, picture, rng.randrange(2))
        yield '%s, extents %s, limit %d' % (name, extents, limit), got, run_due(question, closed, picture)


def closed_runs(ask, rng, count):
    for at in range(count):
        extents = left, right, up, down = a_rectangle(rng)
        picture = a_picture(rng, band_size(rng, left + right, 1), band_size(rng, up + down, 1))
        yield from picture_runs(ask, rng, 'picture %d' % at, extents, after(closing(extents), picture), picture)


def noise_runs(ask, rng, count):
    """Both pictures are noise, and what is not counted may be negative."""
    for at in range(count):
        extents = left, right, up, down = [rng.choice((0, 0, 1, 2)) for _ in range(4)]
        width, rows = band_size(rng, left + right, 1), band_size(rng, up + down, 1)
        columns, counted_rows = counted(extents, width, rows)
        picture, closed = ([list(rng.randbytes(width)) for _ in range(rows)] for _ in range(2))
        for y, x in itertools.product(counted_rows, columns):
            picture[y][x], closed[y][x] = sorted((picture[y][x], closed[y][x]))
        yield from picture_runs(ask, rng, 'noise %d' % at, tuple(extents), closed, picture)


def runs(ask, rng, count):
    return itertools.chain(closed_runs(ask, rng, count), noise_runs(ask, rng, count))


# ---- the calls

def run(command, call, at_back):
    given = struct.pack('<14Q', call.is_pair, at_back, call.are_there, *call.question, len(call.closed), len(call.input))
    command.stdin.write(given + (call.closed + call.input if call.are_there else b''))
    command.stdin.flush()
    head = command.stdout.read(75)
    if len(head) < 75:
        sys.exit('the run ends with %d on %s' % (command.wait(), shown(call)))
    number, answer, is_intact, *fields = struct.unpack('<3B9Q', head)
    rows = [command.stdout.read(len(row)) for row in call[2:4]] if call.are_there else call[2:4]
    return Outcome(number, answer, Question(*fields), is_intact == 1, *rows)


def shown(call):
    return '%s, %s, lengths %d and %d%s\n  closed   %s\n  input    %s' % (
        'a pair' if call.is_pair else 'a start', call.question, len(call.closed), len(call.input), '' if call.are_there else ', not there',
        call.closed.hex(), call.input.hex())


def wrong_of(name, call, due, got):
    """Whether something is wrong, and says so."""
    wrong = [field for field in Outcome._fields if getattr(due, field) != getattr(got, field)]
    if wrong:
        print('DIFFERENCE %s: %s\n  %s' % (name, ', '.join(wrong), shown(call)))
        for word, one in ('expected', due), ('got     ', got):
            print('  %s %d, answer %d, %s' % (word, *one[:3]))
    return bool(wrong)


def defined_calls(rng, count):
    for name, call in itertools.chain(edges(rng), random_calls(rng, count), wide_calls(rng), refused_calls(rng)):
        yield name, call, outcome(call)


def check_command(count, seed, words):
    rng = random.Random(seed)
    with subprocess.Popen(words, stdin=subprocess.PIPE, stdout=subprocess.PIPE) as command:
        def ask(call, at_back):
            return run(command, call, at_back)

        yield compared(ask, with_unseen(rng, itertools.chain(known_calls(), defined_calls(rng, count))), wrong_of)
        yield compared_pictures(runs(ask, rng, count // 2))
        command.stdin.close()
        status = command.wait()
        if status:
            print('the run ends with %d' % status)
        yield 0, int(status != 0)


# ---- the tests of the tests

def flipped(row, at):
    return row[:at] + bytes([row[at] ^ 1]) + row[at + 1:]


def spoilt(due):
    """Outcomes that are wrong: each has one thing changed, by as little as can be."""
    yield due._replace(number=due.number ^ 1)
    yield due._replace(answer=due.answer ^ 1)
    yield due._replace(is_intact=False)
    for field, value in due.question._asdict().items():
        yield due._replace(question=due.question._replace(**{field: value ^ 1}))
    for name in 'closed', 'input':
        row = getattr(due, name)
        for at in {0, len(row) - 1} if row else ():
            yield due._replace(**{name: flipped(row, at)})


def check_comparison(rng):
    """Wrong outcomes are told, in silence."""
    counts = collections.Counter()
    for _, call in itertools.chain(random_calls(rng, 100), random.Random(1).sample(list(refused_calls(rng)), 200)):
        due = outcome(call)
        with contextlib.redirect_stdout(io.StringIO()):
            counts.update(wrong_of('spoilt', call, due, wrong) for wrong in spoilt(due))
    if counts[False]:
        print('%d wrong outcomes are not told' % counts[False])
    return counts[True], counts[False]


def choices(rng):
    """Every choice of damages, what it comes to, and what the first in the order gives."""
    for damages in TOGETHER:
        number, answer, _ = outcome(damaged(rng, damages))[:3]
        yield damages, number or ('yes' if answer == YES and (over, 'yes') in damages else 0), first_of(damages, ORDER)
    for damages in START_TOGETHER:
        yield damages, outcome(start(damaged(rng, damages).question)).number, first_of(damages, START_ORDER)


def check_choices(rng):
    counts = collections.Counter()
    for damages, got, due in choices(rng):
        counts[got == due] += 1
        if got != due:
            print('%s give %s' % (names_of(damages), got))
    return counts[True], counts[False]


def check_found(rng):
    """Random calls give every number but that for two lengths, which are never wrong there, and every answer."""
    found = {outcome(call)[:2] for _, call in random_calls(rng, 1000)}
    due = {(0, NOT_YET), (0, YES), (0, NO), (9, NOT_YET), (12, NOT_YET), (16, NOT_YET)}
    if found != due:
        print('random calls give %s' % sorted(found))
    return int(found == due), int(found != due)


def check_itself(rng):
    def ask(call, _):
        return outcome(call)

    yield compared(ask, known_calls(), wrong_of)
    yield compared_pictures(runs(ask, rng, 100))
    yield check_choices(rng)
    yield check_found(rng)
    yield check_comparison(rng)


def main(words):
    parts = check_itself(random.Random(1)) if words == ['--self'] else check_command(int(words[0]), int(words[1]), words[2:])
    passed, failed = map(sum, zip(*parts))
    print('%d passed, %d failed' % (passed, failed))
    return failed != 0


if __name__ == '__main__':
    sys.exit(main(sys.argv[1:]))
