#!/usr/bin/env python3
"""What the program must answer, by the two-dimensional definition of document 01 and nothing cleverer.

A stage is the smallest or largest value over a cut rectangle, taken at every pixel of a whole picture; a plan is one
stage after another on whole pictures. No queue, no row by row. As a command it reads a whole job from standard input, to
its end, and only then writes the answer to standard output: the program's bytes, but not when the program writes them.
"""
import io
import itertools
import math
import struct
import sys
from collections import namedtuple

EROSION, DILATION = 0, 1
GREY, FLOAT = 0, 1
NOT_YET, YES, NO = 0, 1, 2

Stage = namedtuple('Stage', 'kind left right up down')
Head = namedtuple('Head', 'written sample width rows')
Question = namedtuple('Question', 'left right up down width rows limit row sum')


class Refusal(Exception):
    """A number of document 01's table."""

    def __init__(self, number):
        super().__init__(number)
        self.number = number


# ---- the filter

def rectangle(stage):
    """How far the rectangle reaches left, right, up and down of a pixel: a dilation's is reflected."""
    if stage.kind == EROSION:
        return stage.left, stage.right, stage.up, stage.down
    return stage.right, stage.left, stage.down, stage.up


def filtered(stage, picture):
    """The picture after one stage. Slices end at the picture's edge: positions off the picture take no part."""
    best = min if stage.kind == EROSION else max
    left, right, up, down = rectangle(stage)

    def pixel(x, y):
        first, last = max(0, x - left), x + right + 1
        return best(best(row[first:last]) for row in picture[max(0, y - up):y + down + 1])

    return [[pixel(x, y) for x in range(len(row))] for y, row in enumerate(picture)]


def line_answers(kind, left, right, row):
    """Of each pixel of a filtered line its value and the position that gave it: of the positions in the cut window that have the value,
    the latest."""
    best = min if kind == EROSION else max
    back, ahead = rectangle(Stage(kind, left, right, 0, 0))[:2]
    answers = []
    for x in range(len(row)):
        window = range(max(0, x - back), min(len(row), x + ahead + 1))
        value = best(row[q] for q in window)
        answers.append((value, max(q for q in window if row[q] == value)))
    return answers


def after(plan, picture):
    """The picture after all stages."""
    for stage in plan:
        picture = filtered(stage, picture)
    return picture


def look_ahead(plan):
    """The rows that must be read beyond a row before it can be answered: each stage's reach down, added up."""
    return sum(rectangle(stage)[3] for stage in plan)


# ---- the dark residue: of a closing with these extents, left, right, up and down

def closing(extents):
    return [Stage(kind, *extents) for kind in (DILATION, EROSION)]


def counted(extents, width, rows):
    """The columns and the rows of the counted pixels: a+b to W-1-(a+b), and c+d to H-1-(c+d)."""
    left, right, up, down = extents
    last_column, last_row = width - 1 - (left + right), rows - 1 - (up + down)
    return range(left + right, last_column + 1), range(up + down, last_row + 1)


def row_residue(extents, row, rows, closed, given):
    """The sum over the counted pixels of this row of the closed value minus the given one; or its refusal: 3, 4, 7, 21, 16."""
    if max(extents) > 31:
        raise Refusal(3)
    if not 1 <= len(closed) <= 4096 or not 1 <= rows <= 65535 or row >= rows:
        raise Refusal(4)
    if len(given) != len(closed):
        raise Refusal(7)
    columns, counted_rows = counted(extents, len(closed), rows)
    if not columns or not counted_rows:
        raise Refusal(21)
    residue = [closed[x] - given[x] for x in columns if row in counted_rows]
    if any(value < 0 for value in residue):
        raise Refusal(16)
    return sum(residue)


def picture_residue(extents, closed, given):
    """The sum over its rows."""
    return sum(row_residue(extents, row, len(given), *pair) for row, pair in enumerate(zip(closed, given)))


# ---- too worn: is a picture's residue over a limit?

def judge_closing(extents, width, rows):
    """3, 4, 21."""
    if max(extents) > 31:
        raise Refusal(3)
    if not 1 <= width <= 4096 or not 1 <= rows <= 65535:
        raise Refusal(4)
    if not all(counted(extents, width, rows)):
        raise Refusal(21)


def worn_start(extents, width, rows, limit):
    judge_closing(extents, width, rows)
    return Question(*extents, width, rows, limit, 0, 0)


def is_sound(question):
    try:
        judge_closing(question[:4], question.width, question.rows)
    except Refusal:
        return False
    return question.row <= question.rows and question.sum <= 255 * question.width * question.row


def worn_pair(question, closed, given):
    """The answer to the next pair of rows, and the question after it; or its refusal: 12; unless yes was answered 9, 7, 16."""
    if not is_sound(question):
        raise Refusal(12)
    if question.sum > question.limit:
        return YES, question
    if question.row == question.rows:
        raise Refusal(9)
    if {len(closed), len(given)} != {question.width}:
        raise Refusal(7)
    total = question.sum + row_residue(question[:4], question.row, question.rows, closed, given)
    after = question._replace(row=question.row + 1, sum=total)
    if total > question.limit:
        return YES, after
    return NO if after.row == question.rows else NOT_YET, after


def worn_answers(extents, limit, closed, given):
    """The answers to the rows of a picture none of which is refused, by the sums alone."""
    sums = itertools.accumulate(row_residue(extents, row, len(given), *pair) for row, pair in enumerate(zip(closed, given)))
    answers = [YES if total > limit else NOT_YET for total in sums]
    return answers if answers[-1] == YES else answers[:-1] + [NO]


# ---- the job

def group(source, length):
    """The next bytes of the job; 13 where they are not all there."""
    read = source.read(length)
    if len(read) < length:
        raise Refusal(13)
    return read


def read_plan(source):
    count = group(source, 1)[0]
    if not 1 <= count <= 16:
        raise Refusal(1)
    numbers = group(source, 5 * count)
    plan = [Stage(*numbers[at:at + 5]) for at in range(0, 5 * count, 5)]
    for stage in plan:
        if stage.kind not in (EROSION, DILATION):
            raise Refusal(2)
        if max(stage[1:]) > 31:
            raise Refusal(3)
    return plan


def read_head(source, plan):
    written = group(source, 5)
    sample, width, rows = struct.unpack('<BHH', written)
    if sample not in (GREY, FLOAT):
        raise Refusal(5)
    if not 1 <= width <= 4096 or rows == 0:
        raise Refusal(4)
    if sum(width * (stage.up + stage.down + 1) for stage in plan) > 4096:
        raise Refusal(15)
    return Head(written, sample, width, rows)


def read_row(source, head):
    """A row's values. Adding 0.0 reads a negative zero as positive zero and changes no other number."""
    if head.sample == GREY:
        return list(group(source, head.width))
    row = [value + 0.0 for value in struct.unpack('<%df' % head.width, group(source, 4 * head.width))]
    if not all(map(math.isfinite, row)):
        raise Refusal(8)
    return row


def row_bytes(row, head):
    return bytes(row) if head.sample == GREY else struct.pack('<%df' % head.width, *row)


def read_picture(source, head):
    """The rows up to the first refused one, and its number, 0 where none is refused."""
    picture = []
    try:
        for _ in range(head.rows):
            picture.append(read_row(source, head))
    except Refusal as refusal:
        return picture, refusal.number
    return picture, 0


def answer(job):
    """The bytes that the program writes for the job."""
    source = io.BytesIO(job)
    try:
        plan = read_plan(source)
        head = read_head(source, plan)
    except Refusal as refusal:
        return bytes([0, refusal.number])
    picture, number = read_picture(source, head)
    # Output row k is due once row k + D is read. It depends on no later row, so a picture that was cut short
    # still gives every row that was due before the refusal.
    due = len(picture) if number == 0 else max(0, len(picture) - look_ahead(plan))
    if number == 0 and source.read(1):
        number = 14
    rows = after(plan, picture)[:due]
    return b'\2' + head.written + b''.join(b'\1' + row_bytes(row, head) for row in rows) + bytes([0, number])


if __name__ == '__main__':
    sys.stdout.buffer.write(answer(sys.stdin.buffer.read()))
