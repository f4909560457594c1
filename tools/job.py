#!/usr/bin/env python3
"""Makes a job from a plan in words and a plain picture, and shows an answer again.

    tools/job.py plan [--anyway] PLAN.. > plan             the plan section alone
    tools/job.py make [--anyway] PLAN.. < picture > job    the whole job
    tools/job.py show < answer > picture                   the answer's rows; its number goes to standard error

A PLAN is stages joined by commas, such as  opening 1, closing 2  or  dilation 1 0 0 0: a name, and one number for all
extents or four for left, right, up and down. The names are erosion, dilation, opening, closing, and alternating with
its order, 1 to 4. What would be refused is told and not made, unless --anyway is given.

A picture is a plain PGM (P2, maxval 1 to 255) or, without that head, a rate map: rows of numbers, a line each.
docs/JOBS.md says more, docs/NUMBERS.md has the numbers and the exit statuses.
"""
# The parts: a plan in words -> the plan section; a picture's text -> a Picture; an answer's bytes -> an Answer. Each is
# read whole, judged apart from its reading, and written by a function of its own, so that one of them can be replaced.
import decimal
import functools
import itertools
import math
import os
import pathlib
import re
import select
import signal
import struct
import sys
from collections import namedtuple

EROSION, DILATION = 0, 1
GREY, FLOAT = 0, 1
SIZE = {GREY: 1, FLOAT: 4}
MOST_STAGES, LARGEST_EXTENT, HIGHEST_ORDER = 16, 31, 4
WIDEST, MOST_ROWS, MOST_CELLS = 4096, 65535, 4096

DONE, REFUSED, NOT_SUCH, WRONG_WORDS, NOT_MOVED = 0, 1, 2, 64, 74

Picture = namedtuple('Picture', 'sample width rows raster')
Answer = namedtuple('Answer', 'picture due number')
Meaning = namedtuple('Meaning', 'says asks')


class Told(Exception):
    """Why it goes no further: an exit status, and a sentence for standard error."""

    def __init__(self, status, sentence):
        super().__init__(sentence)
        self.status = status


# ---- the numbers

def meanings():
    """What each number says and asks for: the table of docs/NUMBERS.md, which alone has four columns."""
    page = pathlib.Path(__file__).resolve().parent.parent / 'docs' / 'NUMBERS.md'
    rows = [[cell.strip() for cell in line.split('|')[1:-1]] for line in page.read_text(encoding='utf-8').splitlines()]
    return {int(row[0]): Meaning(row[1], row[2]) for row in rows if len(row) == 4 and row[0].isdigit()}


def refused(number, here):
    """The refusal that the plan or the job would get: its number, what it says, what is so here, what to do."""
    meaning = meanings()[number]
    return Told(REFUSED, '%d: %s\n%s\n%s' % (number, meaning.says, here, meaning.asks))


def whole(word):
    """A whole number in digits, or None. One of over nine digits is over every limit, and stands for itself."""
    if not (word.isascii() and word.isdigit()):
        return None
    return int(word) if len(word) < 10 else int(word.lstrip('0')[:10] or '0')


# ---- a plan in words

KINDS = {'erosion': (EROSION,), 'dilation': (DILATION,), 'opening': (EROSION, DILATION), 'closing': (DILATION, EROSION)}


def part_of(words):
    """A stage, or a named plan: its name and its numbers, the order or the four extents."""
    name, numbers, text = (words + [''])[0], [whole(word) for word in words[1:]], ' '.join(words)
    if name not in KINDS and name != 'alternating':
        raise Told(WRONG_WORDS, '"%s" is no stage: the names are %s and alternating' % (text, ', '.join(KINDS)))
    if None in numbers:
        raise Told(WRONG_WORDS, '"%s": a stage is a name and whole numbers, and commas stand between stages' % text)
    if name == 'alternating' and len(numbers) != 1:
        raise Told(WRONG_WORDS, '"%s": alternating has one number, its order' % text)
    if name != 'alternating' and len(numbers) not in (1, 4):
        raise Told(WRONG_WORDS, '"%s": a stage has one number for all extents, or four for left, right, up and down' % text)
    return name, numbers if name == 'alternating' or len(numbers) == 4 else numbers * 4


def parts_of(text):
    return [part_of(part.split()) for part in text.split(',')]


def stage_count(parts):
    return sum(4 * numbers[0] if name == 'alternating' else len(KINDS[name]) for name, numbers in parts)


def judge_parts(parts):
    """The number that the plan would get: 17, then 1, then 3."""
    for name, numbers in parts:
        if name == 'alternating' and not 1 <= numbers[0] <= HIGHEST_ORDER:
            raise refused(17, 'here: alternating %d' % numbers[0])
    if not 1 <= stage_count(parts) <= MOST_STAGES:
        raise refused(1, 'here: %d stages' % stage_count(parts))
    for name, numbers in parts:
        if max(numbers) > LARGEST_EXTENT:
            raise refused(3, 'here: %s with an extent of %d' % (name, max(numbers)))


def plan_of(parts):
    """The stages: each its kind, left, right, up and down."""
    if stage_count(parts) > 255 or max(number for _, numbers in parts for number in numbers) > 255:
        raise Told(WRONG_WORDS, 'an extent or a stage count of over 255 does not fit the byte that it has in a job')
    plan = []
    for name, numbers in parts:
        if name == 'alternating':
            plan += [(kind,) + (extent,) * 4 for extent in range(1, numbers[0] + 1)
                     for kind in KINDS['opening'] + KINDS['closing']]
        else:
            plan += [(kind, *numbers) for kind in KINDS[name]]
    return plan


def plan_section(plan):
    return bytes([len(plan)]) + b''.join(map(bytes, plan))


# ---- a plain picture

def words_of(text):
    """The words of a plain PGM. A comment may stand anywhere; its line's end still divides, as Netpbm's programs read it."""
    for line in text.splitlines():
        yield from line.partition('#')[0].split()


def grey_value(word, maxval):
    value = whole(word)
    if value is None or value > maxval:
        raise Told(NOT_SUCH, '%a is no pixel: pixels are whole numbers up to the maxval, here %d' % (word[:20], maxval))
    return value


def grey_picture(text):
    """A plain PGM. Its values go into the job as they are: a job has no maxval."""
    words = words_of(text)
    magic, head = next(words, ''), [whole(word) for word in itertools.islice(words, 3)]
    if magic != 'P2':
        raise Told(NOT_SUCH, '%a: a plain PGM begins with P2; pnmtoplainpnm makes one of a binary PGM' % magic[:20])
    if len(head) < 3 or None in head:
        raise Told(NOT_SUCH, 'the head of a plain PGM is P2, width, rows and maxval, and here it is not')
    width, rows, maxval = head
    if not 1 <= maxval <= 255:
        raise Told(NOT_SUCH, 'the maxval is %d, and has to be 1 to 255: pamdepth 255 | pnmtoplainpnm makes it so' % maxval)
    raster = bytes(grey_value(word, maxval) for word in words)
    if len(raster) != width * rows:
        raise Told(NOT_SUCH, 'the head names %d columns and %d rows, and there are %d pixels' % (width, rows, len(raster)))
    if maxval != 255:
        tell('the maxval is %d: the pixels go into the job as they are, and show will write them with maxval 255' % maxval)
    return Picture(GREY, width, rows, raster)


NUMBER = re.compile(r'[+-]?([0-9]+\.?[0-9]*|\.[0-9]+)([eE][+-]?[0-9]{1,9})?', re.ASCII)
NOT_FINITE = re.compile(r'[+-]?(nan|inf|infinity)', re.ASCII | re.IGNORECASE)


def nearest_float(word):
    """The four bytes of the 32-bit float nearest to a number in words; past the largest one, of an infinity.

    There is a double on the way. Where it is not the number itself, that one of its two neighbouring doubles is taken
    whose last bit is 1: it is no tie between two floats, and lies on the number's own side of every tie.
    """
    double = float(word)
    exact = decimal.Decimal(word)
    if not exact.is_nan() and exact != decimal.Decimal(double) and struct.pack('<d', double)[0] % 2 == 0:
        double = math.nextafter(double, math.inf if exact > decimal.Decimal(double) else -math.inf)
    try:
        return struct.pack('<f', double)
    except OverflowError:
        return struct.pack('<f', math.copysign(math.inf, double))


def rate_row(at, words):
    """The bytes of a row of a rate map."""
    for word in words:
        if not NUMBER.fullmatch(word) and not NOT_FINITE.fullmatch(word):
            raise Told(NOT_SUCH, 'row %d: %a is no number; a picture is a plain PGM, which begins with P2, or rows of numbers '
                       'with blanks between them' % (at, word[:20]))
    return b''.join(map(nearest_float, words))


def rate_map(text):
    """Rows of numbers, a line each. Blank lines, and what stands behind a #, are no part of it."""
    rows = [words for words in (line.partition('#')[0].split() for line in text.splitlines()) if words]
    if not rows:
        raise Told(NOT_SUCH, 'standard input holds no picture')
    raster = b''.join(itertools.starmap(rate_row, enumerate(rows)))
    for at, words in enumerate(rows):
        if len(words) != len(rows[0]):
            raise Told(NOT_SUCH, 'row %d has %d numbers, and row 0 has %d' % (at, len(words), len(rows[0])))
    return Picture(FLOAT, len(rows[0]), len(rows), raster)


def picture_of(text):
    """The head decides: a text that begins with a P is a PGM, any other a rate map."""
    return grey_picture(text) if text.lstrip()[:1] == 'P' else rate_map(text)


def first_not_finite(picture):
    """The row and the column of the first float whose exponent bits are all ones; None where there is none."""
    if picture.sample == GREY:
        return None
    bits = struct.iter_unpack('<I', picture.raster)
    at = next((at for at, (value,) in enumerate(bits) if value & 0x7f800000 == 0x7f800000), None)
    return None if at is None else divmod(at, picture.width)


# ---- the job

def judge_image(plan, picture):
    """The number that the picture would get under the plan: 4, then 15, then 8."""
    if not 1 <= picture.width <= WIDEST or not 1 <= picture.rows <= MOST_ROWS:
        raise refused(4, 'here: %d columns, %d rows' % (picture.width, picture.rows))
    column = sum(up + down + 1 for _, _, _, up, down in plan)
    if picture.width * column > MOST_CELLS:
        raise refused(15, 'here: width %d, %d cells for each column, %d cells in all; this plan takes a width of up to %d' % (
            picture.width, column, picture.width * column, MOST_CELLS // column))
    place = first_not_finite(picture)
    if place:
        raise refused(8, 'here: row %d, column %d, counted from 0' % place)


def image_section(picture):
    if max(picture.width, picture.rows) > 65535:
        raise refused(4, 'here: %d columns, %d rows; a job has two bytes for each' % (picture.width, picture.rows))
    return struct.pack('<BHH', picture.sample, picture.width, picture.rows) + picture.raster


# ---- the answer

def number_of(rest, is_whole):
    """The number that ends an answer, from the bytes behind its last whole row; None where they end before it."""
    if not rest or rest == b'\0' or (rest[0] == 1 and not is_whole):
        return None
    if rest[0] != 0 or len(rest) > 2:
        raise Told(NOT_SUCH, 'these bytes are no answer: behind its rows there are 0, a number, and nothing more')
    if rest[1] not in meanings():
        raise Told(NOT_SUCH, 'these bytes are no answer: there is no number %d' % rest[1])
    if (rest[1] in (0, 14)) != is_whole:
        raise Told(NOT_SUCH, 'these bytes are no answer: its rows and the number %d do not go together' % rest[1])
    return rest[1]


def read_answer(data):
    """The rows that came, how many rows the head names, and the number, None where the answer is cut short."""
    if data[:1] == b'\0':
        return Answer(None, 0, number_of(data, False))
    if data[:1] != b'\2':
        raise Told(NOT_SUCH, 'these bytes are no answer: it begins with 2 or 0' if data else 'standard input holds no answer')
    if len(data) < 6:
        return Answer(None, 0, None)
    sample, width, due = struct.unpack('<BHH', data[1:6])
    if sample not in SIZE or not 1 <= width <= WIDEST or due == 0:
        raise Told(NOT_SUCH, 'these bytes are no answer: its image head is never answered')
    size, at, rows = 1 + width * SIZE[sample], 6, []
    while len(rows) < due and data[at:at + 1] == b'\1' and at + size <= len(data):
        rows.append(data[at + 1:at + size])
        at += size
    return Answer(Picture(sample, width, len(rows), b''.join(rows)), due, number_of(data[at:at + 3], len(rows) == due))


@functools.lru_cache(1 << 16)
def float_word(four):
    """The shortest number in words whose nearest float has these four bytes."""
    value, = struct.unpack('<f', four)
    words = ['%.*g' % (digits, value) for digits in range(1, 10)]
    return next((word for word in words if nearest_float(word) == four), words[-1])


def plain(picture):
    """The picture's text. A PGM's lines stay under 70 characters, as Netpbm asks for; a rate map has a line for each row."""
    size = picture.width * SIZE[picture.sample]
    rows = [picture.raster[at:at + size] for at in range(0, len(picture.raster), size)]
    if picture.sample == FLOAT:
        return ''.join(' '.join(float_word(row[at:at + 4]) for at in range(0, size, 4)) + '\n' for row in rows)
    lines = (row[at:at + 17] for row in rows for at in range(0, size, 17))
    return 'P2\n%d %d\n255\n' % (picture.width, picture.rows) + ''.join(' '.join(map(str, line)) + '\n' for line in lines)


# ---- the command

def put(descriptor, data):
    """Writes all of it, past Python's own buffers, which would fail a second time on the way out. An end that does not
    block is waited for."""
    rest = memoryview(data)
    while rest:
        try:
            rest = rest[os.write(descriptor, rest):]
        except BlockingIOError:
            select.select([], [descriptor], [])


def tell(sentence):
    try:
        put(2, (sentence + '\n').encode('utf-8', 'replace'))
    except OSError:
        pass


def give(data):
    try:
        put(1, data)
    except OSError as error:
        raise Told(NOT_MOVED, 'standard output could not be written: %s' % error.strerror) from error


def given():
    """All of standard input. An end that does not block is waited for."""
    pieces = []
    try:
        while not pieces or pieces[-1]:
            try:
                pieces.append(os.read(0, 1 << 16))
            except BlockingIOError:
                select.select([0], [], [])
        return b''.join(pieces)
    except OSError as error:
        raise Told(NOT_MOVED, 'standard input could not be read: %s' % error.strerror) from error


def judged_plan(words, is_anyway):
    parts = parts_of(' '.join(words))
    if not is_anyway:
        judge_parts(parts)
    return plan_of(parts)


def make(words, is_anyway):
    plan = judged_plan(words, is_anyway)
    picture = picture_of(given().decode('utf-8-sig', 'replace'))
    if not is_anyway:
        judge_image(plan, picture)
    give(plan_section(plan) + image_section(picture))


def show():
    """Writes the rows that came, tells the number, and gives the exit status."""
    answer = read_answer(given())
    came = '%d of %d rows came' % (answer.picture.rows, answer.due) if answer.picture else 'no row came'
    if answer.picture and answer.picture.rows:
        give(plain(answer.picture).encode())
    if answer.number is None:
        raise Told(NOT_SUCH, 'the answer is cut short, it has no number: %s' % came)
    if answer.number:
        raise refused(answer.number, came)
    tell('0: %s' % meanings()[0].says)


def command(words):
    name, rest = (words + [''])[0], [word for word in words[1:] if word != '--anyway']
    is_anyway = len(rest) < len(words[1:])
    if words in (['--help'], ['-h']):
        give(__doc__.encode())
    elif name == 'plan' and rest:
        give(plan_section(judged_plan(rest, is_anyway)))
    elif name == 'make' and rest:
        make(rest, is_anyway)
    elif words == ['show']:
        show()
    else:
        raise Told(WRONG_WORDS, __doc__.rstrip())


def main():
    # Ended from outside, or left by its reader, it goes as any other command does.
    for ended in signal.SIGINT, signal.SIGPIPE:
        signal.signal(ended, signal.SIG_DFL)
    try:
        command(sys.argv[1:])
    except Told as told:
        tell(str(told))
        return told.status
    except OSError as error:
        tell('%s: %s' % (error.filename, error.strerror))
        return NOT_MOVED
    return DONE


if __name__ == '__main__':
    sys.exit(main())
