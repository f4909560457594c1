#!/usr/bin/env python3
"""Tests tools/job.py, and what docs/JOBS.md, docs/NUMBERS.md and README.md say to its users.

    python3 tests/tool.py [--program PATH]

The jobs that the tool makes are answered by definition.py, or by the program where one is given. The examples of the two
pages, each a block of sh and the block of text behind it, are run as they stand. A difference is printed; the last line
is 'N passed, M failed'.
"""
import argparse
import collections
import fractions
import os
import pathlib
import random
import re
import struct
import subprocess
import sys
import tempfile
import threading
import time

import cases
import definition
from definition import DILATION, EROSION, Stage

TOP = pathlib.Path(__file__).resolve().parent.parent
sys.path.insert(0, str(TOP / 'tools'))
import job as tool

LARGEST = 0x7f7fffff
# the plan section of one stage that changes nothing
SAME = bytes([1, EROSION, 0, 0, 0, 0])
Run = collections.namedtuple('Run', 'status out told')


def run(*words, given=b''):
    """The tool's exit status, what it wrote, and what it told on standard error."""
    given = given.encode() if isinstance(given, str) else given
    ran = subprocess.run([sys.executable, str(TOP / 'tools' / 'job.py'), *words], input=given, capture_output=True, timeout=60)
    return Run(ran.returncode, ran.stdout, ran.stderr.decode())


def told_first(ran):
    """The status, whether something was written, and the first words that were told."""
    return ran.status, bool(ran.out), ran.told.partition(':')[0]


def turned_down(ran):
    """The status, what was written, and whether a sentence was told and no trace of Python."""
    return ran.status, ran.out, bool(ran.told.strip()) and 'Traceback' not in ran.told


def float_bytes(*bits):
    return struct.pack('<%dI' % len(bits), *bits)


# ---- each group of tests gives names, what came, and what should have come

def plans(_):
    erosion, dilation = [bytes([kind, 1, 2, 3, 4]) for kind in (EROSION, DILATION)]
    one, two = [[bytes([kind] + [extent] * 4) for kind in (EROSION, DILATION)] for extent in (1, 2)]
    for words, stages in (
            ('erosion 1 2 3 4', [erosion]), ('dilation 1 2 3 4', [dilation]), ('opening 1 2 3 4', [erosion, dilation]),
            ('closing 1 2 3 4', [dilation, erosion]), ('erosion 1', one[:1]), ('dilation 2', two[1:]), ('opening 1', one),
            ('closing 2', two[::-1]), ('opening 1, closing 2', one + two[::-1]), ('alternating 1', one + one[::-1]),
            ('alternating 2', one + one[::-1] + two + two[::-1]), ('erosion 31', [b'\0' + b'\37' * 4]),
            ('dilation 0', [b'\1\0\0\0\0']), ('  erosion   1,dilation 2 ', one[:1] + two[1:]), ('erosion 00000000001', one[:1])):
        section = bytes([len(stages)]) + b''.join(stages)
        yield 'plan ' + words, run('plan', words), Run(0, section, '')
        yield 'plan in several words ' + words, run('plan', *words.split()), Run(0, section, '')
    sixteen = run('plan', 'alternating 4').out
    yield 'alternating 4', (sixteen[0], len(sixteen), sixteen[-5:]), (16, 81, b'\0\4\4\4\4')


def wrong_words(_):
    for words in ([], ['plan'], ['make'], ['show', 'more'], ['show', '--anyway'], ['draw'], ['plan', '--anyhow', 'opening 1'],
                  ['plan', ''], ['plan', 'opening'], ['plan', 'opening 1 1'], ['plan', 'opening 1 1 1'],
                  ['plan', 'opening 1 1 1 1 1'], ['plan', 'opening -1'], ['plan', 'opening 1.5'], ['plan', 'opening one'],
                  ['plan', 'opening 1 closing 1'], ['plan', 'opening 1,'], ['plan', ', opening 1'], ['plan', 'sharpen 1'],
                  ['plan', 'alternating'], ['plan', 'alternating 1 1 1 1'], ['plan', '1'], ['make', 'opening'],
                  ['plan', '--anyway', 'opening 256'], ['plan', '--anyway', 'alternating 64'],
                  ['plan', '--anyway', 'opening 1' + '0' * 5000], ['plan', 'opening \udcff']):
        yield 'wrong words %.60s' % words, turned_down(run(*words, given='1 2 3\n')), (64, b'', True)
    yield 'help', (run('--help').status, run('--help').out.decode()), (0, tool.__doc__)


def refused_plans(answer):
    row = 'P2 3 1 255 5 2 7'
    seventeen = ', '.join(['erosion 0'] * 17)
    for words, number, told in (
            ('erosion 32', 3, 3), ('dilation 0 0 0 255', 3, 3), ('opening 1, closing 99', 3, 3), (seventeen, 1, 1),
            ('alternating 4, erosion 1', 1, 1), ('alternating 0', 1, 17), ('alternating 5', 1, 17), ('alternating 63', 1, 17),
            ('alternating 5, erosion 32', 1, 17), (seventeen + ', erosion 32', 1, 1)):
        for command in 'plan', 'make':
            yield '%s %s' % (command, words), told_first(run(command, words, given=row)), (1, False, str(told))
        made = run('make', '--anyway', words, given=row)
        yield 'make --anyway ' + words, (made.status, made.told, answer(made.out)), (0, '', bytes([0, number]))
    yield 'an extent over a byte', told_first(run('plan', 'erosion 256')), (1, False, '3')


def grey_pictures(_):
    plan = bytes([1, DILATION, 1, 0, 0, 0])
    whole = bytes.fromhex('01 01 01 00 00 00 00 03 00 01 00 05 02 07')
    for text in ('P2 3 1 255 5 2 7', 'P2\n3 1\n255\n5 2 7\n', 'P2\r\n3 1\r\n255\r\n5 2 7\r\n',
                 'P2\n# a comment\n3 1\n255\n5 2 7\n', 'P2 # one\n# two # three\n3 # width\n1 # rows\n255 # maxval\n5 2 7',
                 'P2\n3 1#c\n255#c\n5 2#c\n7', 'P2#c\n3 1 255 5 2 7', 'P2\t3\x0b1\x0c255\n005\n2\n7\n\n',
                 'P2\n#\n\n3 1\n255\n5 2 7 # the end', '\ufeffP2 3 1 255 5 2 7',
                 'P2 # \xe9\n3 1 255 5 2 7', b'P2 # \xe9\n3 1 255 5 2 7'):
        yield 'picture %r' % text, run('make', 'dilation', '1', '0', '0', '0', given=text), Run(0, whole, '')
    small = run('make', 'dilation 1 0 0 0', given='P2 2 2 15 15 0 1 14')
    told = small.told.startswith('the maxval is 15')
    yield 'maxval 15', (small.status, small.out, told), (0, plan + b'\0\2\0\2\0\17\0\1\16', True)
    yield 'maxval 1', run('make', 'dilation 1 0 0 0', given='P2 2 1 1 1 0').out, plan + b'\0\2\0\1\0\1\0'
    for text in ('P2', 'P2 3 1', 'P2 3 1 255 5 2', 'P2 3 1 255 5 2 7 8', 'P2 3 1 255 5 2 256', 'P2 3 1 15 5 2 16',
                 'P2 3 1 255 5 2 -7', 'P2 3 1 255 5 2 7.0', 'P2 3 1 0 0 0 0', 'P2 3 1 256 5 2 7', 'P2 3 1 65535 5 2 7',
                 'P2 x 1 255 5', 'P2 3 1 # 255 5 2 7', 'P5 3 1 255 abc', 'P3 1 1 255 1 1 1', 'P',
                 'P2 3 1 255 5 2 ' + '9' * 5000, 'P2 ' + '9' * 5000 + ' 1 255 5'):
        yield 'no picture %.30r' % text, turned_down(run('make', 'opening 1', given=text)), (2, b'', True)


def sizes(answer):
    """4, at each limit."""
    def grey(width, rows):
        return 'P2 %d %d 255 ' % (width, rows) + '0 ' * (width * rows)

    for width, rows, number in ((0, 0, 4), (0, 1, 4), (1, 0, 4), (4096, 1, 0), (4097, 1, 4), (1, 65535, 0), (65535, 1, 4)):
        ran = run('make', 'erosion 1 1 0 0', given=grey(width, rows))
        yield '%d x %d' % (width, rows), told_first(ran), (1, False, '4') if number else (0, True, '')
        made = run('make', '--anyway', 'erosion 1 1 0 0', given=grey(width, rows))
        yield '%d x %d, anyway' % (width, rows), (made.status, answer(made.out)[-1]), (0, number)
    for width, rows in (1, 65536), (65536, 1):
        for words in ['make', 'erosion 0'], ['make', '--anyway', 'erosion 0']:
            yield '%s, %d x %d' % (words, width, rows), told_first(run(*words, given=grey(width, rows))), (1, False, '4')
    yield 'a rate map of 4,097', told_first(run('make', 'erosion 0', given='0 ' * 4097)), (1, False, '4')


def value_of(bits):
    """The value of a float that is not negative. Behind the largest one stands an infinity, where the next would be."""
    return fractions.Fraction(*struct.unpack('<f', float_bytes(bits))) if bits <= LARGEST else fractions.Fraction(2) ** 128


def nearest(word):
    """The bits of the float nearest to the number, by search among all floats."""
    value = abs(fractions.Fraction(word))
    low, high = 0, LARGEST + 1
    while high - low > 1:
        middle = (low + high) // 2
        low, high = (middle, high) if value_of(middle) <= value else (low, middle)
    below, above = value - value_of(low), value_of(high) - value
    bits = low if below < above or (below == above and low % 2 == 0) else high
    return bits | (0x80000000 if word.startswith('-') else 0)


def ties(rng, count):
    """Numbers that stand exactly between two floats, and just beside that."""
    for _ in range(count):
        low = rng.choice((rng.randrange(LARGEST), rng.randrange(0x800000), rng.randrange(0x3f000000, 0x40000000), LARGEST - 1))
        two = struct.unpack('<2f', float_bytes(low, low + 1))
        digits = '%s%.200f' % (rng.choice(('', '-')), sum(two) / 2)
        yield digits + rng.choice(('', '0' * 30 + '1'))
        # a 5 ends the digits, or zeros do: one less in the last place lies below the tie
        cut = digits.rstrip('0')
        yield cut if cut.endswith('.') else cut[:-1] + str(int(cut[-1]) - 1) + '9' * rng.choice((1, 30))


def rates(_):
    known = (('0', 0), ('-0', 0x80000000), ('+1', 0x3f800000), ('1.', 0x3f800000), ('.5', 0x3f000000), ('-2.5e0', 0xc0200000),
             ('1E-45', 1), ('1e-46', 0), ('1.17549435e-38', 0x800000), ('3.4028235e38', LARGEST),
             ('-3.4028235677e38', LARGEST | 0x80000000), ('16777217', 0x4b800000), ('1e-999999999', 0), ('0.1', 0x3dcccccd),
             ('7', 0x40e00000))
    made = run('make', 'erosion 0', given=' '.join(word for word, _ in known))
    raster = float_bytes(*(bits for _, bits in known))
    yield 'known floats', made, Run(0, SAME + struct.pack('<BHH', 1, len(known), 1) + raster, '')
    rng = random.Random(1)
    some = ['%d.%de%d' % (rng.randrange(100), rng.getrandbits(60), rng.randint(-50, 38)) for _ in range(300)]
    for word in [*ties(rng, 300), *some]:
        yield 'nearest to ' + word, tool.nearest_float(word), float_bytes(nearest(word))
    for text in 'nan', '1 inf', '-INF 2', 'infinity', '1e39', '-3.4028236e38', '1e999999999':
        yield 'not finite ' + text, told_first(run('make', 'erosion 0', given=text)), (1, False, '8')
        made = run('make', '--anyway', 'erosion 0', given=text)
        yield 'not finite, anyway ' + text, (made.status, definition.answer(made.out)[-1]), (0, 8)
    told = run('make', 'erosion 0', given='1 2\n3 nan\n').told
    yield 'the place', 'row 1, column 1' in told, True
    lines = run('make', 'erosion 0', given='# rates\n1 2\r\n\n3 4 # last\n')
    yield 'lines', lines, Run(0, SAME + struct.pack('<BHH4f', 1, 2, 2, 1, 2, 3, 4), '')
    for text in ('', '\n \n', '# none', '1 2\n3', '1 2\n3 4 5', '1,5 2', '1 2;3', 'x', '0x10', '1_0', '1e', '--1', '\u0661',
                 '\x89PNG\r\n\x1a\n\0', '1e1000000000'):
        yield 'no rate map %r' % text, turned_down(run('make', 'erosion 0', given=text)), (2, b'', True)


def shown_floats(_):
    """Each float is shown by the shortest number that reads back to it."""
    rng = random.Random(2)
    some = [0, 0x80000000, 1, 0x80000001, 0x7fffff, 0x800000, LARGEST, LARGEST | 0x80000000, 0x3f800000, 0x3f800001, 0x4b800000]
    for bits in some + [rng.getrandbits(31) % LARGEST | rng.choice((0, 0x80000000)) for _ in range(500)]:
        word, value = tool.float_word(float_bytes(bits)), struct.unpack('<f', float_bytes(bits))[0]
        yield 'the float %08x as %s' % (bits, word), nearest(word), bits
        digits = len(re.sub(r'e.*|[-.]', '', word).strip('0'))
        if digits > 1:
            yield 'no shorter than ' + word, nearest('%.*g' % (digits - 1, value)) == bits, False
    for bits, word in ((0, '0'), (0x80000000, '-0'), (1, '1e-45'), (LARGEST, '3.4028235e+38'), (0x3dcccccd, '0.1'),
                       (0x40e00000, '7')):
        yield 'the float ' + word, tool.float_word(float_bytes(bits)), word


def any_float(rng):
    """A finite float, and often a zero of either sign."""
    return struct.unpack('<f', float_bytes(rng.randrange(LARGEST)))[0] * rng.choice((-1, -0.0, 0.0, 1))


def round_trips(answer):
    """From a text to a job, to its answer, to a text: the filtered picture, and the same picture when it is read again."""
    rng = random.Random(3)
    several = 'opening 1', 'dilation 1 0 0 0', 'closing 2, erosion 0 3 1 0', 'alternating 1', 'alternating 4'
    for at, words in enumerate(several * 2):
        width, rows, is_grey = rng.randint(1, 42), rng.randint(1, 12), at < 5
        plan = [Stage(*stage) for stage in tool.plan_of(tool.parts_of(words))]
        if is_grey:
            picture = [list(rng.randbytes(width)) for _ in range(rows)]
            text = 'P2 # %d\n%d %d 255\n' % (at, width, rows) + '\n'.join(' '.join(map(str, row)) for row in picture)
        else:
            picture = [[any_float(rng) for _ in range(width)] for _ in range(rows)]
            text = '\n'.join(' '.join(map(repr, row)) for row in picture)
        made = run('make', words, given=text)
        shown = run('show', given=answer(made.out))
        name = '%s over %d x %d, %s' % (words, width, rows, 'grey' if is_grey else 'floats')
        yield name, (made.status, made.told, shown.status, shown.told), (0, '', 0, '0: nothing was refused: a full run\n')
        filtered = [value + 0 for row in definition.after(plan, picture) for value in row]
        again = run('make', 'erosion 0', given=shown.out).out[6:]
        head = struct.pack('<BHH', 0 if is_grey else 1, width, rows)
        yield name + ', again', again, head + (bytes(filtered) if is_grey else struct.pack('<%df' % len(filtered), *filtered))
        if is_grey:
            yield name + ', lines', max(map(len, shown.out.splitlines())) <= 70, True


def shown_refusals(answer):
    """Each number that a job can give, what it says, and the rows that come with it."""
    given = cases.job([(EROSION, 1, 1, 1, 1)], [b'\7\2\11', b'\10\0\6', b'\3\5\1'])
    infinite = given[:6] + b'\1' + given[7:11] + float_bytes(*[0] * 8 + [0x7f800000])
    row, none = b'0 0 0\n', 'no row came'
    for number, wrong, out, came in (
            (1, b'\0', b'', none), (2, given[:1] + b'\2' + given[2:], b'', none), (3, given[:2] + b'\40' + given[3:], b'', none),
            (4, given[:9] + b'\0\0', b'', none), (5, given[:6] + b'\2' + given[7:], b'', none),
            (15, given[:8] + b'\6' + given[9:], b'', none), (13, b'', b'', none), (13, given[:13], b'', '0 of 3 rows came'),
            (13, given[:-1], b'P2\n3 1\n255\n' + row, '1 of 3 rows came'), (8, infinite, row, '1 of 3 rows came'),
            (14, given + b'\0', b'P2\n3 3\n255\n' + row * 3, '3 of 3 rows came')):
        ran = run('show', given=answer(wrong))
        meaning = tool.meanings()[number]
        yield 'show %d, %s' % (number, came), ran, Run(1, out, '%d: %s\n%s\n%s\n' % (number, meaning.says, came, meaning.asks))


def shown_cut(answer):
    """An answer that ends early is told from a whole one at every place, though its last bytes may be 0 and 0."""
    grey, floats = answer(SAME + b'\0\2\0\2\0' + bytes(4)), answer(SAME + b'\1\1\0\2\0' + bytes(8))
    for name, whole, size in ('grey', grey, 3), ('floats', floats, 5), ('refused', b'\0\17', 1):
        for end in range(1, len(whole)):
            read = tool.read_answer(whole[:end])
            rows = read.picture.rows if read.picture else 0
            yield '%s cut at %d' % (name, end), (read.number, rows), (None, max(0, end - 6) // size)
    told = 'the answer is cut short, it has no number: 1 of 2 rows came\n'
    yield 'cut in a row', run('show', given=grey[:11]), Run(2, b'P2\n2 1\n255\n0 0\n', told)
    yield 'cut before its number', run('show', given=grey[:-2])[:2], (2, b'P2\n2 2\n255\n0 0\n0 0\n')


def no_answers(answer):
    """Bytes that are no answer."""
    grey = answer(SAME + b'\0\2\0\2\0' + bytes(4))
    for name, data in (
            ('nothing', b''), ('0 and 0', b'\0\0'), ('a byte after', grey + b'\0'), ('a byte after a refusal', b'\0\1\0'),
            ('another marker', grey[:9] + b'\3' + grey[10:]), ('a first byte 1', b'\1'), ('sample kind 2', b'\2\2\1\0\1\0'),
            ('width 0', b'\2\0\0\0\1\0'), ('width 4,097', b'\2\0\1\20\1\0'), ('no row', b'\2\0\1\0\0\0'),
            ('a row too many', grey[:-2] + b'\1\0\0\0\0'), ('a number that there is not', b'\0\376'),
            ('14 without its rows', b'\0\16'), ('0 before its rows', grey[:9] + b'\0\0'),
            ('13 after all rows', grey[:-1] + b'\15'), ('a PGM', b'P5 1 1 255 1')):
        yield 'no answer: ' + name, turned_down(run('show', given=data)), (2, b'', True)


def descriptors(_):
    """74 where a descriptor fails, and no trace of Python."""
    for words in 'show <&-', 'make opening 1 <&-', 'plan opening 1 >/dev/full', 'plan opening 1 >&-':
        ran = subprocess.run(['sh', '-c', '"$0" tools/job.py ' + words, sys.executable], cwd=TOP, capture_output=True)
        yield words, (ran.returncode, b'standard' in ran.stderr, b'Traceback' in ran.stderr), (74, True, False)


def unblocked(answer):
    """Ends that do not block: an answer that comes late and by halves, and is longer than a pipe holds when it is shown."""
    rows = [bytes(range(256)) * 16 for _ in range(20)]
    data = answer(SAME + struct.pack('<BHH', 0, 4096, 20) + b''.join(rows))
    (given, feeding), (shown, showing) = os.pipe(), os.pipe()
    os.set_blocking(given, False)
    os.set_blocking(showing, False)
    process = subprocess.Popen([sys.executable, str(TOP / 'tools' / 'job.py'), 'show'], stdin=given, stdout=showing, stderr=subprocess.PIPE)
    os.close(given)
    os.close(showing)
    with os.fdopen(shown, 'rb') as source, os.fdopen(feeding, 'wb', buffering=0) as sink:
        time.sleep(0.3)
        sink.write(data[:20000])
        time.sleep(0.3)
        threading.Thread(target=lambda: (sink.write(data[20000:60000]), sink.write(data[60000:]), sink.close())).start()
        time.sleep(0.3)
        text = source.read()
    told = process.stderr.read().decode()
    yield 'ends that do not block', (process.wait(), told, text), tuple(run('show', given=data)[index] for index in (0, 2, 1))


def widths(answer):
    """docs/JOBS.md: stages, cells a column and the widest picture of each plan, and the number of the next width."""
    page = (TOP / 'docs' / 'JOBS.md').read_text()
    table = re.findall(r'^\| `([a-z0-9 ,]+)` \|[^|]*\| (\d+) \| (\d+) \| ([\d,]+) \|$', page, re.MULTILINE)
    yield 'the table of widths', len(table), 16
    for words, stages, cells, widest in table:
        plan, widest = tool.plan_of(tool.parts_of(words)), int(widest.replace(',', ''))
        yield words, (len(plan), sum(up + down + 1 for *_, up, down in plan)), (int(stages), int(cells))
        for width, number in (widest, 0), (widest + 1, 15 if widest < 4096 else 4):
            yield '%s at %d' % (words, width), answer(cases.job(plan, [bytes(width)]))[-1], number
    for width, number in (682, 0), (683, 15):
        given = 'P2 %d 1 255 ' % width + '9 ' * width
        ran = told_first(run('make', 'opening 1', given=given))
        yield 'opening 1 at %d' % width, ran, (1, False, '15') if number else (0, True, '')
        made = run('make', '--anyway', 'opening 1', given=given)
        yield 'opening 1 at %d, anyway' % width, answer(made.out)[-1], number
    yield 'the widest is told', 'a width of up to 682' in run('make', 'opening 1', given='0 ' * 683).told, True


def other_ways(_):
    """docs/JOBS.md, "Wider pictures", and what number 3 asks for: the same picture in other ways."""
    rng = random.Random(4)
    picture = [list(rng.randbytes(12)) for _ in range(9)]

    def after(words, given):
        return definition.after([Stage(*stage) for stage in tool.plan_of(tool.parts_of(words))], given)

    opened = after('opening 1', picture)
    yield 'stages as jobs', after('dilation 1', after('erosion 1', picture)), opened
    yield 'a stage as several', after('erosion 1 1 0 0, erosion 0 0 1 0, erosion 0 0 0 1', picture), after('erosion 1', picture)
    for kind in 'erosion', 'dilation':
        yield kind + 's add up', after('%s 1 2 3 4, %s 5 0 1 2' % (kind, kind), picture), after(kind + ' 6 2 4 6', picture)
        turned = after(kind + ' 3 4 1 2', list(map(list, zip(*picture))))
        yield kind + ' turned', list(map(list, zip(*turned))), after(kind + ' 1 2 3 4', picture)
    strips = after('opening 1', [row[:8] for row in picture]), after('opening 1', [row[4:] for row in picture])
    yield 'in strips', [left[:6] + right[2:] for left, right in zip(*strips)], opened


def numbers(_):
    """docs/NUMBERS.md has every number of the C header, and names those of a job."""
    page = (TOP / 'docs' / 'NUMBERS.md').read_text()
    header = (TOP / 'firmware' / 'kelafshir.h').read_text().partition('enum kelafshir_number')[2].partition('};')[0]
    in_header = [int(number) for number in re.findall(r'KELAFSHIR_\w+ = (\d+)', header)]
    yield 'the numbers of the header', in_header, list(range(18)) + [20, 21, 28]
    yield 'the numbers', list(tool.meanings()), in_header
    silent = [number for number, (says, asks) in tool.meanings().items() if not says or not asks.endswith('.')]
    yield 'each says and asks', silent, []
    of_jobs = [int(number) for number in re.findall(r'^\| (\d+) \|.*\| jobs[^|]*\|$', page, re.MULTILINE)]
    yield 'the numbers of jobs', of_jobs, [0, 1, 2, 3, 4, 5, 8, 13, 14, 15]


def examples(answers):
    """Every block of sh on the two pages writes the block of text behind it; the page has each line that it tells."""
    with tempfile.TemporaryDirectory() as folder:
        for name in 'tools', 'docs', 'crates':
            (pathlib.Path(folder) / name).symlink_to(TOP / name)
        program = pathlib.Path(folder) / 'kelafshir'
        program.write_text('#!/bin/sh\nexec %s\n' % answers)
        program.chmod(0o755)
        for page in 'README.md', 'docs/JOBS.md':
            text = (TOP / page).read_text()
            blocks = re.findall(r'^```sh\n(.*?)^```\n+^```text\n(.*?)^```$', text, re.MULTILINE | re.DOTALL)
            yield page + ', its blocks', (len(blocks), text.count('```sh\n')), (text.count('```text\n'),) * 2
            for block, out in blocks:
                ran = subprocess.run(['sh', '-c', block], cwd=folder, capture_output=True, text=True, timeout=600)
                yield '%s: %s' % (page, block.splitlines()[0]), ran.stdout, out
                yield 'told by the same', [line for line in ran.stderr.splitlines() if line not in text], []


GROUPS = (plans, wrong_words, refused_plans, grey_pictures, sizes, rates, shown_floats, round_trips, shown_refusals, shown_cut,
          no_answers, descriptors, unblocked, widths, other_ways, numbers)


def main():
    words = argparse.ArgumentParser()
    words.add_argument('--program', type=pathlib.Path)
    program = words.parse_args().program

    def by_program(job):
        return subprocess.run([program.resolve()], input=job, stdout=subprocess.PIPE, timeout=600, check=True).stdout

    answer = by_program if program else definition.answer
    answers = "'%s'" % program.resolve() if program else "'%s' '%s'" % (sys.executable, TOP / 'tests' / 'definition.py')
    passed = failed = 0
    for group, given in [(group, answer) for group in GROUPS] + [(examples, answers)]:
        for name, got, expected in group(given):
            if got == expected:
                passed += 1
            else:
                failed += 1
                print('DIFFERENCE %s, %s\n  expected %.400r\n  got      %.400r' % (group.__name__, name, expected, got))
    print('%d passed, %d failed' % (passed, failed))
    return 1 if failed else 0


if __name__ == '__main__':
    sys.exit(main())
