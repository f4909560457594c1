"""Cases with their answers: a name, a job, and the answer to it. Document 01's, as far as the program can show them, its line P filtered
twice, and float patterns. And lines with the positions that gave their values."""
import struct

from definition import DILATION, EROSION, FLOAT, GREY


def head(rows):
    return struct.pack('<BHH', GREY, len(rows[0]), len(rows))


def job(plan, rows):
    """The job of these stages over these grey rows."""
    return bytes([len(plan)]) + b''.join(map(bytes, plan)) + head(rows) + b''.join(map(bytes, rows))


def full_run(rows):
    """The answer of a full run that gives these rows."""
    return b'\2' + head(rows) + b''.join(b'\1' + bytes(row) for row in rows) + b'\0\0'


P = [3, 1, 4, 1, 5, 9, 2, 6]
OPENING, CLOSING = [EROSION, DILATION], [DILATION, EROSION]


def line(name, kinds, left, right, row, out):
    return name, job([(kind, left, right, 0, 0) for kind in kinds], [row]), full_run([out])


def cases():
    def square(name, kinds, value):
        return name, job([(kind, 1, 1, 1, 1) for kind in kinds], [bytes(3), b'\0\11\0', bytes(3)]), full_run([[value] * 3] * 3)

    def zeros(name, plan, width, number):
        """A row of zeros, and its answer: a full run, or a refusal of the head."""
        row = bytes(width)
        return name, job(plan, [row]), bytes([0, number]) if number else full_run([row])

    high = [(EROSION, 0, 0, 31, 31)] * 3
    yield 'whole case', bytes.fromhex('01010100000000030001 00050207'), bytes.fromhex('020003000100010507070000')
    yield line('1', [EROSION], 1, 2, P, [1, 1, 1, 1, 1, 2, 2, 2])
    yield line('2', [DILATION], 1, 2, P, [3, 4, 4, 5, 9, 9, 9, 9])
    yield line('3', OPENING, 1, 2, P, [1, 1, 1, 1, 2, 2, 2, 2])
    yield line('4', CLOSING, 1, 2, P, [3, 3, 4, 4, 5, 9, 9, 9])
    yield line('7', [DILATION], 0, 1, [4, 3, 2, 1], [4, 4, 3, 2])
    yield line('8', [DILATION], 1, 1, [7, 7, 7], [7, 7, 7])
    yield '9', job([(DILATION, 31, 31, 31, 31)], [b'\5']), full_run([[5]])
    yield square('10 dilated', [DILATION], 9)
    yield square('10 eroded', [EROSION], 0)
    yield square('10 opened', OPENING, 0)
    yield square('10 closed', CLOSING, 9)
    for place in range(1, 5):
        for extent, number in (31, 0), (32, 3):
            stage = [EROSION, 0, 0, 0, 0]
            stage[place] = extent
            yield zeros('11 extent %d at %d' % (extent, place), [stage], 3, number)
    yield zeros('11 width 4,096', [(EROSION, 1, 1, 0, 0)], 4096, 0)
    yield zeros('11 width 4,097', [(EROSION, 1, 1, 0, 0)], 4097, 4)
    yield zeros('11 16 stages', [(DILATION, 1, 1, 1, 1)] * 16, 3, 0)
    yield zeros('11 17 stages', [(DILATION, 1, 1, 1, 1)] * 17, 3, 1)
    yield zeros('11 4,096 cells', high + [(EROSION, 0, 0, 31, 31), (EROSION, 0, 0, 1, 1), (EROSION, 0, 0, 0, 0)], 16, 0)
    yield zeros('11 4,097 cells', high + [(EROSION, 0, 0, 31, 20)], 17, 15)
    yield 'all rows that a job can have', job([(EROSION, 1, 1, 1, 1)], [b'\0'] * 65535), full_run([b'\0'] * 65535)


def filtered_twice():
    """P opened and closed twice, dilated twice and at once; and opened by a dilation that is not reflected, which gives 2 at the fourth
    pixel, above the input."""
    yield line('3, twice', OPENING * 2, 1, 2, P, [1, 1, 1, 1, 2, 2, 2, 2])
    yield line('4, twice', CLOSING * 2, 1, 2, P, [3, 3, 4, 4, 5, 9, 9, 9])
    out = full_run([[4, 5, 9, 9, 9, 9, 9, 6]])
    yield 'two dilations', job([(DILATION, 1, 0, 0, 0), (DILATION, 2, 1, 0, 0)], [P]), out
    yield 'two dilations at once', job([(DILATION, 3, 1, 0, 0)], [P]), out
    yield 'not reflected', job([(EROSION, 1, 2, 0, 0), (DILATION, 2, 1, 0, 0)], [P]), full_run([[1, 1, 1, 2, 2, 2, 2, 2]])


def lines():
    """Kind, left, right and pixels of a line, the values that come out, and the positions that gave them, worked out by hand."""
    yield EROSION, 1, 2, P, [1, 1, 1, 1, 1, 2, 2, 2], [1, 3, 3, 3, 3, 6, 6, 6]
    yield DILATION, 1, 2, P, [3, 4, 4, 5, 9, 9, 9, 9], [0, 2, 2, 4, 5, 5, 5, 5]
    for kind in EROSION, DILATION:
        yield kind, 1, 1, [7, 7, 7], [7, 7, 7], [1, 2, 2]
        yield kind, 31, 31, [5], [5], [0]


def float_lines():
    """The same of floats: the zeros are one value."""
    for kind in EROSION, DILATION:
        yield kind, 1, 0, [-0.0, 0.0], [0.0, 0.0], [0, 1] if kind == EROSION else [1, 1]
        yield kind, 1, 1, [0.0, -0.0, 0.0, -0.0], [0.0] * 4, [1, 2, 3, 3]
    yield EROSION, 1, 1, [2.5, -1.0, 0.5], [-1.0, -1.0, -1.0], [1, 1, 1]


# Bit patterns of floats, what they are, and whether they are finite: by IEEE 754's table of binary32.
PATTERNS = (
    (0x00000000, 'zero', True), (0x80000000, 'negative zero', True),
    (0x00000001, 'smallest subnormal', True), (0x80000001, 'its negative', True),
    (0x007fffff, 'largest subnormal', True), (0x807fffff, 'its negative', True),
    (0x00800000, 'smallest normal', True), (0x80800000, 'its negative', True),
    (0x3f800000, 'one', True), (0xbf800000, 'its negative', True),
    (0x7f000000, 'the last exponent of a number', True), (0xff000000, 'its negative', True),
    (0x7f7fffff, 'largest', True), (0xff7fffff, 'its negative', True),
    (0x7f800000, 'infinity', False), (0xff800000, 'negative infinity', False),
    (0x7f800001, 'first signalling not-a-number', False), (0xff800001, 'the same with the sign', False),
    (0x7fbfffff, 'last signalling not-a-number', False), (0xffbfffff, 'the same with the sign', False),
    (0x7fc00000, 'first quiet not-a-number', False), (0xffc00000, 'the same with the sign', False),
    (0x7fffffff, 'last quiet not-a-number', False), (0xffffffff, 'the same with the sign', False))


def patterns():
    """Each pattern in the first, a middle and the last column of a row of halves that a window of one pixel leaves as it is: the row,
    in which a negative zero is read as positive zero, or 8."""
    width, half = 21, 0x3f000000
    written = struct.pack('<BHH', FLOAT, width, 1)
    for pattern, name, is_finite in PATTERNS:
        for column in 0, 10, width - 1:
            before, after = [half] * column, [half] * (width - 1 - column)
            row, out = (struct.pack('<%dI' % width, *before, pixel, *after) for pixel in (pattern, 0 if pattern == 0x80000000 else pattern))
            answered = b'\1' + out + b'\0\0' if is_finite else b'\0\10'
            yield 'pattern %08x, %s, in column %d' % (pattern, name, column), bytes([1, DILATION, 0, 0, 0, 0]) + written + row, b'\2' + written + answered


def tables():
    return [*cases(), *filtered_twice(), *patterns()]
