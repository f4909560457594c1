"""The program of crates/origins: how a call is written to it, and what its line tells."""
import re
import struct
import subprocess
from collections import namedtuple

from belt_script import plan_bytes
from definition import FLOAT, GREY, Stage
from runs import FIXED, NO_STATE, OPEN, STOPPED, Plan, State

# Slices are lists of numbers, and floats stand in them by their bits.
Slices = namedtuple('Slices', 'row out origin_rows origin_columns values positions columns starts lengths')
NOTHING = Slices(*([] for _ in Slices._fields))
# What a line tells: the call, its answer, the state, and the slices but for the row. A start tells only the records.
Told = namedtuple('Told', 'call answer state slices')

GROUP = {GREY: 0x10, FLOAT: 0x20}
STEPS = 'row', 'drain', 'origin row', 'origin drain'
START, STOP, TITLE = 0x30, 0x40, 0x50
ENDINGS = {'fixed': FIXED, 'open': OPEN, 'stopped': STOPPED}


def bits(value):
    return struct.unpack('<I', struct.pack('<f', value))[0]


def formats(kind):
    """How the numbers of each slice are written."""
    value = 'B' if kind == GREY else 'I'
    return dict(zip(Slices._fields, (value, value, 'Q', 'H', value, 'B', 'H', 'B', 'B')))


def command(op, state=NO_STATE, cells=0, slices=NOTHING, kind=GREY):
    head = plan_bytes(state.plan) + bytes([op, state.sample, state.ending])
    numbers = struct.pack('<13Q', state.width, state.rows, state.step, cells, *map(len, slices))
    return head + numbers + b''.join(struct.pack('<%d%s' % (len(part), each), *part) for part, each in zip(slices, formats(kind).values()))


# ---- lines

STATE = re.compile(r'(fixed|open|stopped), sample (\d+), width (\d+), rows (\d+), step (\d+)')


def read_state(fields, plan):
    ending, sample, width, rows, step = STATE.fullmatch(fields).groups()
    count, numbers = re.fullmatch('plan of ([0-9]+):((?: [0-9]+){80})', plan).groups()
    numbers = [int(word) for word in numbers.split()]
    stages = (Stage(*numbers[at:at + 5]) for at in range(0, 80, 5))
    return State(Plan(int(count), tuple(stages)), int(sample), int(width), ENDINGS[ending], int(rows), int(step))


def read_slice(part, name, base):
    words = part.removeprefix(name.replace('_', ' '))
    assert words != part and words[:1] in ('', ' '), 'no %s: %s' % (name, part)
    return [int(word, base) for word in words.split()]


def read_line(line, names, kind):
    """A line whose slices are those of these names."""
    first, fields, plan, *parts = line.split('; ')
    call, answer = first.split(': ')
    assert len(parts) == len(names), 'not all slices: %s' % line
    hexed = ('out', 'values') if kind == FLOAT else ()
    return Told(call, answer, read_state(fields, plan), {name: read_slice(part, name, 16 if name in hexed else 10) for part, name in zip(parts, names)})


class Program:
    """The program as it runs. What is written to it and what it tells is kept; `checked` counts what was compared."""

    def __init__(self, words):
        self.process = subprocess.Popen(words, stdin=subprocess.PIPE, stdout=subprocess.PIPE)
        self.commands, self.lines, self.checked = [], [], 0

    def __enter__(self):
        return self

    def __exit__(self, *_):
        self.process.stdin.close()
        self.process.stdout.close()
        self.process.wait(60)

    def tell(self, given):
        self.process.stdin.write(given)
        self.process.stdin.flush()
        return self.process.stdout.readline().decode()

    def line(self, given):
        line = self.tell(given)
        assert line.endswith('\n'), 'the program ended'
        self.commands.append(given)
        self.lines.append(line[:-1])
        return line[:-1]

    # ---- calls

    def title(self, words):
        assert self.line(command(TITLE, slices=NOTHING._replace(row=list(words.encode())))) == words

    def step(self, name, kind, state, slices):
        line = self.line(command(GROUP[kind] + STEPS.index(name), state, 0, slices, kind))
        return read_line(line, Slices._fields[1:], kind)

    def start(self, asks, is_record, state, cells, slices):
        line = self.line(command(START + 4 * asks + 2 * (state.ending == OPEN) + is_record, state, cells, slices))
        return read_line(line, Slices._fields[7:], GREY)

    def stop(self, state):
        return read_line(self.line(command(STOP, state)), (), GREY)
