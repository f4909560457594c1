"""Commands for the program of crates/belts, and the line that each has to give by runs.py."""
import struct

from definition import FLOAT, GREY
from runs import (
    FIXED, NO_STATE, OPEN, STOPPED, Lent, Plan, Stages, State, ahead, bad_column, cells_needed, drain_rules, first_of, place_rules, plan_of, records_needed,
    row_rules, start_rules, stop_rules, used, window)

WORDS = {GREY: 'grey', FLOAT: 'rate'}
ENDINGS = {FIXED: 'fixed', OPEN: 'open', STOPPED: 'stopped'}
# The program's memory, and what it holds everywhere before the first start.
ALL_LENT = Lent(4096, 4096, 1024, 1024)
FRESH = 171

# ---- commands

GROUP = {GREY: 0x10, FLOAT: 0x20}
ROW, DRAIN, QUEUE = range(3)
START, STOP = 0x30, 0x34
SET_STATE, SET_PLAN, TELL, LEND, EDGE, RECORD, RECORD_BACK, TITLE = range(0x40, 0x48)


def command(op, x=0, y=0, numbers=(), follows=b''):
    a, b, c, d = tuple(numbers) + (0,) * (4 - len(numbers))
    return struct.pack('<BBB5Q', op, x, y, a, b, c, d, len(follows)) + follows


def plan_bytes(plan):
    return bytes([plan.count]) + b''.join(map(bytes, plan.stages))


def row_bytes(kind, row):
    return bytes(row) if kind == GREY else struct.pack('<%df' % len(row), *row)


# ---- what the program tells

def shown(kind, value):
    return str(value) if kind == GREY else struct.pack('>f', value).hex()


def shown_row(kind, row):
    return '; out' + ''.join(' ' + shown(kind, value) for value in row)


def shown_state(state):
    return '; %s, sample %d, width %d, rows %d, step %d' % (ENDINGS[state.ending], state.sample, state.width, state.rows, state.step)


def shown_plan(plan):
    return '; plan of %d:' % plan.count + ''.join(' %d' % number for stage in plan.stages for number in stage)


class Script:
    """Commands, and the line that each has to give. What the memory holds is told by `stages`; `home` is the state that it belongs to, and row 0 of
    `stages` is row `shift` of the run. A call that is taken on another state is none that the definitions tell of, and is not made here."""

    def __init__(self):
        self.commands, self.lines = [], []
        self.state, self.home, self.stages, self.shift = NO_STATE, None, None, 0
        self.lent, self.broken = ALL_LENT, {}
        self.is_noting, self.noted = False, set()
        self.out = {GREY: [FRESH] * 1024, FLOAT: [float(FRESH)] * 1024}

    def judged(self, call, rules):
        """The number of the first rule that is broken. Where it is asked for, that number is noted with the next that is broken too, and its place."""
        if self.is_noting:
            places = [at for at, (_, is_broken) in enumerate(rules) if is_broken()]
            self.noted.update((call, rules[first][0], rules[second][0], first) for first, second in zip(places[:1], places[1:2]))
        return first_of(rules)

    def give(self, given, line):
        self.commands.append(given)
        self.lines.append(line)

    # ---- starts and stops

    def start(self, ending, plan, sample, width, rows=0, cells=4096, is_record=False):
        """The record's kind is an enum, so any number but 0 is a dilation there."""
        form = START + 2 * (ending == OPEN) + is_record
        if is_record:
            plan = Plan(plan.count, tuple(stage._replace(kind=min(1, stage.kind)) for stage in plan.stages))
        number = self.judged('start', start_rules(ending, plan, sample, width, rows, cells, self.lent))
        self.state = NO_STATE
        if number == 0:
            self.give(command(EDGE, numbers=(cells_needed(plan, width), records_needed(plan, width))), 'edge')
            self.state = State(plan_of(used(plan)), sample, width, ending, 0 if ending == OPEN else rows, 0)
            self.home, self.stages, self.shift = self.state, Stages(plan), 0
        self.give(command(form, sample, numbers=(width, rows, cells), follows=plan_bytes(plan)),
                  'start: %d%s; kept' % (number, shown_state(self.state)))
        return number

    def stop(self):
        number = self.judged('stop', stop_rules(self.state))
        if number == 0:
            self.check_home()
            self.move(self.state._replace(ending=STOPPED, rows=self.state.step))
            self.stages.is_over = True
        self.give(command(STOP), 'stop: %d%s; kept' % (number, shown_state(self.state)))
        return number

    # ---- steps

    def check_home(self):
        assert self.state == self.home and not self.broken, 'a call is taken on memory that is not the state\'s'

    def move(self, state):
        self.state = self.home = state

    def stepped(self, kind, number, column, out):
        """What a step that got this number tells; where it is taken, the stages know its row."""
        if number:
            return 'refused %d at %d' % (number, column)
        self.check_home()
        t = self.state.step - self.shift
        cost, due = self.stages.cost(t), self.stages.due(t)
        self.move(self.state._replace(step=self.state.step + 1))
        if due is None:
            return 'not yet, comparisons %d' % cost
        self.out[kind][:out] = due[0]
        return 'row %d, comparisons %d' % (due[1] + self.shift, cost)

    def told(self, kind, what, answer, out):
        return '%s %s: %s%s%s; kept' % (WORDS[kind], what, answer, shown_row(kind, self.out[kind][:out]), shown_state(self.state))

    def note_end(self):
        """Whether all rows of a fixed run have been read."""
        if self.state.ending == FIXED and len(self.stages.rows) + self.shift == self.state.rows:
            self.stages.is_over = True

    def row(self, row, kind=None, out=None):
        kind = self.state.sample if kind is None else kind
        out = self.state.width if out is None else out
        number = self.judged('row', row_rules(kind, self.state, self.lent, self.broken, row, out))
        if number == 0:
            # adding 0.0 reads a negative zero as positive zero
            self.stages.rows.append([value + 0.0 for value in row] if kind == FLOAT else list(row))
            self.note_end()
        answer = self.stepped(kind, number, bad_column(row) if number == 8 else 0, out)
        self.give(command(GROUP[kind] + ROW, numbers=(len(row), out), follows=row_bytes(kind, row)), self.told(kind, 'row', answer, out))
        return number

    def drain(self, kind=None, out=None):
        kind = self.state.sample if kind is None else kind
        out = self.state.width if out is None else out
        number = self.judged('drain', drain_rules(kind, self.state, self.lent, self.broken, out))
        answer = self.stepped(kind, number, 0, out)
        self.give(command(GROUP[kind] + DRAIN, numbers=(0, out)), self.told(kind, 'drain', answer, out))
        return number

    # ---- queues

    def queue(self, stage, column, kind=None, place=0, count=64):
        """The places of a queue from one on, at most so many, and the number of the first that is not there."""
        kind = self.state.sample if kind is None else kind
        number, entries = first_of(place_rules(kind, self.state, self.lent, self.broken, stage, column)), []
        if number == 0:
            self.check_home()
            entries = self.stages.queue(stage, column, self.state.step - self.shift)[place:]
        told = [' %s@%d' % (shown(kind, value), q + self.shift) for value, q in entries] + [' -%d' % (number or 11)]
        self.give(command(GROUP[kind] + QUEUE, count, numbers=(stage, column, place)),
                  '%s queue:%s; kept' % (WORDS[kind], ''.join(told[:count])))

    def queues(self, columns=None):
        for stage in range(self.state.plan.count):
            for column in range(self.state.width) if columns is None else columns:
                self.queue(stage, column)

    # ---- what is set from outside

    def set_state(self, **fields):
        self.state = self.state._replace(**fields)
        state = self.state
        self.give(command(SET_STATE, state.sample, state.ending, (state.width, state.rows, state.step)), 'state%s; kept' % shown_state(state))

    def set_plan(self, plan):
        self.state = self.state._replace(plan=plan)
        self.give(command(SET_PLAN, follows=plan_bytes(plan)), self.told_state())

    def set_back(self):
        """The state that the memory belongs to."""
        if self.state.plan != self.home.plan:
            self.set_plan(self.home.plan)
        if self.state != self.home:
            self.set_state(**self.home._asdict())

    def forward(self, step):
        """The state of a run that has read as many rows more: a multiple of 128, so that the cells are what such a run leaves, whatever its first
        rows were. No window of a row that is still to come, nor of what is queued, reaches the rows that were not read."""
        more, t = step - self.state.step, self.state.step - self.shift
        assert more % 128 == 0 and t >= sum(map(window, self.stages.plan)) + ahead(self.stages.plan)
        self.shift += more
        self.set_state(step=step)
        self.move(self.state)
        self.note_end()

    def told_state(self):
        return 'state%s%s; kept' % (shown_state(self.state), shown_plan(self.state.plan))

    def tell(self):
        self.give(command(TELL), self.told_state())

    def lend(self, *lent):
        self.lent = Lent(*lent)
        self.give(command(LEND, numbers=lent), 'lend; kept')

    def spoil(self, at, start, length):
        """Sets a record. One at a time: it is set back by mend."""
        assert not self.broken
        self.broken = {at: (start, length)}
        self.give(command(RECORD, start, length, (at,)), 'record')

    def mend(self):
        (at, _), = self.broken.items()
        self.broken = {}
        self.give(command(RECORD_BACK, numbers=(at,)), 'record')

    def title(self, words):
        self.give(command(TITLE, follows=words.encode()), words)
