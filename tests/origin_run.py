"""A run that is held to the definitions after every call: its answer, its state, its rows, and all of the memory that it was lent."""
from collections import namedtuple

from belt_script import WORDS
from definition import FLOAT, GREY
from origin_calls import Slices, bits
from origin_reading import asked_start_rules, columns_of, origins, step_rules
from runs import (
    FIXED, NO_STATE, OPEN, STOPPED, Lent, Plan, Stages, State, ahead, bad_column, cells_needed, first_of, plan_of, records_needed, start_rules, stop_rules,
    used, window)

# Memory that is lent, as lists of numbers.
Memory = namedtuple('Memory', 'values positions columns starts lengths')
CELLS = Memory._fields[:3]


class Difference(Exception):
    """What a call did, and what it should have done."""


def same(what, due, got):
    """Tells a difference, of long lists from the first place on where they differ."""
    if due != got:
        if isinstance(due, list) and isinstance(got, list):
            at = next((at for at, pair in enumerate(zip(due, got)) if pair[0] != pair[1]), min(len(due), len(got)))
            what, due, got = '%s, from place %d on' % (what, at), due[at:], got[at:]
        raise Difference('%s:\n  expected %s\n  got      %s' % (what, str(due)[:400], str(got)[:400]))


def any_values(rng, kind, count):
    """Contents that no call has made: any bytes, and finite floats."""
    if kind == GREY:
        return list(rng.randbytes(count))
    return [rng.getrandbits(32) & 0xff7fffff for _ in range(count)]


def any_memory(rng, kind, lengths):
    """Memory of these lengths, holding anything."""
    values, positions, columns, starts, records = lengths
    return Memory(any_values(rng, kind, values), list(rng.randbytes(positions)), [rng.getrandbits(16) for _ in range(columns)],
                  list(rng.randbytes(starts)), list(rng.randbytes(records)))


def past(plan, width, memory):
    """What is lent past the need."""
    cells, records = cells_needed(plan, width), records_needed(plan, width)
    return Memory(*(part[cells if name in CELLS else records:] for name, part in zip(Memory._fields, memory)))


def queued(plan, width, memory):
    """The cells of all queues: stage by stage, column by column, the oldest entry's first. A queue goes on from its start, and at the end of its cells
    from their first on."""
    first, at = 0, 0
    for stage in used(plan):
        size = window(stage)
        for _ in range(width):
            start, count = memory.starts[at], memory.lengths[at]
            if start >= size or count > size:
                raise Difference('record %d is %d, %d' % (at, start, count))
            yield [first + (start + k) % size for k in range(count)]
            first, at = first + size, at + 1


def entries(plan, width, memory):
    """The entries of all queues, each as its value and what is kept of its row."""
    for cells in queued(plan, width, memory):
        yield [(memory.values[cell], memory.positions[cell]) for cell in cells]


def place(stage, width, row):
    """Where the columns of a row are kept: there are as many rows of them as a column has places, and the row that comes as many later takes its place."""
    first = row % window(stage) * width
    return slice(first, first + width)


class Run:
    """A run on memory of its own. What the memory holds is told by `stages`, and row 0 of these is row `shift` of the run. `asked` has the rows whose step
    asked for origins: of the others no columns are kept."""

    def __init__(self, program, rng, memory):
        self.program, self.rng, self.memory = program, rng, memory
        self.state, self.stages, self.shift, self.asked = NO_STATE, None, 0, set()
        self.told, self.noted = None, None

    def judged(self, call, rules):
        """The number of the first rule that is broken. Where it is asked for, that number is noted with the next that is broken too, and its place."""
        if self.noted is not None:
            places = [at for at, (_, is_broken) in enumerate(rules) if is_broken()]
            self.noted.update((call, rules[first][0], rules[second][0], first) for first, second in zip(places[:1], places[1:2]))
        return first_of(rules)

    # ---- starts and stops

    def start(self, asks, ending, plan, sample, width, rows=0, cells=4096, is_record=False):
        """The record's kind is an enum, so any number but 0 is a dilation there."""
        if is_record:
            plan = Plan(plan.count, tuple(stage._replace(kind=min(1, stage.kind)) for stage in plan.stages))
        memory, lent = self.memory, Lent(0, 0, len(self.memory.starts), len(self.memory.lengths))
        rules = asked_start_rules if asks else start_rules
        number = self.judged('start', rules(ending, plan, sample, width, rows, cells, lent))
        given = State(plan, sample, width, ending, rows, 0)
        told = self.program.start(asks, is_record, given, cells, Slices([], [], [], [], [], [], [], memory.starts, memory.lengths))
        self.state = NO_STATE
        if number == 0:
            self.state = State(plan_of(used(plan)), sample, width, ending, 0 if ending == OPEN else rows, 0)
            self.stages, self.shift, self.asked = Stages(plan), 0, set()
            cleared = [0] * records_needed(plan, width)
            self.memory = memory._replace(starts=cleared + memory.starts[len(cleared):], lengths=cleared + memory.lengths[len(cleared):])
        self.check(told, 'start', str(number), self.state, {'starts': self.memory.starts, 'lengths': self.memory.lengths})
        return number

    def stop(self, state=None):
        given = self.state if state is None else state
        number = self.judged('stop', stop_rules(given))
        told, after = self.program.stop(given), given
        if number == 0:
            assert given == self.state
            after = self.state = given._replace(ending=STOPPED, rows=given.step)
            self.stages.is_over = True
        self.check(told, 'stop', str(number), after, {})
        return number

    def check(self, told, call, answer, state, slices):
        self.told = told
        self.program.checked += 1
        same('call', call, told.call)
        same('answer of %s' % call, answer, told.answer)
        same('state after %s' % call, state, told.state)
        for name, part in slices.items():
            same('%s after %s, %s' % (name, call, answer), part, told.slices[name])

    # ---- steps

    def step(self, call, row=(), kind=None, state=None, memory=None, outs=None):
        """A step on the run's own state and memory, or on others, where it has to be refused. The output rows hold anything before it."""
        given, memory = state or self.state, memory or self.memory
        kind = given.sample & 1 if kind is None else kind
        asks, is_drain = call.startswith('origin'), call.endswith('drain')
        slices = self.slices(kind, row, outs or (given.width,) * 3, memory)
        number = self.judged(call, step_rules(asks, is_drain, kind, given, slices, row))
        if number:
            told = self.program.step(call, kind, given, slices)
            answer = 'refused %d at %d' % (number, bad_column(row) if number == 8 else 0)
            self.check(told, '%s %s' % (WORDS[kind], call), answer, given, self.kept(slices))
        else:
            assert given == self.state and memory == self.memory, 'a call is taken that is not the run\'s'
            self.take(call, row, kind, slices, is_drain)
        return number

    def slices(self, kind, row, outs, memory):
        rng, (out, rows, columns) = self.rng, outs
        return Slices([bits(value) for value in row] if kind == FLOAT else list(row), any_values(rng, kind, out), [rng.getrandbits(64) for _ in range(rows)],
                      [rng.getrandbits(16) for _ in range(columns)], *memory)

    @staticmethod
    def kept(slices):
        return {name: part for name, part in slices._asdict().items() if name != 'row'}

    def take(self, call, row, kind, slices, is_drain):
        """A step that has to be taken."""
        if not is_drain:
            # adding 0.0 reads a negative zero as positive zero
            self.stages.rows.append([value + 0.0 for value in row] if kind == FLOAT else list(row))
            if self.state.ending == FIXED and len(self.stages.rows) + self.shift == self.state.rows:
                self.stages.is_over = True
        told = self.program.step(call, kind, self.state, slices)
        t = self.state.step - self.shift
        cost, due = self.stages.cost(t), self.stages.due(t)
        answer = 'not yet, comparisons %d' % cost if due is None else 'row %d, comparisons %d' % (due[1] + self.shift, cost)
        asks, width = call.startswith('origin'), self.state.width
        rows = self.rows_due(kind, slices, due, asks)
        if asks and not is_drain:
            self.asked.add(t)
        self.state = self.state._replace(step=self.state.step + 1)
        self.check(told, '%s %s' % (WORDS[kind], call), answer, self.state, rows)
        before, after = self.memory, Memory(*(told.slices[name] for name in Memory._fields))
        same('lengths of what is lent', [len(part) for part in before], [len(part) for part in after])
        same('memory past the need', past(self.state.plan, width, before), past(self.state.plan, width, after))
        self.memory = after
        self.check_queues(kind)
        self.check_columns(before.columns, t if asks and not is_drain else None)

    def near(self):
        """The rows that are read and still under the window, whose columns are to be kept."""
        steps = self.state.step - self.shift
        return range(max(0, steps - window(self.state.plan.stages[0])), min(steps, len(self.stages.rows)))

    def check_columns(self, before, t):
        """Row t's columns come into their place, and into no other; a drain and a step that does not ask write none. So the columns are kept of each row
        near, if its step asked."""
        due, stage, width, rows = list(before), self.state.plan.stages[0], self.state.width, self.stages.rows
        if t is not None:
            due[place(stage, width, t + self.shift)] = columns_of(stage, rows[t])
        same('columns', due, self.memory.columns)
        for q in self.asked.intersection(self.near()):
            same('columns of row %d' % q, columns_of(stage, rows[q]), self.memory.columns[place(stage, width, q + self.shift)])

    def rows_due(self, kind, slices, due, asks):
        """The output rows after a step, before which the state is: as they stood where none is due. The origins' rows are told in any case, and their
        columns where those of all rows near are kept."""
        rows = {name: part for name, part in self.kept(slices).items() if name not in Memory._fields}
        if due is None:
            return rows
        pixels, y = due
        rows['out'] = list(map(bits, pixels)) if kind == FLOAT else pixels
        if asks:
            told = origins(self.state.plan.stages[0], self.stages.rows, y)
            rows.update(origin_rows=[q + self.shift for q, _ in told], origin_columns=[column for _, column in told])
            if not self.asked.issuperset(self.near()):
                del rows['origin_columns']
        return rows

    def check_queues(self, kind):
        """All queues: values and rows of their entries."""
        width, plan = self.state.width, self.state.plan
        got = entries(plan, width, self.memory)
        for stage in range(plan.count):
            for x in range(width):
                queue = self.stages.queue(stage, x, self.state.step - self.shift)
                due = [(bits(value) if kind == FLOAT else value, (q + self.shift) % 128) for value, q in queue]
                same('queue of stage %d, column %d' % (stage, x), due, next(got))

    def forward(self, step):
        """The state of a run that has read as many rows more: a multiple of 128, so that the cells are what such a run leaves, whatever its first rows
        were. No window of a row that is still to come, nor of what is queued, reaches the rows that were not read."""
        more, t = step - self.state.step, self.state.step - self.shift
        assert more % 128 == 0 and t >= sum(map(window, self.stages.plan)) + ahead(self.stages.plan)
        self.move_columns(more)
        self.shift += more
        self.state = self.state._replace(step=step)
        if self.state.ending == FIXED and len(self.stages.rows) + self.shift == self.state.rows:
            self.stages.is_over = True

    def move_columns(self, more):
        """The places of all rows' columns are those of rows that come so many later."""
        (stage,), width, old = self.stages.plan, self.state.width, self.memory.columns
        new = list(old)
        for row in range(window(stage)):
            new[place(stage, width, row + more)] = old[place(stage, width, row)]
        self.memory = self.memory._replace(columns=new)


# ---- whole runs

def drained(run, call):
    """All drains, and one that is refused."""
    while run.step(call) == 0:
        pass


def beside(run, plain):
    """The step of a run that asks is that of one which does not: its answer, its state, and the values, positions and records of its memory, byte for
    byte. Both began on the same memory."""
    run.program.checked += 1
    same('answer of a plain run', plain.told.answer, run.told.answer)
    same('state of a plain run', plain.told.state, run.told.state)
    for name in 'values', 'positions', 'starts', 'lengths':
        same('%s of a plain run' % name, getattr(plain.memory, name), getattr(run.memory, name))
    if run.told.answer.startswith('row'):
        same('row of a plain run', plain.told.slices['out'], run.told.slices['out'])


def came(run):
    """What a step told that does not depend on how the run ends."""
    names = ('out', 'origin_rows', 'origin_columns') if run.told.answer.startswith('row') else ()
    return run.told.answer, [run.told.slices[name] for name in names], run.memory


def whole_run(run, ending, stage, sample, rows, is_record=False, cells=4096, between=lambda run: None, is_asked_first=True):
    """A run over these rows that asks for origins, with a plain one of the same memory beside it, and `between` before each step. What its steps told.
    The start that asks gives the state that the other one gives, so the run may begin with either."""
    plain = Run(run.program, run.rng, run.memory)
    for each, asks in (run, is_asked_first), (plain, False):
        assert each.start(asks, ending, plan_of([stage]), sample, len(rows[0]), len(rows), cells, is_record) == 0
    told = []

    def stepped(call, row=()):
        between(run)
        assert run.step('origin ' + call, row) == plain.step(call, row) == 0
        beside(run, plain)
        told.append(came(run))

    for row in rows:
        stepped('row', row)
    if ending == OPEN:
        between(run)
        assert run.stop() == plain.stop() == 0
    for _ in range(ahead([stage])):
        stepped('drain')
    between(run)
    assert run.step('origin drain') == plain.step('drain') == 10
    assert run.step('origin row', rows[0]) == plain.step('row', rows[0]) == 9
    return told
