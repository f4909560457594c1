"""Runs of pictures row by row, open and fixed, by the definitions of documents 01 and 02: rows, queues, comparisons and numbers.

A row after a stage is the smallest or largest value over a cut rectangle, across and then down. A queue is what document 01's sentence says it
holds, looked up in the rows that the stage has read. No ring, no remainder, no queue that is carried from step to step.
"""
import math
from collections import namedtuple

from definition import DILATION, EROSION, FLOAT, GREY, Stage, rectangle

FIXED, OPEN, STOPPED = range(3)
# The most that document 02 lets be read of an open run, which is also one more than the last row number.
LAST = 2 ** 32

Plan = namedtuple('Plan', 'count stages')
State = namedtuple('State', 'plan sample width ending rows step')
# How many of each are lent.
Lent = namedtuple('Lent', 'values positions starts lengths')

UNUSED = Stage(EROSION, 0, 0, 0, 0)
NO_STATE = State(Plan(0, (UNUSED,) * 16), GREY, 0, FIXED, 0, 0)


def plan_of(stages):
    """The record of these stages, with unused places behind them."""
    return Plan(len(stages), tuple(stages) + (UNUSED,) * (16 - len(stages)))


def used(plan):
    return plan.stages[:plan.count]


def window(stage):
    """The places of a column's queue, which is also how many rows the stage's window has."""
    return stage.up + stage.down + 1


def below(stage):
    """F down."""
    return rectangle(stage)[3]


def ahead(stages):
    """D, or the part of it that is due to some of the stages."""
    return sum(map(below, stages))


def cells_needed(plan, width):
    return sum(width * window(stage) for stage in used(plan))


def records_needed(plan, width):
    return plan.count * width


# ---- lines

def best_of(stage):
    return min if stage.kind == EROSION else max


def passes(kind, new, old):
    """Whether the new value equals or passes the old one."""
    return new <= old if kind == EROSION else new >= old


def queue(kind, size, value, last_read, t):
    """After step t: exactly the positions q with q read, q >= t - L + 1, and a value greater than every later value read (for erosion,
    smaller), oldest first. The value of a position is asked of `value`."""
    near = range(max(0, t - size + 1), last_read + 1)
    values = [value(q) for q in near]
    return [(old, q) for at, (old, q) in enumerate(zip(values, near)) if not any(passes(kind, new, old) for new in values[at + 1:])]


def comparisons(kind, size, value, t):
    """Of the step that reads position t: the queued values before it that the new one equals or passes, and 1 if some queued value stays
    unpassed."""
    before = [old for old, _ in queue(kind, size, value, t - 1, t - 1)]
    passed = [passes(kind, value(t), old) for old in before]
    return sum(passed) + (not all(passed))


# ---- the rows that the stages of a plan make

class Stages:
    """What the stages make of the rows read so far. A row is made once all that it depends on is read, or is known not to come."""

    def __init__(self, plan):
        self.plan = used(plan)
        self.rows = []
        self.is_over = False
        self.made = {}

    def after(self, stage, y):
        """Row y of the picture that goes into this stage: that of the rows read, or the one that the stages before make."""
        if stage == 0:
            return self.rows[y]
        if (stage, y) not in self.made:
            of = self.plan[stage - 1]
            _, _, up, down = rectangle(of)
            last = y + down
            if last >= len(self.rows):
                assert self.is_over, 'row %d is not due yet' % y
                last = len(self.rows) - 1
            near = [self.across(stage - 1, q) for q in range(max(0, y - up), last + 1)]
            self.made[stage, y] = [best_of(of)(column) for column in zip(*near)]
        return self.made[stage, y]

    def across(self, stage, y):
        """The across-results of a stage for row y of its picture."""
        if ('across', stage, y) not in self.made:
            of, row = self.plan[stage], self.after(stage, y)
            left, right, _, _ = rectangle(of)
            self.made['across', stage, y] = [best_of(of)(row[max(0, x - left):x + right + 1]) for x in range(len(row))]
        return self.made['across', stage, y]

    def own_step(self, stage, t):
        """A stage's own step is the plan's step less the F down of the stages before it."""
        return t - ahead(self.plan[:stage])

    def row_cost(self, stage, y):
        """The comparisons of the line that row y of the stage's picture is."""
        of, row = self.plan[stage], self.after(stage, y)
        size = of.left + of.right + 1
        return sum(comparisons(of.kind, size, row.__getitem__, x) for x in range(len(row)))

    def cost(self, t):
        """The comparisons of the plan's step t: over the stages that read a row in it, of that row's line and of the columns' steps."""
        total = 0
        for stage, of in enumerate(self.plan):
            own = self.own_step(stage, t)
            if 0 <= own < len(self.rows):
                total += self.row_cost(stage, own)
                for x in range(len(self.rows[0])):
                    total += comparisons(of.kind, window(of), lambda q: self.across(stage, q)[x], own)
        return total

    def due(self, t):
        """The row that comes out at the plan's step t, and its number, or None."""
        y = t - ahead(self.plan)
        return None if y < 0 else (self.after(len(self.plan), y), y)

    def queue(self, stage, column, steps):
        """A column's queue after so many of the plan's steps. Before the stage's step 0 it is empty, after the stage's last it stays."""
        of, own = self.plan[stage], self.own_step(stage, steps) - 1
        if own < 0:
            return []
        if self.is_over:
            own = min(own, len(self.rows) - 1 + below(of))
        last_read = min(own, len(self.rows) - 1)
        return queue(of.kind, window(of), lambda q: self.across(stage, q)[column], last_read, own)


# ---- numbers: a call's rules in their order, each with its number and whether it is broken, asked only where none before it is

def first_of(rules):
    """The number of the first rule that is broken, or 0."""
    return next((number for number, is_broken in rules if is_broken()), 0)


def stage_rules(stages):
    """2, 3, stage by stage."""
    for stage in stages:
        yield 2, lambda stage=stage: stage.kind not in (EROSION, DILATION)
        yield 3, lambda stage=stage: max(stage[1:]) > 31


def is_size_off(ending, width, rows):
    """4: in an open run it looks only at the width; of a stopped one, 12 wants rows read of 1 to 4,294,967,296."""
    most = {FIXED: 65535, STOPPED: LAST}
    return not 1 <= width <= 4096 or ending != OPEN and not 1 <= rows <= most[ending]


def own_rules(plan, sample, ending, width, rows):
    """Rules 1 to 5, in the order of a start."""
    return [(1, lambda: not 1 <= plan.count <= 16), *stage_rules(used(plan)), (5, lambda: sample not in (GREY, FLOAT)),
            (4, lambda: is_size_off(ending, width, rows))]


def is_memory_short(plan, width, cells, records):
    return cells < cells_needed(plan, width) or records < records_needed(plan, width)


def start_rules(ending, plan, sample, width, rows, cells, lent):
    """1; then stage by stage 2, 3; then 5, 4, 6."""
    return own_rules(plan, sample, ending, width, rows) + [(6, lambda: is_memory_short(plan, width, cells, min(lent.starts, lent.lengths)))]


def is_step_off(state):
    last = state.rows + ahead(used(state.plan))
    low, high = {FIXED: (0, last), OPEN: (0, LAST), STOPPED: (state.rows, last)}[state.ending]
    return not low <= state.step <= high


def is_state_off(state):
    """12 for the state's own fields."""
    return first_of(own_rules(state.plan, state.sample, state.ending, state.width, state.rows)) != 0 or is_step_off(state)


def is_record_off(state, broken):
    """12 for the column records: `broken` has those that were set, by their places; all others are as a run leaves them."""
    windows = [window(stage) for stage in used(state.plan) for _ in range(state.width)]
    return any(at < len(windows) and (start >= windows[at] or length > windows[at]) for at, (start, length) in broken.items())


def shared_rules(kind, state, lent, broken):
    """12, 5, 6, 12."""
    cells, records = min(lent.values, lent.positions), min(lent.starts, lent.lengths)
    return [(12, lambda: is_state_off(state)), (5, lambda: state.sample != kind), (6, lambda: is_memory_short(state.plan, state.width, cells, records)),
            (12, lambda: is_record_off(state, broken))]


def row_rules(kind, state, lent, broken, row, out):
    """12, 5, 6, 12, 9, 28, 7, 8."""
    is_all_read = {FIXED: state.step >= state.rows, OPEN: False, STOPPED: True}[state.ending]
    return shared_rules(kind, state, lent, broken) + [
        (9, lambda: is_all_read), (28, lambda: state.ending == OPEN and state.step >= LAST),
        (7, lambda: len(row) != state.width or out != state.width), (8, lambda: not all(map(math.isfinite, row)))]


def bad_column(row):
    """The column that 8 names."""
    return next(column for column, value in enumerate(row) if not math.isfinite(value))


def drain_rules(kind, state, lent, broken, out):
    """12, 5, 6, 12, 10, 7."""
    return shared_rules(kind, state, lent, broken) + [
        (10, lambda: state.ending == OPEN or not state.rows <= state.step < state.rows + ahead(used(state.plan))), (7, lambda: out != state.width)]


def stop_rules(state):
    """12 for its own fields, then 9 if said before or in a fixed run, then 4 with no row read."""
    return [(12, lambda: is_state_off(state)), (9, lambda: state.ending != OPEN), (4, lambda: state.step == 0)]


def place_rules(kind, state, lent, broken, stage, column):
    """As a step up to the column records, then 11; that of the queue's place is the caller's."""
    return shared_rules(kind, state, lent, broken) + [(11, lambda: stage >= state.plan.count or column >= state.width)]
