"""Random runs for the program of crates/origins: pictures with many ties, counted and open, with refused calls of every kind between their steps; mixed
runs, runs far on, and memory that no run has left."""
import math
import random

from belt_cases import MOST
from belt_random import any_height, any_rows, extent, other_plan, other_state, unfit_row
from belt_script import WORDS
from definition import FLOAT, GREY, Stage
from origin_cases import spoiled
from origin_reading import asked_start_rules, columns_of, step_rules
from origin_run import Memory, Run, any_memory, drained, entries, past, place, same, whole_run
from runs import (
    FIXED, LAST, OPEN, Lent, State, ahead, bad_column, cells_needed, first_of, is_state_off, plan_of, records_needed, start_rules, stop_rules, window)

# ---- pictures


def any_stage(rng):
    """Any extents; most have all four apart."""
    few, many = rng.sample(range(6), 4), rng.sample(range(32), 4)
    return Stage(rng.randrange(2), *rng.choice((few, few, many, [extent(rng) for _ in range(4)])))


def any_shape(rng):
    """A stage, a width and a height. The definition looks at every pixel of every window, so there are few pixels where windows are large."""
    stage = any_stage(rng)
    width = min(4096 // window(stage), rng.choice((1, 2, 3, rng.randint(1, 12), rng.randint(1, 40))))
    pixels = min(width, stage.left + stage.right + 1) * window(stage) * width
    return stage, width, min(any_height(rng), max(1, 150000 // pixels))


def tied_rows(rng, sample, width, height):
    """Rows of few values, so that most windows have several that are equal; of floats both zeros are among them."""
    values = rng.sample(range(256), rng.choice((1, 2, 2, 3))) if sample == GREY else rng.choice(((-0.0, 0.0), (-0.0, 0.0, 1.5), (-2.5, -0.0, 0.0, 1e-45)))
    return [[rng.choice(values) for _ in range(width)] for _ in range(height)]


def picture(rng, sample, width, height):
    return rng.choice((tied_rows, any_rows))(rng, sample, width, height)


def any_room(rng, stage, width):
    """What the stage needs, or more; all five lengths may differ."""
    cells, records = cells_needed(plan_of([stage]), width), records_needed(plan_of([stage]), width)
    return [rng.choice((least, least, min(4096, least + rng.randint(1, 40)))) for least in (cells, cells, cells, records, records)]


# ---- calls that are refused

def other_call(rng, state, memory):
    """A call's state, memory, kind, row and output rows, of which one or two are changed to what a rule is about."""
    kind, width = state.sample, state.width
    row, outs = any_rows(rng, kind, width, 1)[0], [width] * 3
    size = window(state.plan.stages[0])
    changes = rng.sample(('state', 'plan', 'record', 'lend', 'kind', 'row', 'outs'), rng.choice((1, 1, 2)))
    if 'state' in changes:
        state = state._replace(**other_state(rng, state))
    if 'plan' in changes:
        state = state._replace(plan=other_plan(rng, state.plan))
    if 'record' in changes:
        memory = spoiled(memory, rng.randrange(width), rng.choice((0, size - 1, size, 255)), rng.choice((0, size, size + 1, 255)))
    if 'lend' in changes:
        cut = rng.randrange(5)
        memory = Memory(*(part[:rng.choice((0, 1, len(part) - 1))] if at == cut else part for at, part in enumerate(memory)))
    if 'kind' in changes:
        kind, memory = 1 - kind, memory._replace(values=[value & 255 for value in memory.values])
    if 'kind' in changes or 'row' in changes and rng.random() < 0.5:
        row, outs[0] = unfit_row(rng, kind, width)
    elif 'row' in changes and kind == FLOAT:
        row[rng.randrange(width)] = rng.choice((math.nan, math.inf, -math.inf))
    if 'outs' in changes:
        outs[rng.randrange(3)] = rng.choice((0, width - 1, width + 1, 40))
    return kind, state, memory, row, outs


def refused_call(rng, run):
    """One call of any kind, where it is refused; what would be taken is left out."""
    kind, state, memory, row, outs = other_call(rng, run.state, run.memory)
    call = rng.choice(('origin row', 'origin row', 'origin drain', 'row', 'drain', 'stop', 'start'))
    if call == 'stop':
        if first_of(stop_rules(state)):
            run.stop(state)
    elif call == 'start':
        refused_start(rng, run, state)
    else:
        given = () if call.endswith('drain') else row
        if first_of(rules_of(call, kind, state, run.slices(kind, given, outs, memory), given)):
            run.step(call, given, kind, state, memory, outs)


def rules_of(call, kind, state, slices, row):
    return step_rules(call.startswith('origin'), call.endswith('drain'), kind, state, slices, row)


def refused_start(rng, run, state):
    """A start in between, where it is refused: its state is all zeros, and the records stay."""
    asks, ending, cells = rng.random() < 0.7, rng.choice((FIXED, OPEN)), rng.choice((0, 100, MOST))
    start = ending, state.plan, state.sample, state.width, state.rows, cells
    lent = Lent(0, 0, len(run.memory.starts), len(run.memory.lengths))
    if first_of((asked_start_rules if asks else start_rules)(*start, lent)):
        other = Run(run.program, rng, run.memory)
        other.start(asks, *start, is_record=rng.random() < 0.5)


def disturbing(rng, often):
    def between(run):
        while rng.random() < often:
            refused_call(rng, run)
    return between


# ---- runs

def twice(rng, program, stage, sample, rows):
    """A picture counted and open, on memory of their own: what came has to be the same."""
    told = []
    for ending in rng.sample((FIXED, OPEN), 2):
        memory = any_memory(rng, sample, any_room(rng, stage, len(rows[0])))
        cells = rng.choice((cells_needed(plan_of([stage]), len(rows[0])), 4096, MOST))
        between = disturbing(rng, rng.choice((0, 0.1, 0.5)))
        steps = whole_run(Run(program, rng, memory), ending, stage, sample, rows, rng.random() < 0.5, cells, between, rng.random() < 0.8)
        told.append([step[:2] for step in steps])
    for one, other in zip(*told, strict=True):
        program.checked += 1
        same('a step of an open run', one, other)


def mixed_run(rng, program, stage, sample, rows):
    """Steps that ask and steps that do not, in any order."""
    run, often = Run(program, rng, any_memory(rng, sample, any_room(rng, stage, len(rows[0])))), rng.random()
    ending = rng.choice((FIXED, OPEN))
    between = disturbing(rng, 0.1)
    run.start(rng.random() < 0.5, ending, plan_of([stage]), sample, len(rows[0]), len(rows))
    for row in rows:
        between(run)
        assert run.step(('row', 'origin row')[rng.random() < often], row) == 0
    run.stop()
    while run.state.step < len(rows) + ahead([stage]):
        between(run)
        assert run.step(('drain', 'origin drain')[rng.random() < often]) == 0


def far_run(rng, program, stage, sample, width):
    """A run that is set forward by a multiple of 128 rows, some up to the last row number, and goes on there."""
    ending = rng.choice((FIXED, OPEN, OPEN))
    first, more = window(stage) + ahead([stage]), rng.randrange(12)
    last = LAST if ending == OPEN else 65535
    most = (last - first - more) // 128
    skipped = 128 * rng.choice((most, rng.randint(0, most)))
    rows = picture(rng, sample, width, first + more)
    run = Run(program, rng, any_memory(rng, sample, any_room(rng, stage, width)))
    run.start(True, ending, plan_of([stage]), sample, width, first + more + skipped)
    for row in rows[:first]:
        run.step('origin row', row)
    run.forward(first + skipped)
    for row in rows[first:]:
        assert run.step('origin row', row) == 0
    if ending == FIXED or run.state.step == LAST:
        assert run.step('origin row', rows[0]) == (28 if ending == OPEN else 9)
    run.stop()
    drained(run, 'origin drain')


def any_state(rng, stage, sample, width):
    """A state whose own fields are in order, at any step."""
    while True:
        state = State(plan_of([stage]), sample, width, FIXED, 9, rng.randrange(10))
        state = state._replace(**{name: value for name, value in other_state(rng, state).items() if name in ('ending', 'rows', 'step')})
        if not is_state_off(state):
            return state


def any_contents(rng, program, stage, sample, width):
    """Steps on memory that no run of these calls has left: only the records are in order. They are safe, have their number, and write within the need; of
    the columns they write the row's own place."""
    state, memory = any_state(rng, stage, sample, width), any_memory(rng, sample, any_room(rng, stage, width))
    size, look_ahead, run = window(stage), ahead([stage]), Run(program, rng, memory)
    for at in range(width):
        memory = spoiled(memory, at, rng.randrange(size), rng.randint(0, size))
    for _ in range(rng.randint(1, 6)):
        call, row = rng.choice((('origin row', any_rows(rng, sample, width, 1)[0]), ('origin drain', ())))
        slices = run.slices(sample, row, (width,) * 3, memory)
        number, after, due = first_of(rules_of(call, sample, state, slices, row)), state, {}
        told = program.step(call, sample, state, slices)
        if number:
            due = run.kept(slices)
            answer = 'refused %d at %d' % (number, bad_column(row) if number == 8 else 0)
        else:
            after = state._replace(step=state.step + 1)
            if state.step < look_ahead:
                due = {name: getattr(slices, name) for name in ('out', 'origin_rows', 'origin_columns')}
            counted = told.answer.rpartition(', comparisons ')[2]
            answer = ('not yet' if state.step < look_ahead else 'row %d' % (state.step - look_ahead)) + ', comparisons %d' % int(counted)
        run.check(told, '%s %s' % (WORDS[sample], call), answer, after, due)
        left = Memory(*(told.slices[name] for name in Memory._fields))
        same('lengths of all that is lent', [len(part) for part in slices[1:]], [len(told.slices[name]) for name in slices._fields[1:]])
        same('memory past the need', past(state.plan, width, memory), past(state.plan, width, left))
        columns = list(memory.columns)
        if number == 0 and row:
            columns[place(stage, width, state.step)] = columns_of(stage, row)
        same('columns', columns, left.columns)
        list(entries(state.plan, width, left))
        state, memory = after, left


def random_runs(program, seed):
    """The runs of a seed."""
    rng = random.Random(seed)
    program.title('random picture %s' % seed)
    sample = rng.randrange(2)
    stage, width, height = any_shape(rng)
    rows = picture(rng, sample, width, height)
    twice(rng, program, stage, sample, rows)
    if rng.random() < 0.3:
        mixed_run(rng, program, stage, sample, rows)
    if rng.random() < 0.2:
        far_run(rng, program, stage, sample, min(width, 6))
    for _ in range(rng.randrange(4)):
        any_contents(rng, program, any_stage(rng), sample, rng.randint(1, 8))
