"""Scripts for the program of crates/origins: pictures with origins that are known, states and memory to the edge, mixed runs, and the order of numbers."""
import itertools
import math

from belt_cases import GREYS, MOST, RATES, THREE, ZEROS, noise
from belt_script import WORDS
from cases import P
from definition import DILATION, EROSION, FLOAT, GREY, Stage
from origin_calls import ENDINGS
from origin_reading import step_rules
from origin_run import Memory, Run, any_memory, drained, same, whole_run
from runs import FIXED, LAST, OPEN, STOPPED, Plan, ahead, cells_needed, first_of, plan_of, records_needed, stop_rules

ENDED = {number: word for word, number in ENDINGS.items()}


def room(stage, width, more=(2, 3, 4, 1, 5)):
    """The lengths of memory for a stage, each somewhat more than the need, and at most what the program has."""
    plan = plan_of([stage])
    cells, records = cells_needed(plan, width), records_needed(plan, width)
    return [min(4096, least + part) for least, part in zip((cells, cells, cells, records, records), more)]


def floats(rows):
    return [[float(value) for value in row] for row in rows]


# ---- origins that are known

def known(program, rng, name, stage, rows, origins):
    """The picture of both sample kinds, counted and open: the origins of all its pixels, row by row."""
    for sample, ending, is_record in (GREY, FIXED, False), (GREY, OPEN, True), (FLOAT, FIXED, True), (FLOAT, OPEN, False):
        if sample == GREY and any(isinstance(value, float) for row in rows for value in row):
            continue
        program.title('%s, %s, %s' % (name, WORDS[sample], ENDED[ending]))
        run = Run(program, rng, any_memory(rng, sample, room(stage, len(rows[0]))))
        told = whole_run(run, ending, stage, sample, rows if sample == GREY else floats(rows), is_record)
        got = [list(zip(rows, columns)) for _, (_, rows, columns), _ in (step for step in told if step[1])]
        same('origins of %s' % name, origins, got)


def square(kind, extent=1):
    return Stage(kind, extent, extent, extent, extent)


def first(program, rng):
    """Small pictures with their origins: a dot, ties across rows, both zeros, one row, one column."""
    dot = [[0, 0, 0], [0, 9, 0], [0, 0, 0]]
    known(program, rng, 'a dot dilated', square(DILATION), dot, [[(1, 1)] * 3] * 3)
    known(program, rng, 'a dot eroded', square(EROSION), dot, [[(1, 0), (1, 2), (1, 2)], [(2, 1), (2, 2), (2, 2)], [(2, 1), (2, 2), (2, 2)]])
    known(program, rng, 'ties across rows, dilated', square(DILATION), [[5, 9], [9, 5]], [[(1, 0)] * 2] * 2)
    known(program, rng, 'ties across rows, eroded', square(EROSION), [[5, 9], [9, 5]], [[(1, 1)] * 2] * 2)
    for kind in EROSION, DILATION:
        known(program, rng, 'both zeros in a row', square(kind), [[-0.0, 0.0]], [[(0, 1)] * 2])
        known(program, rng, 'both zeros in a row, the negative later', square(kind), [[0.0, -0.0]], [[(0, 1)] * 2])
        known(program, rng, 'both zeros in a column', square(kind), [[0.0], [-0.0]], [[(1, 0)]] * 2)
        known(program, rng, 'three equal pixels', Stage(kind, 1, 1, 0, 0), [[7, 7, 7]], [[(0, 1), (0, 2), (0, 2)]])
        known(program, rng, 'three equal rows', Stage(kind, 0, 0, 1, 1), [[7], [7], [7]], [[(1, 0)], [(2, 0)], [(2, 0)]])
    eroded, dilated = (1, 3, 3, 3, 3, 6, 6, 6), (0, 2, 2, 4, 5, 5, 5, 5)
    for kind, columns in (EROSION, eroded), (DILATION, dilated):
        known(program, rng, 'line P across', Stage(kind, 1, 2, 0, 0), [P], [[(0, column) for column in columns]])
        known(program, rng, 'line P down', Stage(kind, 0, 0, 1, 2), [[value] for value in P], [[(row, 0)] for row in columns])


def pictures(program, rng):
    """The pictures of crates/queues and crates/images, both ways, by each of their stages: what came counted has to be what came open."""
    for rows, sample in (GREYS, GREY), (RATES, FLOAT), (ZEROS, FLOAT):
        for stage in THREE + [Stage(EROSION, 0, 1, 2, 3), Stage(DILATION, 3, 0, 2, 1)]:
            told = []
            for ending, is_record in (FIXED, False), (OPEN, True):
                program.title('a picture, %s, %s' % (WORDS[sample], ENDED[ending]))
                run = Run(program, rng, any_memory(rng, sample, room(stage, 3)))
                told.append([step[:2] for step in whole_run(run, ending, stage, sample, rows, is_record)])
            same('an open run', *told)


def wide(program, rng):
    """One pixel under the largest window; a row of 4,096 pixels, and seven of 300: columns of more than a byte."""
    for kind in EROSION, DILATION:
        known(program, rng, 'one pixel', square(kind, 31), [[5]], [[(0, 0)]])
    stage = Stage(EROSION, 0, 31, 0, 0)
    known(program, rng, '4,096 equal pixels', stage, [[7] * 4096], [[(0, min(4095, x + 31)) for x in range(4096)]])
    stage, rows = Stage(DILATION, 2, 30, 1, 1), [[noise(x, y) // 64 for x in range(300)] for y in range(7)]
    program.title('seven rows of 300 pixels')
    whole_run(Run(program, rng, any_memory(rng, GREY, room(stage, 300))), FIXED, stage, GREY, rows)


def last_numbers(program, rng):
    """Up to the last row number of an open run, and at the end of 65,535 counted rows."""
    for sample, ending, last in (GREY, OPEN, LAST), (FLOAT, OPEN, LAST), (GREY, FIXED, 65535):
        stage = Stage(DILATION, 0, 1, 20, 2)
        program.title('before the last row number, %s, %s' % (WORDS[sample], ENDED[ending]))
        run = Run(program, rng, any_memory(rng, sample, room(stage, 2)))
        run.start(True, ending, plan_of([stage]), sample, 2, last)
        picture = [[noise(x, y) // 16 for x in range(2)] for y in range(128)]
        rows = iter(picture if sample == GREY else floats(picture))
        while run.state.step < 60 or (last - run.state.step) % 128 > 20:
            run.step('origin row', next(rows))
        run.forward(last - (last - run.state.step) % 128)
        while run.state.step < last:
            run.step('origin row', next(rows))
        run.step('origin row', picture[0])
        if ending == OPEN:
            run.stop()
        drained(run, 'origin drain')
        run.step('origin row', picture[0])


# ---- mixed runs: steps that do not ask, in a run of steps that do

def mixed(program, rng):
    """Steps that ask and steps that do not, in one run: the origins' columns are nobody's while a row is near whose step did not ask, and all the rest is
    told. Every third row does not ask, or one row only, and that one is then forgotten."""
    for sample, (ending, plain) in itertools.product((GREY, FLOAT), ((FIXED, range(0, 18, 3)), (OPEN, range(1, 18, 3)), (OPEN, (4,)), (FIXED, (0,)))):
        stage = Stage(DILATION, 1, 0, 3, 2)
        program.title('a mixed run, %s, %s' % (WORDS[sample], ENDED[ending]))
        run = Run(program, rng, any_memory(rng, sample, room(stage, 3)))
        run.start(ending == OPEN, ending, plan_of([stage]), sample, 3, 18)
        for y in range(18):
            row = [noise(x, y) // 32 for x in range(3)]
            run.step('row' if y in plain else 'origin row', row if sample == GREY else floats([row])[0])
        run.stop()
        while run.state.step < 18 + ahead([stage]):
            run.step(('drain', 'origin drain')[run.state.step % 2])


# ---- to the edge of what is lent

def edges(program, rng):
    """Lent slices, records, rows and output rows: as much as is needed, and one more or less."""
    stage, width = Stage(DILATION, 1, 0, 1, 1), 3
    plan = plan_of([stage])
    for sample, ending in itertools.product((GREY, FLOAT), (FIXED, OPEN)):
        program.title('to the edge and beyond, %s, %s' % (WORDS[sample], ENDED[ending]))
        rows = GREYS if sample == GREY else RATES[:3]
        least = room(stage, width, (0,) * 5)
        run = Run(program, rng, any_memory(rng, sample, least))
        for short in 3, 4:
            scant = Run(program, rng, Memory(*(part[:len(part) - (at == short)] for at, part in enumerate(run.memory))))
            scant.start(True, ending, plan, sample, width, 3, 9)
        run.start(True, ending, plan, sample, width, 3, 8)
        run.start(True, ending, plan, sample, width, 3, 9)
        for row in rows:
            for call, given in ('origin row', row), ('origin drain', ()):
                for short in range(5):
                    cut = Memory(*(part[:len(part) - (at == short)] for at, part in enumerate(run.memory)))
                    run.step(call, given, memory=cut)
                for at, start, length in (0, 3, 0), (2, 0, 4), (1, 255, 255):
                    run.step(call, given, memory=spoiled(run.memory, at, start, length))
                for outs in itertools.product((2, 3, 4), repeat=3):
                    if outs != (3, 3, 3):
                        run.step(call, given, outs=outs)
            run.step('origin row', row[:2])
            run.step('origin row', row + [row[0]])
            run.step('origin row', [])
            run.step('origin row', row)
        run.stop()
        drained(run, 'origin drain')


def spoiled(memory, at, start, length):
    starts, lengths = list(memory.starts), list(memory.lengths)
    starts[at], lengths[at] = start, length
    return memory._replace(starts=starts, lengths=lengths)


# ---- over one stage

TWO = [Stage(EROSION, 1, 1, 1, 1), Stage(DILATION, 1, 1, 1, 1)]


def over_one(program, rng):
    """Two stages and more: 20 at the start and in a step, and at which place; the plain calls go on beside."""
    program.title('two stages: 20 at the start')
    run = Run(program, rng, any_memory(rng, GREY, (40, 40, 40, 20, 20)))
    for ending, is_record in itertools.product((FIXED, OPEN), (False, True)):
        for stages in TWO, TWO * 8, THREE:
            run.start(True, ending, plan_of(stages), GREY, 3, 3, is_record=is_record)
        program.title('extent 32 with two stages: 3; sample kind 7 with two stages: 20')
        run.start(True, ending, plan_of([TWO[0], TWO[1]._replace(up=32)]), GREY, 3, 3, is_record=is_record)
        run.start(True, ending, plan_of([TWO[0]._replace(left=32), TWO[1]]), 7, 0, 0, 0, is_record)
        run.start(True, ending, plan_of(TWO), 7, 3, 3, is_record=is_record)
        run.start(True, ending, plan_of(TWO), 7, 0, 0, 0, is_record)
        run.start(True, ending, Plan(17, plan_of(TWO).stages), 7, 0, 0, 0, is_record)
        program.title('a plain run of two stages, and steps in it that ask')
        run.start(False, ending, plan_of(TWO), GREY, 3, 3, is_record=is_record)
        for row in GREYS:
            run.step('origin row', row)
            run.step('origin row', row[:2], kind=FLOAT, outs=(0, 0, 0))
            run.step('origin row', row, state=run.state._replace(width=0))
            run.step('origin drain')
            run.step('row', row)
        run.stop()
        while run.state.step < 5:
            run.step('origin drain')
            run.step('drain')


# ---- the order of numbers: two things that are wrong at once

def wrong(state, memory):
    """Each thing that can be wrong with a step's state and memory, by its place in the order."""
    return {
        'state': (state._replace(width=0), memory), 'stages': (state._replace(plan=state.plan._replace(count=2)), memory),
        'kind': (state._replace(sample=1 - state.sample), memory), 'values': (state, memory._replace(values=[])),
        'columns': (state, memory._replace(columns=[])), 'record': (state, spoiled(memory, 1, 255, 255))}


def pairs(program, rng, noted=None):
    """Any two things that are wrong, of each step: the first of the order is told."""
    for sample, ending in itertools.product((GREY, FLOAT), (FIXED, OPEN, STOPPED)):
        program.title('two things wrong, %s, %s' % (WORDS[sample], ENDED[ending]))
        stage, rows = Stage(DILATION, 1, 0, 1, 1), RATES if sample == FLOAT else GREYS + [[1, 2, 3]]
        run = Run(program, rng, any_memory(rng, sample, (30, 30, 30, 9, 9)))
        run.noted = noted
        run.start(True, FIXED if ending == FIXED else OPEN, plan_of([stage]), sample, 3, 4)
        for row in rows:
            run.step('origin row', row)
        if ending == STOPPED:
            run.stop()
        own = run.state
        turns = {'step': 0}, {'step': 4, 'rows': 4, 'ending': FIXED}, {'step': LAST, 'ending': OPEN}, {'step': 5, 'rows': 4, 'ending': STOPPED}, {}
        names = list(wrong(own, run.memory))
        for fields, (one, other) in itertools.product(turns, itertools.combinations_with_replacement(names, 2)):
            state, memory = wrong(own._replace(**fields), run.memory)[one]
            state, memory = wrong(state, memory)[other] if other != one else (state, memory)
            wrong_calls(run, sample, state, memory, rows[0])
        for fields in turns:
            wrong_calls(run, sample, own._replace(**fields), run.memory, rows[0])


def wrong_calls(run, sample, state, memory, row):
    """Calls that are refused, with other things wrong: lengths, and a pixel that is not finite. Those that would be taken are left out."""
    off = [math.inf] + row[1:] if sample == FLOAT else row
    fits = state.width, state.width, state.width
    for call, given, outs in (('origin row', row, fits), ('origin row', row[:2], fits), ('origin row', off, fits), ('origin row', off, (3, 2, 3)),
                              ('origin row', off[:2], (3, 3, 2)), ('origin drain', (), fits), ('origin drain', (), (4, 3, 3))):
        if first_of(step_rules(True, call == 'origin drain', sample, state, run.slices(sample, given, outs, memory), given)):
            run.step(call, given, sample, state, memory, outs)
    if first_of(stop_rules(state)):
        run.stop(state)


# of two stages neither, the first or the second is wrong
OFF = (0, 0), (1, 0), (0, 1)


def start_orders(program, rng, noted=None):
    """Every choice of things that are wrong with a start that asks, in all four forms."""
    good = [Stage(DILATION, 1, 1, 1, 1), Stage(EROSION, 0, 1, 2, 1)]
    for ending, is_record in itertools.product((FIXED, OPEN), (False, True)):
        program.title('starts, %s, by %s' % (ENDED[ending], 'record' if is_record else 'numbers'))
        for count, kinds, extents, sample, size, cells in itertools.product((1, 2, 0, 17), OFF, OFF, (0, 2), range(4), (0, 1)):
            stages = [stage._replace(kind=(1, 2)[kind], left=(1, 32)[extent]) for stage, kind, extent in zip(good, kinds, extents)]
            width, rows = ((3, 5), (0, 5), (4097, 5), (3, 0))[size]
            run = Run(program, rng, any_memory(rng, GREY, (0, 0, 0, 5, 6)))
            run.noted = noted
            run.start(True, ending, Plan(count, plan_of(stages).stages), sample, width, rows, 9 - cells, is_record)
        for width, rows in (1, 65535), (1, 65536), (1, MOST), (6, 1), (7, 1), (4096, 1), (MOST, 1):
            Run(program, rng, any_memory(rng, GREY, (0, 0, 0, 7, 6))).start(True, ending, plan_of(good[:1]), 0, width, rows, MOST, is_record)


# What is run in the gate: crates/origins has these.
KEPT = first, over_one
SCRIPTS = KEPT + (pictures, wide, last_numbers, mixed, edges, pairs, start_orders)
