"""Scripts for the program of crates/belts: pictures both ways, the remainders coming round, stops, the last row numbers, edges, and the order of numbers."""
import itertools
import math

from belt_script import ALL_LENT, ENDINGS, WORDS, Script
from definition import DILATION, EROSION, FLOAT, GREY, Stage
from runs import FIXED, LAST, OPEN, STOPPED, Plan, ahead, cells_needed, drain_rules, first_of, place_rules, plan_of, records_needed, row_rules, stop_rules

# the largest number that a call can be given
MOST = 2 ** 64 - 1

# the plan and the pictures of crates/queues and crates/images
THREE = [Stage(EROSION, 0, 1, 0, 1), Stage(DILATION, 1, 0, 1, 1), Stage(DILATION, 0, 1, 1, 0)]
GREYS = [[7, 2, 9], [8, 0, 6], [3, 5, 1]]
ONE = [Stage(DILATION, 1, 0, 1, 1)]
RATES = [[2.5, -1.0, 0.5], [-1.0, 0.5, 2.5], [0.25, -3.0, 3.0], [0.375, -2.0, 0.75]]
ZEROS = [[-0.0, 0.0, -1.0], [0.0, -0.0, -0.0], [-0.0, -0.0, -0.0], [-2.0, -3.0, -0.0]]
SPOILED = [64.0, 64.0, math.nan]


def drained(script, each=lambda script: None):
    """All drains, and one that is refused."""
    while script.drain() == 0:
        each(script)


def run_over(script, ending, stages, sample, rows, each, is_record=False):
    """A whole run over these rows, with `each` after every step."""
    script.start(ending, plan_of(stages), sample, len(rows[0]), len(rows), is_record=is_record)
    for row in rows:
        script.row(row)
        each(script)
    if ending == OPEN:
        script.stop()
    drained(script, each)


def both_ways(script):
    """Pictures with their rows counted, and open with a stop."""
    for ending, is_record in itertools.product((FIXED, OPEN), (False, True)):
        script.title('three stages, %s' % ENDINGS[ending])
        run_over(script, ending, THREE, GREY, GREYS, Script.queues, is_record)
    for ending in FIXED, OPEN:
        script.title('floats, a refused row before each, %s' % ENDINGS[ending])
        script.start(ending, plan_of(ONE), FLOAT, 3, 4)
        for row in RATES:
            script.row(SPOILED)
            script.row(row)
            script.queues()
        script.stop()
        drained(script, Script.queues)
        script.title('both zeros, %s' % ENDINGS[ending])
        run_over(script, ending, ONE, FLOAT, ZEROS, Script.queues)


def falling(sample, width, y):
    """Falls from row to row: floats always, bytes but for one row in 256, which is row 100 in column 0."""
    if sample == FLOAT:
        return [1000.0 - 3 * y - x for x in range(width)]
    return [(99 - y - 20 * x) % 256 for x in range(width)]


def remainders(script):
    """300 rows that fall, a window of 63 down. The positions are row numbers, however often the remainders come round."""
    after_steps = 1, 63, 64, 127, 128, 129, 130, 191, 192, 255, 256, 257, 300
    for sample, width, ending in (FLOAT, 1, OPEN), (GREY, 1, OPEN), (GREY, 3, OPEN), (FLOAT, 3, FIXED):
        script.title('300 rows that fall, %s, width %d, %s' % (WORDS[sample], width, ENDINGS[ending]))

        def each(script):
            if script.state.step in after_steps or script.state.step in (301, 302, 315, 330, 331):
                script.queues()

        run_over(script, ending, [Stage(DILATION, 1, 0, 31, 31)], sample, [falling(sample, width, y) for y in range(300)], each)


def noise(x, y):
    """A byte that looks like chance."""
    return ((x * 73856093 ^ y * 19349663) * 1664525 + 1013904223) % 2 ** 32 >> 24


FAR = [Stage(EROSION, 1, 0, 2, 31), Stage(DILATION, 0, 1, 31, 3), Stage(EROSION, 0, 0, 4, 0)]
PARTS = [Stage(DILATION, 0, 0, 20, 1), Stage(EROSION, 0, 1, 3, 21), Stage(DILATION, 1, 1, 21, 0)]


def stops(script):
    """A look-ahead of 62, and few rows and many. The first stage's queue is read out while the later ones drain: it stays."""
    for stages, count in itertools.product((FAR, PARTS), (1, 2, 62, 63, 200)):
        assert ahead(stages) == 62
        script.title('three stages with a look-ahead of 62, a stop after %d rows' % count)
        script.start(OPEN, plan_of(stages), GREY, 2)
        for y in range(count):
            script.row([noise(x, y) for x in range(2)])
        script.queues((0,))
        script.stop()
        script.queues((0,))

        def each(script):
            script.queue(0, 1)
            if script.state.step % 8 == 0:
                script.queues((0,))

        drained(script, each)


def far_ahead(script):
    """Look-aheads of 124 and 496. The first stages are done so long before the last that the plan's steps, read as theirs, would give other rows."""
    four = [Stage(kind, 0, 1, 31, 31) for kind in (EROSION, DILATION, EROSION, DILATION)]
    sixteen = [Stage(EROSION, 0, 0, 1, 31), Stage(DILATION, 0, 0, 31, 0)] * 8
    for stages, count in (four, 150), (sixteen, 3):
        script.title('a look-ahead of %d, a stop after %d rows' % (ahead(stages), count))
        script.start(OPEN, plan_of(stages), GREY, 2)

        def each(script):
            if script.state.step % 31 == 0:
                script.queues()

        for y in range(count):
            script.row([noise(0, y), *falling(GREY, 1, y)])
            each(script)
        script.stop()
        drained(script, each)


def out_of_turn(script):
    """Calls out of turn: stops, rows and drains before and after the stop, in open and in fixed runs."""
    script.title('open: a stop with no row read, a drain before the stop')
    script.start(OPEN, plan_of(THREE), GREY, 3)
    script.stop()
    script.drain()
    script.row(GREYS[0])
    script.drain()
    script.title('a stop, and a second one; a row after it')
    script.stop()
    script.stop()
    script.row(GREYS[1])
    script.tell()
    drained(script)
    script.stop()
    script.row(GREYS[1])
    script.title('fixed: stops before the first row, between and after the last')
    script.start(FIXED, plan_of(THREE), GREY, 3, 3)
    for row in GREYS:
        script.stop()
        script.drain()
        script.row(row)
    script.stop()
    drained(script)
    script.stop()


def last_numbers(script):
    """Up to the last row number, and states that no run has."""
    for stages, sample, count in (THREE, GREY, 127), (FAR, GREY, 255), (ONE, FLOAT, 127):
        row = [float(value) for value in GREYS[0]] if sample == FLOAT else GREYS[0]
        look_ahead = ahead(stages)
        script.title('open, before the last row number; look-ahead %d' % look_ahead)
        script.start(OPEN, plan_of(stages), sample, 3)
        for y in range(count):
            script.row([type(row[0])(noise(x, y)) for x in range(3)])
        script.forward(LAST - 1)
        script.row(row)
        script.queues((0,))
        script.title('past the last row number, with a row, a short one and a short output row')
        script.row(row)
        script.row(row[:2])
        script.row(row, out=2)
        script.title('step 4,294,967,297, and far beyond')
        for step in LAST + 1, MOST:
            script.set_state(step=step)
            script.row(row)
            script.drain()
            script.stop()
            script.queue(0, 0)
        script.set_back()
        script.stop()
        script.title('stopped: rows 0, rows 4,294,967,297, a step too few and one too many')
        for fields in ({'rows': 0}, {'rows': 0, 'step': 0}, {'rows': LAST + 1, 'step': LAST + 1}, {'step': LAST - 1}, {'step': LAST + look_ahead + 1},
                       {'rows': MOST, 'step': MOST}):
            script.set_state(**fields)
            script.row(row)
            script.drain()
            script.stop()
            script.queue(0, 0)
            script.set_back()
        script.title('the drains to the last row number')
        drained(script, lambda script: script.queues((0,)) if script.state.step > LAST + look_ahead - 3 else None)


def last_counted(script):
    """A run of 65,535 counted rows, at its end."""
    script.title('65,535 counted rows, at their end')
    script.start(FIXED, plan_of(THREE), GREY, 3, 65535)
    for y in range(120):
        script.row([noise(x, y) for x in range(3)])
    script.forward(65535 - 65535 % 128 - 8)
    while script.row([noise(x, script.state.step) for x in range(3)]) == 0:
        pass
    script.queues()
    drained(script, Script.queues)


def edges(script):
    """Start and length of a record, lent memory, rows and output rows: as much as is let in, and one more or less."""
    plan = plan_of(THREE)
    cells, records = cells_needed(plan, 3), records_needed(plan, 3)
    script.title('records and what is lent, to the edge and beyond')
    for ending in FIXED, OPEN:
        for short in range(4):
            script.lend(*((cells, cells, records, records)[at] - (at == short) for at in range(4)))
            script.start(ending, plan, GREY, 3, 3, cells)
        script.lend(cells, cells, records, records)
        script.start(ending, plan, GREY, 3, 3, cells - 1)
        script.start(ending, plan, GREY, 3, 3, cells)
        for row in GREYS:
            for short in range(4):
                script.lend(*((cells, cells, records, records)[at] - (at == short) for at in range(4)))
                script.row(row)
                script.drain()
                script.queue(0, 0)
            script.lend(cells, cells, records, records)
            for at, start, length in (0, 2, 0), (2, 0, 3), (3, 3, 0), (5, 0, 4), (8, 2, 0), (8, 0, 3), (8, 255, 255):
                script.spoil(at, start, length)
                script.row(row)
                script.drain()
                script.queue(2, 2)
                script.mend()
            for at, start, length in (0, 1, 2), (5, 2, 3), (8, 1, 2), (9, 255, 255):
                script.spoil(at, start, length)
                script.drain()
                script.row(row, out=2)
                script.mend()
            script.row(row + [0])
            script.row(row[:2])
            script.row([])
            script.row(row, out=4)
            script.row(row)
            for stage, column, place in (3, 0, 0), (0, 3, 0), (0, 0, 2), (MOST, 0, 0), (0, MOST, 0), (0, 0, MOST), (2 ** 62, 2 ** 62, 2 ** 62):
                script.queue(stage, column, place=place, count=1)
        script.lend(*ALL_LENT)


# ---- the order of numbers: two things that are wrong at once


def wrong_steps(sample):
    """Each thing that can be wrong with a step, by its place in the order of a row: how it is brought about. Some need another ending than others."""
    return {
        'state': lambda script: script.set_state(width=0),
        'kind': lambda script: script.set_state(sample=1 - sample),
        'memory': lambda script: script.lend(0, 4096, 1024, 1024),
        'record': lambda script: script.spoil(1, 255, 255)}


def pairs(script):
    """Any two things that are wrong, of each call: the first of the order is told."""
    for sample, ending in itertools.product((GREY, FLOAT), (FIXED, OPEN, STOPPED)):
        script.title('two things wrong, %s, %s' % (WORDS[sample], ENDINGS[ending]))
        rows = RATES if sample == FLOAT else GREYS + [[1, 2, 3]]
        script.start(FIXED if ending == FIXED else OPEN, plan_of(ONE), sample, 3, 4)
        for row in rows:
            script.row(row)
        if ending == STOPPED:
            script.stop()
        wrong = wrong_steps(sample)
        for first, second in itertools.product(wrong, repeat=2):
            if list(wrong).index(first) > list(wrong).index(second):
                continue
            for fault in {first: 0, second: 0}:
                wrong[fault](script)
            step_calls(script, sample, rows[0])
            undo(script)
        for fault in wrong:
            for fields in {'step': 0}, {'step': 4, 'rows': 4, 'ending': FIXED}, {'step': LAST, 'ending': OPEN}, {'step': 5, 'rows': 4, 'ending': STOPPED}:
                script.set_state(**fields)
                wrong[fault](script)
                step_calls(script, sample, rows[0])
                undo(script)
        for fields in {'step': 4, 'rows': 4, 'ending': FIXED}, {'step': LAST, 'ending': OPEN}, {'step': 5, 'rows': 4, 'ending': STOPPED}:
            script.set_state(**fields)
            step_calls(script, sample, rows[0])
            undo(script)
        step_calls(script, sample, rows[0])


def undo(script):
    if script.broken:
        script.mend()
    if script.lent != ALL_LENT:
        script.lend(*ALL_LENT)
    script.set_back()


def step_calls(script, sample, row):
    """Calls that are refused, with other things wrong: lengths, and a pixel that is not finite. Those that would be taken are left out."""
    spoiled = [math.inf] + row[1:] if sample == FLOAT else row
    for offered, out in (row, 3), (row[:2], 3), (row, 2), (spoiled, 3), (spoiled, 4), (spoiled[:2], 3):
        for kind in {sample, script.state.sample & 1}:
            fits = offered if kind == FLOAT else [int(value) % 256 for value in offered if math.isfinite(value)]
            if first_of(row_rules(kind, script.state, script.lent, script.broken, fits, out)):
                script.row(fits, kind, out)
    for out in 3, 2:
        if first_of(drain_rules(sample, script.state, script.lent, script.broken, out)):
            script.drain(sample, out)
    if first_of(stop_rules(script.state)):
        script.stop()
    if first_of(place_rules(sample, script.state, script.lent, script.broken, 7, 7)):
        script.queue(7, 7, sample)


def start_orders(script):
    """Every choice of things that are wrong with a start, in all four forms."""
    good = [Stage(DILATION, 1, 1, 1, 1), Stage(EROSION, 0, 1, 2, 1)]
    for ending, is_record in itertools.product((FIXED, OPEN), (False, True)):
        script.title('starts, %s, by %s' % (ENDINGS[ending], 'record' if is_record else 'numbers'))
        for count, kind, extent, sample, size, cells in itertools.product((2, 0, 17), (1, 2), (1, 32), (0, 2), range(4), (0, 1)):
            stages = [good[0]._replace(left=extent), good[1]._replace(kind=kind)]
            plan = Plan(count, plan_of(stages).stages)
            width, rows = ((3, 5), (0, 5), (4097, 5), (3, 0))[size]
            script.start(ending, plan, sample, width, rows, 21 - cells, is_record)
        for stages in ([good[0]._replace(kind=2, up=32), good[1]], [good[0], good[1]._replace(kind=255, down=255)], [good[0], good[1]._replace(right=32)]):
            script.start(ending, plan_of(stages), 2, 4096, 65536, 0, is_record)
        for width, rows in (1, 65535), (1, 65536), (1, MOST), (512, 1), (513, 1), (4096, 1), (MOST, 1):
            script.start(ending, plan_of(good), 0, width, rows, MOST, is_record)
        sixteen = plan_of([Stage(EROSION, 0, 0, 0, 0)] * 16)
        script.start(ending, sixteen, 0, 64, 1, 1024, is_record)
        script.start(ending, sixteen, 0, 65, 1, MOST, is_record)
        script.tell()


# What is run of open runs in the gate, and the edges of what is let in: crates/belts has these.
KEPT = both_ways, remainders, stops, far_ahead, out_of_turn, last_numbers, last_counted, edges
SCRIPTS = KEPT + (pairs, start_orders)


def scripted(make):
    script = Script()
    make(script)
    return script
