"""Random scripts for the program of crates/belts: pictures run twice, with refused calls of every kind between their steps."""
import math
import random
import struct

import jobs
from belt_cases import MOST, drained
from belt_script import ALL_LENT, Script
from definition import GREY, Stage
from runs import (
    FIXED, LAST, OPEN, STOPPED, Lent, Plan, ahead, cells_needed, drain_rules, first_of, place_rules, plan_of, records_needed, row_rules, shared_rules,
    stop_rules, used, window)


# ---- pictures

def extent(rng):
    return rng.choice((0, 0, 1, 1, 2, 3, rng.randrange(32), 31))


def any_plan(rng):
    """One to four stages, of small extents or of any, and a width that leaves cells for them."""
    choose = rng.choice((lambda rng: rng.randrange(4), extent, extent))
    stages = [Stage(rng.randrange(2), *(choose(rng) for _ in range(4))) for _ in range(rng.choice((1, 1, 2, 3, 4)))]
    return stages, rng.randint(1, min(8, 4096 // sum(map(window, stages))))


def any_height(rng):
    return rng.choice((1, 2, rng.randint(1, 12), rng.randint(1, 70), rng.randint(60, 150), rng.randint(120, 300)))


def any_rows(rng, sample, width, rows):
    """A picture of the kinds that jobs.py has; the floats have negative zeros, subnormals and the largest among them."""
    table = jobs.pixel_table(rng, sample)
    pixels = table if sample == GREY else [pixel for pixel, in struct.iter_unpack('<f', b''.join(table))]
    drawn = rng.choice(jobs.PICTURES)(rng, width, rows)
    return [[pixel[0] if sample == GREY else pixel for pixel in (pixels[value] for value in row)] for row in drawn]


def other_state(rng, state):
    """One or two fields changed, to what a rule is about."""
    look_ahead = ahead(used(state.plan))
    values = {
        'sample': (0, 1, 2, 255), 'ending': (FIXED, OPEN, STOPPED),
        'width': (0, 1, state.width + 1, 63, 64, 65, 1024, 4096, 4097, 2 ** 32, MOST),
        'rows': (0, 1, state.step, state.rows + 1, 65535, 65536, LAST, LAST + 1, 2 ** 63, MOST),
        'step': (0, 1, max(0, state.step - 1), state.step + 1, state.rows, state.rows + look_ahead, state.rows + look_ahead + 1, LAST - 1, LAST,
                 LAST + 1, MOST)}
    return {name: min(MOST, rng.choice(values[name])) for name in rng.sample(sorted(values), rng.choice((1, 1, 2)))}


def other_plan(rng, plan):
    """Another count, or an extent changed, of a stage that is used or of one that is not."""
    if rng.random() < 0.5:
        return Plan(min(255, rng.choice((0, 1, plan.count + 1, 16, 17, 255))), plan.stages)
    stages, at = list(plan.stages), rng.choice((0, min(plan.count, 16) - 1, 15))
    stages[at] = stages[at]._replace(**{rng.choice(('left', 'right', 'up', 'down')): rng.choice((0, 31, 32, 255))})
    return Plan(plan.count, tuple(stages))


def unfit_row(rng, kind, width):
    """A row and the length of an output row. Some have the right lengths, and of floats some pixels that are not finite."""
    length, out = (rng.choice((width, width, width, width, width - 1, width + 1, 0, 40)) for _ in range(2))
    if kind == GREY:
        return list(rng.randbytes(length)), out
    values = -0.0, 1.5, -2.0, math.nan, math.inf, -math.inf
    return [rng.choice(values) for _ in range(length)], out


def is_records_asked(script, kind):
    """Whether a call comes to judge the column records by another plan or width than they were made for: where a queue starts in its ring is not said."""
    own, other = script.home, script.state
    return (used(own.plan), own.width) != (used(other.plan), other.width) and first_of(shared_rules(kind, other, script.lent, script.broken)) == 0


def refused_call(rng, script):
    """One call of any kind, where it is refused; what would be taken is left out. A read-out is made where the queues are the state's."""
    kind, width = rng.choice((script.state.sample & 1, script.state.sample & 1, rng.randrange(2))), script.home.width
    call = rng.choice(('row', 'row', 'drain', 'stop', 'queue'))
    if call != 'stop' and is_records_asked(script, kind):
        return
    if call == 'row':
        row, out = unfit_row(rng, kind, width)
        if first_of(row_rules(kind, script.state, script.lent, script.broken, row, out)):
            script.row(row, kind, out)
    elif call == 'drain':
        out = rng.choice((width, width, width + 1))
        if first_of(drain_rules(kind, script.state, script.lent, script.broken, out)):
            script.drain(kind, out)
    elif call == 'stop':
        if first_of(stop_rules(script.state)):
            script.stop()
    else:
        stage, column, place = (rng.choice((0, 1, 3, 4, 16, MOST)) for _ in range(3))
        is_home = script.state == script.home and not script.broken
        if is_home or first_of(place_rules(kind, script.state, script.lent, script.broken, stage, column)):
            script.queue(stage, column, kind, place, rng.choice((1, 2)))


def start_in_between(rng, script):
    """A start that is refused: its state is all zeros, and the memory stays."""
    plan = other_plan(rng, script.home.plan)
    lent = ALL_LENT._replace(starts=0)
    script.lend(*lent)
    script.start(rng.choice((FIXED, OPEN)), plan, rng.randrange(3), rng.choice((0, 1, 5)), rng.randrange(3), is_record=rng.random() < 0.5)
    script.lend(*ALL_LENT)
    refused_call(rng, script)


def disturb(rng, script):
    """Calls that are refused, with the state, the records or what is lent changed before and set back after them."""
    lent = script.lent
    for _ in range(rng.choice((0, 1, 1, 2))):
        change = rng.choice(('state', 'plan', 'record', 'lend', 'start'))
        if change == 'state':
            script.set_state(**other_state(rng, script.state))
        elif change == 'plan':
            script.set_plan(other_plan(rng, script.state.plan))
        elif change == 'record' and not script.broken:
            place = rng.randrange(records_needed(script.home.plan, script.home.width))
            size = window(script.home.plan.stages[place // script.home.width])
            script.spoil(place, rng.choice((0, size - 1, size, 255)), rng.choice((0, size, size + 1, 255)))
        elif change == 'lend':
            needed = cells_needed(script.home.plan, script.home.width), records_needed(script.home.plan, script.home.width)
            script.lend(*(rng.choice((0, needed[at // 2] - 1, needed[at // 2], 1024)) for at in range(4)))
        elif change == 'start':
            start_in_between(rng, script)
    for _ in range(rng.randint(1, 3)):
        refused_call(rng, script)
    if script.broken:
        script.mend()
    if script.lent != lent:
        script.lend(*lent)
    script.set_back()
    if rng.random() < 0.2:
        script.tell()


def any_lent(rng, plan, width):
    """What the plan needs, or more; all four lengths may differ."""
    cells, records = cells_needed(plan, width), records_needed(plan, width)
    return Lent(*(rng.choice((least, least, rng.randint(least, most), most)) for least, most in ((cells, 4096), (cells, 4096), (records, 1024), (records, 1024))))


def disturbed_run(rng, script, ending, stages, sample, rows, shown_after):
    """A whole run, with refused calls between its steps. The places of the lines that do not depend on how the run ends: steps that are taken,
    and queues after some of the steps."""
    plan, width, alike = plan_of(stages), len(rows[0]), []
    script.lend(*any_lent(rng, plan, width))
    cells = rng.choice((cells_needed(plan, width), 4096, MOST))
    assert script.start(ending, plan, sample, width, len(rows), cells, rng.random() < 0.5) == 0
    often = rng.choice((0, 0.05, 0.3))

    def each():
        alike.append(len(script.lines) - 1)
        if script.state.step in shown_after:
            first = len(script.lines)
            script.queues()
            alike.extend(range(first, len(script.lines)))

    if rng.random() < 0.5:
        disturb(rng, script)
    for row in rows:
        if rng.random() < often:
            disturb(rng, script)
        assert script.row(row) == 0
        each()
    if ending == OPEN:
        assert script.stop() == 0
        if rng.random() < 0.5:
            disturb(rng, script)
    while script.state.step < len(rows) + ahead(stages):
        if rng.random() < often:
            disturb(rng, script)
        assert script.drain() == 0
        each()
    disturb(rng, script)
    script.drain()
    script.row(rows[0])
    script.queues()
    script.tell()
    return alike


def far_run(rng, script):
    """A run that is set forward by a multiple of 128 rows, some up to the last row number, and goes on there."""
    stages, width = any_plan(rng)
    sample, ending = rng.randrange(2), rng.choice((FIXED, OPEN, OPEN))
    first = sum(map(window, stages)) + ahead(stages) + rng.randrange(130)
    more = rng.choice((-first % 128, rng.randrange(6)))
    last = LAST if ending == OPEN else 65535
    most = (last - first - more) // 128
    skipped = 128 * rng.choice((most, most, rng.randint(0, most)))
    rows = any_rows(rng, sample, width, first + more)
    script.start(ending, plan_of(stages), sample, width, first + more + skipped)
    for row in rows[:first]:
        script.row(row)
    script.forward(first + skipped)
    script.queues()
    for row in rows[first:]:
        assert script.row(row) == 0
        if rng.random() < 0.1:
            script.queues()
            disturb(rng, script)
    if ending == FIXED or script.state.step == LAST:
        assert script.row(rows[0]) == (28 if ending == OPEN else 9)
    script.stop()
    drained(script, Script.queues if rng.random() < 0.3 else lambda script: None)
    script.queues()


def given_up(rng, script):
    """A run that is left after some rows: what it leaves in the memory is no concern of the next one."""
    stages, width = any_plan(rng)
    sample = rng.randrange(2)
    script.start(rng.choice((FIXED, OPEN)), plan_of(stages), sample, width, 300)
    for row in any_rows(rng, sample, width, rng.randint(1, 80)):
        script.row(row)


def random_script(seed):
    """A picture run twice, in either order; before it some runs are given up, after it some go on far on. Beside the script, the lines that have to be alike."""
    rng = random.Random(seed)
    script = Script()
    script.title('random picture %s' % seed)
    stages, width = any_plan(rng)
    sample = rng.randrange(2)
    rows = any_rows(rng, sample, width, any_height(rng))
    steps = len(rows) + ahead(stages)
    shown_after = set(rng.sample(range(1, steps + 1), min(steps, 12))) | {len(rows), steps}
    if rng.random() < 0.3:
        given_up(rng, script)
        script.title('and then')
    endings = rng.sample((FIXED, OPEN), 2)
    alike = [disturbed_run(rng, script, ending, stages, sample, rows, shown_after) for ending in endings]
    if rng.random() < 0.2:
        script.title('and far on')
        script.lend(*ALL_LENT)
        far_run(rng, script)
    return script, alike
