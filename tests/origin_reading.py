"""Where a pixel that comes out came from, by document 02, and the numbers of the calls that ask for it: what tests/runs.py is for calls that do not ask.

There are two readings of an origin, and they have to agree. The first looks at every pixel under the cut rectangle, row by row: the last one that has
the value. The second is document 02's sentence: "the latest row whose across-result has the value, and in that row the latest column of its window".
"""
from definition import rectangle
from runs import Lent, best_of, drain_rules, row_rules, start_rules


def between(at, before, after, end):
    """The places from so far before one to so far after it, cut to those that are there."""
    return range(max(0, at - before), min(end, at + after + 1))


def last_pixel(stage, rows, y, x):
    """The row and the column of the last pixel under the rectangle, row by row, that has the value which comes out at row y, column x."""
    left, right, up, down = rectangle(stage)
    pixels = [(q, column) for q in between(y, up, down, len(rows)) for column in between(x, left, right, len(rows[0]))]
    value = best_of(stage)(rows[q][column] for q, column in pixels)
    return [(q, column) for q, column in pixels if rows[q][column] == value][-1]


def latest_column(stage, row, x):
    """The latest column of the window at x whose pixel is the row's across-result."""
    left, right, _, _ = rectangle(stage)
    columns = between(x, left, right, len(row))
    value = best_of(stage)(row[column] for column in columns)
    return max(column for column in columns if row[column] == value)


def columns_of(stage, row):
    """The columns that a row's across-results came from."""
    return [latest_column(stage, row, x) for x in range(len(row))]


def by_sentence(stage, rows, y, x):
    """The same by document 02's sentence."""
    _, _, up, down = rectangle(stage)
    across = {q: rows[q][latest_column(stage, rows[q], x)] for q in between(y, up, down, len(rows))}
    value = best_of(stage)(across.values())
    row = max(q for q in across if across[q] == value)
    return row, latest_column(stage, rows[row], x)


def origins(stage, rows, y):
    """The origins of output row y, by both readings."""
    told = [last_pixel(stage, rows, y, x) for x in range(len(rows[0]))]
    assert told == [by_sentence(stage, rows, y, x) for x in range(len(rows[0]))], 'the two readings differ'
    return told


# ---- numbers: rules as in runs.py

def is_over_one(plan):
    """20 when positions are asked of over one stage."""
    return plan.count > 1


def asked_start_rules(*start):
    """1; then stage by stage 2, 3; then 20, 5, 4, 6."""
    rules, plan = start_rules(*start), start[1]
    return rules[:-3] + [(20, lambda: is_over_one(plan))] + rules[-3:]


def asked(rules, state):
    """20 behind the state's own fields."""
    return rules[:1] + [(20, lambda: is_over_one(state.plan))] + rules[1:]


def misfit(state, lengths):
    """The first of the output rows' lengths that is not the width, or else the width."""
    return next((length for length in lengths if length != state.width), state.width)


def records(slices):
    return dict(enumerate(zip(slices.starts, slices.lengths)))


def lent(slices, asks):
    """The cells lent are the shortest of their slices: two, or three where origins are asked for."""
    positions = min(len(slices.positions), len(slices.columns)) if asks else len(slices.positions)
    return Lent(len(slices.values), positions, len(slices.starts), len(slices.lengths))


def step_rules(asks, is_drain, kind, state, slices, row):
    """A step's: 12, 20 if it asks, 5, 6, 12, then 9, 28, 7, 8 of a row and 10, 7 of a drain. Where it asks, 7 is for three output rows."""
    outs = [len(slices.out)] + [len(slices.origin_rows), len(slices.origin_columns)] * asks
    shared = kind, state, lent(slices, asks), records(slices)
    rules = drain_rules(*shared, misfit(state, outs)) if is_drain else row_rules(*shared, row, misfit(state, outs))
    return asked(rules, state) if asks else rules
