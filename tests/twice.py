"""Random jobs that the laws of filtering twice speak of (document 02, 13/13): pairs that have the same answer, and pairs of which one's
answer is nowhere above the other's.

Every picture is whole. Of a job that is refused in a row a plan with a filter doubled answers fewer rows, since it looks further ahead.
"""
import struct

from cases import CLOSING, OPENING
from definition import EROSION, GREY
from jobs import PICTURES, Draft, any_stage, extent, small_size

MOST_STAGES, LARGEST_EXTENT = 16, 31
AS_IT_IS = [[EROSION, 0, 0, 0, 0]]


# ---- plans

def stages_of(kinds, extents):
    return [[kind, *extents] for kind in kinds]


def any_of(rng, kinds):
    return stages_of(kinds, [extent(rng) for _ in range(4)])


def alternating(order):
    return [stage for size in range(1, order + 1) for stage in stages_of(OPENING + CLOSING, [size] * 4)]


def any_filter(rng, highest):
    """What changes nothing when it is done again: an opening, a closing, both in either order, or an alternate sequential filter."""
    first, second = rng.sample((OPENING, CLOSING), 2)
    return rng.choice((any_of(rng, first), any_of(rng, first) + any_of(rng, second), alternating(rng.randint(1, highest))))


def some_stages(rng, most):
    return [any_stage(rng) for _ in range(min(most, rng.choice((0, 0, 1, 2))))]


# ---- jobs and answers

def draft(rng, stages):
    """A draft of a whole job of these stages. Both zeros and equal values are in the table that a float picture's pixels are taken from."""
    return Draft(rng, lambda _: (stages, *small_size(rng, stages)), rng.randrange(2), PICTURES)


def with_stages(made, stages):
    """The job's bytes; the draft has these stages from now on."""
    made.stages, made.count = stages, len(stages)
    return b''.join(made.groups())


def raster(answered):
    """The rows of a full run's answer without their markers."""
    sample, width, _ = struct.unpack('<BHH', answered[1:6])
    row_length = width * (1 if sample == GREY else 4)
    return b''.join(answered[at + 1:at + 1 + row_length] for at in range(6, len(answered) - 2, 1 + row_length))


def values(answered):
    """The pixels of a full run's answer as numbers."""
    rows = raster(answered)
    return list(rows) if answered[1] == GREY else struct.unpack('<%df' % (len(rows) // 4), rows)


# ---- the same answer

def doubled(rng):
    """A filter that changes nothing when it is done again, anywhere in a plan: once, and twice in a row."""
    once = any_filter(rng, 2)
    left = (MOST_STAGES - 2 * len(once)) // 2
    before, after = some_stages(rng, left), some_stages(rng, left)
    made = draft(rng, before + once * 2 + after)
    twice = with_stages(made, made.stages)
    return with_stages(made, before + once + after), lambda _: twice


def summed(rng):
    """Two dilations or two erosions anywhere in a plan, and the one whose extents are the sums."""
    kind, first = rng.randrange(2), [extent(rng) for _ in range(4)]
    second = [min(LARGEST_EXTENT - size, extent(rng)) for size in first]
    before, after = some_stages(rng, 2), some_stages(rng, 2)
    made = draft(rng, before + [[kind, *first], [kind, *second]] + after)
    two = with_stages(made, made.stages)
    one = with_stages(made, before + [[kind, *map(sum, zip(first, second))]] + after)
    return two, lambda _: one


def again(rng):
    """A filter that changes nothing when it is done again, and the same filter over the rows that it answered."""
    made = draft(rng, any_filter(rng, 4))
    given = with_stages(made, made.stages)
    return given, lambda answered: given[:6 + 5 * made.count] + raster(answered)


def same_answers(rng, count):
    """Each kind in turn: a name, a job, and from its answer another job that has the same one."""
    kinds = doubled, summed, again
    for at in range(count):
        kind = kinds[at % len(kinds)]
        yield '%s %d' % (kind.__name__, at), *kind(rng)


# ---- nowhere above

def opened(rng):
    """A picture opened, and as it is."""
    made = draft(rng, any_of(rng, OPENING))
    return with_stages(made, made.stages), with_stages(made, AS_IT_IS)


def closed(rng):
    """A picture as it is, and closed."""
    made = draft(rng, any_of(rng, CLOSING))
    higher = with_stages(made, made.stages)
    return with_stages(made, AS_IT_IS), higher


def raised(rng):
    """A picture, and one of which some pixels are larger, through one plan."""
    made = draft(rng, some_stages(rng, 2) + [any_stage(rng)])
    lower = with_stages(made, made.stages)

    def value(pixel):
        return pixel[0] if made.sample == GREY else struct.unpack('<f', pixel)[0]

    every = [pixel for row in made.lines for pixel in row]
    made.lines = [[max(pixel, rng.choice((pixel, rng.choice(every))), key=value) for pixel in row] for row in made.lines]
    return lower, with_stages(made, made.stages)


def in_order(rng, count):
    """Each kind in turn: a name, and two jobs of which the first one's answer is nowhere above the second's."""
    kinds = opened, closed, raised
    for at in range(count):
        kind = kinds[at % len(kinds)]
        yield '%s %d' % (kind.__name__, at), *kind(rng)
