"""Random jobs for the check: whole ones of every shape, tall and wide ones among them, and damaged ones for every refusal and for
their order."""
import struct

from definition import FLOAT, GREY


# ---- shapes: the stages, the width and the row count of a job. The definition looks at every pixel of every window, so there are few
# pixels where windows are large.

def stage_count(rng):
    return rng.choice((1, 1, 1, 2, 2, 3, 4, 16, rng.randint(1, 16)))


def extent(rng):
    return rng.choice((0, 0, 1, 1, 2, 3, 31, rng.randrange(32)))


def any_stage(rng):
    return [rng.randrange(2)] + [extent(rng) for _ in range(4)]


def cells_of_column(stages):
    return sum(stage[3] + stage[4] + 1 for stage in stages)


def small_size(rng, stages):
    """Up to 70 rows, of any width that the stages leave cells for."""
    cells = cells_of_column(stages)
    widest = 4096 // cells
    width = min(widest, rng.choice((1, 2, 3, rng.randint(1, 20), rng.randint(1, 400), widest)))
    return width, min(max(1, 200000 // (cells * width)), rng.choice((1, 2, rng.randint(1, 10), rng.randint(1, 70))))


def small(rng):
    stages = [any_stage(rng) for _ in range(stage_count(rng))]
    return stages, *small_size(rng, stages)


def tall(rng):
    """300 to 2,000 rows through one to four stages, a window of 63 down among them."""
    stages = [any_stage(rng) for _ in range(rng.randrange(4))]
    stages.insert(rng.randint(0, len(stages)), [rng.randrange(2), extent(rng), extent(rng), 31, 31])
    rows = rng.choice((300, rng.randint(300, 2000), 2000))
    cells = cells_of_column(stages)
    widest = max(1, min(4096 // cells, 1000000 // (cells * rows)))
    return stages, rng.choice((widest, rng.randint(1, widest))), rows


def narrow(rng):
    """As tall, and so narrow that a pipe holds the job, and what it gives, whole."""
    stages, _, _ = tall(rng)
    return stages, rng.randint(1, 2), 2000


def wide(rng):
    """2,049 to 4,096 columns. One stage without a window down takes all the cells that such a job may have; most windows across are of 63."""
    left, right = rng.choice(((31, 31), (31, 31), (rng.randint(1, 31), extent(rng))))
    return [[rng.randrange(2), left, right, 0, 0]], rng.choice((2049, 4096, rng.randint(2049, 4096))), rng.randint(3, 12)


# ---- pictures: rows of numbers below 256, which stand for pixels in rising order

def pixel_table(rng, sample):
    """The bytes of 256 pixels, in rising order."""
    if sample == GREY:
        return [bytes([value]) for value in range(256)]
    # both zeros, the smallest and largest subnormals, the smallest and largest normals, one
    special = [0, 0, 1, 0x7fffff, 0x800000, 0x7f7fffff, 0x3f800000, 0x3f800001]
    any_finite = [rng.choice((rng.getrandbits(31) % 0x7f800000, rng.getrandbits(23))) for _ in range(120)]
    bits = special + rng.choice((any_finite, special * 15))
    both_signs = [struct.pack('<I', value | sign) for value in bits for sign in (0, 0x80000000)]
    return sorted(both_signs, key=lambda pixel: struct.unpack('<f', pixel))


def flat(rng, width, rows):
    return [[rng.randrange(256)] * width] * rows


def rising(rng, width, rows):
    across, down = rng.randrange(4), rng.randrange(8)
    return [[min(255, across * x + down * y) for x in range(width)] for y in range(rows)]


def falling(rng, width, rows):
    return [[255 - value for value in row] for row in rising(rng, width, rows)]


def noise(rng, width, rows):
    return [list(rng.randbytes(width)) for _ in range(rows)]


def few_values(rng, width, rows):
    values = rng.sample(range(256), 3)
    return [[rng.choice(values) for _ in range(width)] for _ in range(rows)]


def plateaus(rng, width, rows):
    tall, wide = rng.randint(1, 6), rng.randint(1, 12)
    levels = noise(rng, width // wide + 1, rows // tall + 1)
    return [[levels[y // tall][x // wide] for x in range(width)] for y in range(rows)]


def waves(rng, width, rows):
    """Slopes up and down, smooth or rough: on them the first and the last pixel of a window tell."""
    across, down, roughness = rng.randint(1, 3), rng.randint(1, 3), rng.choice((1, 4, 64))
    return [[abs((across * x + down * y) % 382 - 191) + rng.randrange(roughness) for x in range(width)] for y in range(rows)]


def dots(rng, width, rows):
    picture = [[128] * width for _ in range(rows)]
    for _ in range(rng.randint(1, 5)):
        picture[rng.randrange(rows)][rng.randrange(width)] = rng.choice((0, 1, 127, 129, 255))
    return picture


PICTURES = flat, rising, falling, noise, few_values, plateaus, waves, dots
# Those that go on changing, however many rows and columns they have.
LIVELY = noise, few_values, plateaus, waves, waves


class Draft:
    """A job in its groups, so that each can be damaged by itself."""

    def __init__(self, rng, shape, sample, pictures):
        self.stages, self.width, self.rows = shape(rng)
        self.count = len(self.stages)
        self.sample = sample
        pixels = pixel_table(rng, sample)
        self.lines = [[pixels[key] for key in row] for row in rng.choice(pictures)(rng, self.width, self.rows)]
        self.tail = b''
        self.is_cut = False

    def groups(self):
        yield bytes([self.count])
        yield b''.join(map(bytes, self.stages))
        yield struct.pack('<BHH', self.sample, self.width, self.rows)
        for row in self.lines:
            yield b''.join(row)

    def bytes(self, rng):
        groups = list(self.groups())
        if not self.is_cut:
            return b''.join(groups) + self.tail
        at = rng.choice((0, 1, 2, rng.randrange(3, len(groups))))
        return b''.join(groups[:at]) + groups[at][:rng.randrange(max(1, len(groups[at])))]


# ---- damage: each changes one thing of a draft

def no_damage(rng, draft):
    """Leaves the job whole."""


def wrong_count(rng, draft):
    draft.count = rng.choice((0, 17, 18, 255))


def other_count(rng, draft):
    draft.count = rng.randint(1, 16)


def wrong_kind(rng, draft):
    rng.choice(draft.stages)[0] = rng.choice((2, 3, 255))


def wrong_extent(rng, draft):
    rng.choice(draft.stages)[rng.randint(1, 4)] = rng.choice((32, 33, 63, 255))


def wrong_sample(rng, draft):
    draft.sample = rng.choice((2, 3, 128, 255))


def other_sample(rng, draft):
    draft.sample = rng.randrange(2)


def wrong_width(rng, draft):
    draft.width = rng.choice((0, 4097, 65535))


def other_width(rng, draft):
    draft.width = (draft.width + rng.choice((-1, 1))) % 65536


def wrong_rows(rng, draft):
    draft.rows = 0


def other_rows(rng, draft):
    draft.rows = rng.choice(((draft.rows - 1) % 65536, draft.rows + 1, 65535))


def too_many_cells(rng, draft):
    draft.width = min(4096, rng.choice((4096 // cells_of_column(draft.stages) + 1, 4096)))


def pixel_not_finite(rng):
    """An infinity or a NaN, quiet or signalling, of either sign. (In a grey picture it is a pixel too long.)"""
    low_bits = rng.choice((0, 0, 1, 0x400000, rng.getrandbits(23)))
    return struct.pack('<I', 0x7f800000 | low_bits | rng.choice((0, 0x80000000)))


def not_finite(rng, draft):
    for _ in range(rng.choice((1, 1, 1, 3))):
        row = draft.lines[rng.choice((-1, rng.randrange(len(draft.lines))))]
        row[rng.randrange(len(row))] = pixel_not_finite(rng)


def extra(rng, draft):
    draft.tail = rng.randbytes(rng.choice((1, 1, 2, 40)))


def cut(rng, draft):
    draft.is_cut = True


def late_row(rng, draft):
    """The number of a row of the last quarter."""
    return rng.randrange(len(draft.lines) * 3 // 4, len(draft.lines))


def end_in_row(rng, draft, number, shortest):
    """Ends the job inside a row: so many bytes of it stay at least, and at least one is missing."""
    row = b''.join(draft.lines[number])
    draft.lines[number:] = [[row[:rng.randrange(min(shortest, len(row) - 1), len(row))]]]


def cut_late(rng, draft):
    end_in_row(rng, draft, late_row(rng, draft), 0)


def not_finite_late(rng, draft):
    row = draft.lines[late_row(rng, draft)]
    row[rng.randrange(len(row))] = pixel_not_finite(rng)


def not_finite_and_cut(rng, draft):
    """A late row that holds what is not finite and is cut behind it: 13 comes before 8."""
    number = late_row(rng, draft)
    row = draft.lines[number]
    column = rng.randrange(max(1, len(row) - 1))
    row[column] = pixel_not_finite(rng)
    end_in_row(rng, draft, number, len(b''.join(row[:column + 1])))


DAMAGE = (wrong_count, other_count, wrong_kind, wrong_extent, wrong_sample, other_sample, wrong_width, other_width,
          wrong_rows, other_rows, too_many_cells, not_finite, not_finite, not_finite_and_cut, extra, cut, cut)


# ---- jobs

def any_bytes(rng):
    return bytes(rng.choice((0, 1, 1, 2, 3, rng.randrange(256))) for _ in range(rng.randrange(60)))


def small_job(rng):
    draft = Draft(rng, small, rng.randrange(2), PICTURES)
    damages = rng.choice((0, 0, 0, 1, 1, 2, 4))
    for damage in rng.sample(DAMAGE, damages):
        damage(rng, draft)
    return rng.choice((any_bytes(rng),) + (draft.bytes(rng),) * 19)


LARGE = ((tall, GREY, no_damage), (wide, FLOAT, no_damage), (tall, FLOAT, not_finite_and_cut), (tall, FLOAT, no_damage),
         (wide, GREY, no_damage), (tall, FLOAT, not_finite_late), (tall, GREY, cut_late), (wide, FLOAT, not_finite_and_cut),
         (tall, GREY, extra), (wide, FLOAT, not_finite_late), (tall, FLOAT, cut_late), (wide, GREY, cut_late),
         (tall, FLOAT, extra), (wide, GREY, extra))


def large_job(rng, at):
    """A job of a kind of LARGE; the kinds come in turn."""
    shape, sample, damage = LARGE[at % len(LARGE)]
    draft = Draft(rng, shape, sample, LIVELY)
    damage(rng, draft)
    return draft.bytes(rng)


def narrow_jobs(rng):
    """Tall jobs that can be fed in pieces: one whole of each kind of samples, and one that ends early."""
    for sample, damage in (GREY, no_damage), (FLOAT, no_damage), (FLOAT, cut_late):
        draft = Draft(rng, narrow, sample, LIVELY)
        damage(rng, draft)
        yield draft.bytes(rng)


def random_jobs(rng, count):
    """The first are one of each kind of LARGE, so that the fewest jobs have some of them; later every twentieth is one."""
    for at in range(count):
        if at < len(LARGE):
            yield large_job(rng, at)
        elif at % 20 == 0:
            yield large_job(rng, at // 20)
        else:
            yield small_job(rng)
