#!/usr/bin/env python3
"""Holds the filters of whole pictures, from C, to definition.py, to jobs in memory and to the program: every byte that a call tells.

    python3 tests/whole.py COUNT SEED COMMAND..
    python3 tests/whole.py --self

COMMAND runs tests/whole.c. Each call is made twice, with what is lent against a guard behind it and before it. The calls: document 01's
cases, its line P filtered twice and float patterns; lines of 1 to 20 pixels across and down, with every pair of extents; the edges of
the sizes; COUNT random pictures; every choice of things that can be wrong, together; and COUNT jobs, whose rows the job in memory has to
give too, and a tenth as many for ./kelafshir. A difference is printed with its call in hexadecimal. tests/whole.sh builds it all and runs this.
--self needs no command: it holds what is expected here to the tables' answers, the random calls to giving every number, and the
comparison to telling every wrong outcome.
"""
import collections
import itertools
import math
import multiprocessing
import pathlib
import random
import struct
import subprocess
import sys

import jobs
from cases import tables
from definition import FLOAT, GREY, Stage, after
from twice import raster

TOP = pathlib.Path(__file__).resolve().parent.parent
JOB = 2
BYTES = {GREY: 1, FLOAT: 4, JOB: 1}

# The stages of five numbers each, the picture and the lent row as bytes.
Call = collections.namedtuple('Call', 'sample stages width rows picture row')
# What a call comes to: the number, the pixel that it names, whether nothing beside is changed, and what is lent, in bytes.
Outcome = collections.namedtuple('Outcome', 'number at_row at_column is_intact stages picture row')


def stage_bytes(call):
    return b''.join(map(bytes, call.stages))


def lengths(call):
    """Of the picture and of the lent row, in pixels."""
    return len(call.picture) // BYTES[call.sample], len(call.row) // BYTES[call.sample]


# ---- what is expected, by the header

def pixels(call):
    """The picture's values. Adding 0.0 reads a negative zero as a positive one."""
    if call.sample == GREY:
        return list(call.picture)
    return [value + 0.0 for value, in struct.iter_unpack('<f', call.picture)]


def plan_number(stages):
    if not 1 <= len(stages) <= 16:
        return 1
    for kind, *extents in stages:
        if kind > 1:
            return 2
        if max(extents) > 31:
            return 3
    return 0


def lent_number(call):
    picture_length, row_length = lengths(call)
    if not (1 <= call.width <= 4096 and 1 <= call.rows <= 65535):
        return 4
    if picture_length != call.width * call.rows:
        return 7
    return 6 if row_length < call.width else 0


def refusal(call):
    """The first rule that is broken, and the pixel that it names."""
    number = plan_number(call.stages) or lent_number(call)
    if number == 0:
        for place, value in enumerate(pixels(call)):
            if not math.isfinite(value):
                return 8, place // call.width, place % call.width
    return number, 0, 0


def filtered(call):
    """The picture by the definition."""
    values = pixels(call)
    rows = [values[at:at + call.width] for at in range(0, len(values), call.width)]
    plan = [Stage(*stage) for stage in call.stages]
    flat = list(itertools.chain.from_iterable(after(plan, rows)))
    return bytes(flat) if call.sample == GREY else struct.pack('<%df' % len(flat), *flat)


def outcome(call):
    """What the call has to come to. The lent row is told as it was; of a call that is done its front is not compared."""
    number, at_row, at_column = refusal(call)
    picture = call.picture if number else filtered(call)
    return Outcome(number, at_row, at_column, True, stage_bytes(call), picture, call.row)


def told_apart(call, due, got):
    """The names of what is not as it should be."""
    front = 0 if due.number else call.width * BYTES[call.sample]
    seen, wanted = (given._replace(row=given.row[front:]) for given in (got, due))
    wrong = [name for name in Outcome._fields if getattr(seen, name) != getattr(wanted, name)]
    return wrong + ['length of the row'] * (len(got.row) != len(due.row))


# ---- calls that are taken

def lent_row(rng, width, sample):
    """A row of any bytes, as long as the width or longer."""
    return rng.randbytes((width + rng.choice((0, 0, 0, 1, 2, 15, 100))) * BYTES[sample])


def picture_of(rng, sample, stages, width, rows):
    """A call of these stages on any picture of this size."""
    draft = jobs.Draft(rng, lambda _: (stages, width, rows), sample, jobs.PICTURES)
    return Call(sample, stages, width, rows, b''.join(map(b''.join, draft.lines)), lent_row(rng, width, sample))


MOST_WORK = 300000


def work(stages, width, rows):
    """The rows under all windows, which is what the definition takes its time for."""
    return sum(width * rows * min(rows, up + down + 1) for _, _, _, up, down in stages)


def side(rng):
    return rng.choice((1, 2, 3, rng.randint(1, 20), rng.randint(1, 70), 70))


def any_picture(rng, sample):
    stages = [jobs.any_stage(rng) for _ in range(jobs.stage_count(rng))]
    width, rows = side(rng), side(rng)
    while work(stages, width, rows) > MOST_WORK:
        width, rows = (width + 1) // 2, (rows + 1) // 2
    return picture_of(rng, sample, stages, width, rows)


def random_calls(rng, count):
    for at in range(count):
        yield 'picture %d' % at, any_picture(rng, at % 2)


def lines(rng, count):
    """Every length to 20 and every pair of extents, across and down: with both kinds and both samples where COUNT is large, else with
    one of the four each."""
    every = [(sample, kind) for sample in (GREY, FLOAT) for kind in (0, 1)]
    for first, last, length in itertools.product(range(32), range(32), range(1, 21)):
        for sample, kind in rng.sample(every, 4 if count >= 5000 else 1):
            yield 'across', picture_of(rng, sample, [[kind, first, last, 0, 0]], length, 1)
            yield 'down', picture_of(rng, sample, [[kind, 0, 0, first, last]], 1, length)


def sizes(rng):
    """The edges of the sizes, where nothing else is wrong."""
    for sample in GREY, FLOAT:
        for width, rows in (4096, 3), (4097, 3), (65536, 1), (2, 65535), (1, 65536), (1, 65537), (1, 1):
            stage = [rng.randrange(2)] + [rng.randrange(3) for _ in range(4)]
            yield '%d by %d' % (width, rows), picture_of(rng, sample, [stage], width, rows)


# ---- calls that are refused: each damage changes one thing of a call

def with_stage(call, at, stage):
    return call._replace(stages=call.stages[:at] + [stage] + call.stages[at + 1:])


def wrong_kind(rng, call):
    at = rng.randrange(len(call.stages))
    return with_stage(call, at, [rng.choice((2, 255))] + call.stages[at][1:])


def wrong_extent(rng, call):
    at, place = rng.randrange(len(call.stages)), rng.randint(1, 4)
    stage = list(call.stages[at])
    stage[place] = rng.choice((32, 255))
    return with_stage(call, at, stage)


def wrong_count(rng, call):
    return call._replace(stages=rng.choice(([], (call.stages * 17)[:17])))


def wrong_width(rng, call):
    return call._replace(width=rng.choice((0, 4097, 65536, 65536 + call.width, 2 ** 32 + call.width, 2 ** 63, 2 ** 64 - 1)))


def wrong_rows(rng, call):
    return call._replace(rows=rng.choice((0, 65536, 65536 + call.rows, 2 ** 32 + call.rows, 2 ** 63, 2 ** 64 - 1)))


def wrong_length(rng, call):
    size = BYTES[call.sample]
    return call._replace(picture=rng.choice((call.picture[:-size], call.picture + call.picture[:size], b'', call.picture * 2)))


def short_row(rng, call):
    """A row that is one place short, or not there. The width is not yet damaged."""
    return call._replace(row=call.row[:rng.choice((call.width - 1, call.width - 1, 0)) * BYTES[call.sample]])


def not_finite(rng, call):
    """One to three such pixels of floats. Grey bytes have none."""
    if call.sample == GREY:
        return call
    picture = bytearray(call.picture)
    for _ in range(rng.choice((1, 1, 1, 3))):
        at = rng.randrange(len(picture) // 4) * 4
        picture[at:at + 4] = jobs.pixel_not_finite(rng)
    return call._replace(picture=bytes(picture))


# In an order in which each can be done: the width that the row is short of is there, and so are stages that can be wrong.
DAMAGES = not_finite, short_row, wrong_length, wrong_rows, wrong_width, wrong_extent, wrong_kind, wrong_count
SINGLE = tuple((damage,) for damage in DAMAGES)
TOGETHER = [choice for count in range(len(DAMAGES) + 1) for choice in itertools.combinations(DAMAGES, count)]


def refused_calls(rng, count):
    """Every choice of damages for each kind of samples, and single ones again for COUNT calls."""
    every = list(itertools.product(TOGETHER, (GREY, FLOAT)))
    again = itertools.islice(itertools.cycle(itertools.product(SINGLE, (GREY, FLOAT))), count)
    for damages, sample in itertools.chain(every, again):
        call = any_picture(rng, sample)
        for damage in damages:
            call = damage(rng, call)
        yield ' and '.join(damage.__name__ for damage in damages) or 'nothing wrong', call


# ---- jobs, and calls of the same plan and picture

def call_of_job(rng, job):
    """The call that a job comes to: as many stages as it counts, its head's sizes, and the rest as the picture."""
    end = 1 + 5 * job[0]
    sample, width, rows = struct.unpack('<BHH', job[end:end + 5])
    stages = [list(job[at:at + 5]) for at in range(1, end, 5)]
    return Call(sample, stages, width, rows, job[end + 5:], lent_row(rng, width, sample))


def outcome_by_answer(call, answered):
    """What the call has to come to by a job's answer."""
    due = Outcome(answered[-1], 0, 0, True, stage_bytes(call), call.picture, call.row)
    if due.number == 0:
        return due._replace(picture=raster(answered))
    return due._replace(at_row=refusal(call)[1], at_column=refusal(call)[2])


def table_calls(rng):
    """The tables' jobs as calls, and what they have to come to. A whole picture has no cells to be counted, so no 15."""
    for name, job, answered in tables():
        call = call_of_job(rng, job)
        yield name, call, outcome(call) if answered[-1] == 15 else outcome_by_answer(call, answered)


def any_job(rng, at):
    """A whole job, or one with a wrong stage, size or pixel; the kinds come in turn."""
    shape = jobs.small, jobs.small, jobs.small, jobs.tall, jobs.wide
    draft = jobs.Draft(rng, shape[at % 5], at % 2, jobs.LIVELY)
    damages = [jobs.no_damage] * 6 + [jobs.wrong_kind, jobs.wrong_extent, jobs.wrong_width, jobs.wrong_rows]
    rng.choice(damages + [jobs.not_finite] * 2 * (draft.sample == FLOAT))(rng, draft)
    return b''.join(draft.groups())


def as_lent(job):
    """A job as a call of its own, with room for its answer."""
    return Call(JOB, [], 0, 0, job, bytes(2 * len(job) + 70000))


# ---- the runs

def run(command, call, at_back):
    given = struct.pack('<7Q', call.sample, at_back, len(call.stages), call.width, call.rows, *lengths(call))
    command.stdin.write(given + stage_bytes(call) + call.picture + call.row)
    command.stdin.flush()
    told = command.stdout.read(18)
    if len(told) < 18:
        sys.exit('the run ends with %d on %s' % (command.wait(), shown(call)))
    number, at_row, at_column, is_intact = struct.unpack('<BQQB', told)
    return Outcome(number, at_row, at_column, bool(is_intact), *(
        command.stdout.read(length) for length in (5 * len(call.stages), len(call.picture), len(call.row))))


def shown(call):
    return 'sample kind %d, stages %s, width %d, rows %d, %d pixels, a row of %d\n  picture  %s' % (
        call.sample, stage_bytes(call).hex(), call.width, call.rows, *lengths(call), call.picture.hex())


def wrong_of(name, call, due, got):
    """Whether something is wrong, and says so."""
    wrong = told_apart(call, due, got)
    if wrong:
        print('DIFFERENCE %s: %s\n  %s' % (name, ', '.join(wrong), shown(call)))
        for word, one in ('expected', due), ('got     ', got):
            print('  %s %d, row %d, column %d, %s' % (word, *one[:3], one.picture.hex()))
    return bool(wrong)


def compared(command, calls):
    """How often all is right and how often not, and how often each number is due. Each call has its name and what it has to come to."""
    counts, numbers = collections.Counter(), collections.Counter()
    for name, call, due in calls:
        for side_name, at_back in ('at the front', 0), ('at the back', 1):
            counts[wrong_of('%s, %s' % (name, side_name), call, due, run(command, call, at_back))] += 1
        numbers[call.sample, due.number] += 1
    return counts, numbers


def defined(pool, named):
    """Calls with what they have to come to by the definition."""
    named = list(named)
    for (name, call), due in zip(named, pool.imap(outcome, [call for _, call in named], 20)):
        yield name, call, due


def by_jobs(command, rng, count):
    """Calls with what the jobs in memory answer."""
    for at in range(count):
        job = any_job(rng, at)
        lent = as_lent(job)
        ran = run(command, lent, 1)
        if not ran.is_intact or ran.picture != job:
            sys.exit('job %d changes more than its output\n  %s' % (at, job.hex()))
        call = call_of_job(rng, job)
        yield 'job %d' % at, call, outcome_by_answer(call, ran.row[:ran.at_row])


def by_program(rng, count):
    """Calls with what the program answers. Its first use may prove and build it, for minutes."""
    for at in range(count):
        job = any_job(rng, at)
        call = call_of_job(rng, job)
        answered = subprocess.run([str(TOP / 'kelafshir')], input=job, stdout=subprocess.PIPE, check=True).stdout
        yield 'job %d by the program' % at, call, outcome_by_answer(call, answered)


def check_calls(count, seed, words):
    rng = random.Random(seed)
    with multiprocessing.Pool() as pool, subprocess.Popen(words, stdin=subprocess.PIPE, stdout=subprocess.PIPE) as command:
        by_definition = itertools.chain(lines(rng, count), sizes(rng), random_calls(rng, count), refused_calls(rng, count))
        counts, numbers = compared(command, itertools.chain(
            table_calls(rng), defined(pool, by_definition), by_jobs(command, rng, count), by_program(rng, count // 10)))
        command.stdin.close()
        counts[True] += command.wait() != 0
    for sample, name in (GREY, 'grey'), (FLOAT, 'float'):
        told = sorted((number, times) for (kind, number), times in numbers.items() if kind == sample)
        print('%s calls by their number:' % name, ', '.join('%d: %d' % pair for pair in told))
    return counts[False], counts[True]


# ---- the tests of the tests

EVERY_NUMBER = {(sample, number) for sample in (GREY, FLOAT) for number in (0, 1, 2, 3, 4, 6, 7)} | {(FLOAT, 8)}


def spoilt(call, due):
    """Outcomes that are wrong: each has one thing changed, by as little as can be."""
    def other(given, at):
        return given[:at] + bytes([given[at] ^ 1]) + given[at + 1:]

    front = 0 if due.number else call.width * BYTES[call.sample]
    yield due._replace(number=due.number ^ 1)
    yield due._replace(at_row=due.at_row + 1)
    yield due._replace(at_column=due.at_column + 1)
    yield due._replace(is_intact=False)
    for name, first in ('stages', 0), ('picture', 0), ('row', front):
        given = getattr(due, name)
        for at in {first, len(given) - 1} if first < len(given) else ():
            yield due._replace(**{name: other(given, at)})


def check_comparison(rng):
    """Right outcomes are taken, whatever the front of the lent row is after a call that is done; wrong ones are not."""
    counts = collections.Counter()
    for _, call in itertools.chain(random_calls(rng, 50), itertools.islice(refused_calls(rng, 0), 512)):
        due = outcome(call)
        front = 0 if due.number else call.width * BYTES[call.sample]
        counts[not told_apart(call, due, due._replace(row=rng.randbytes(front) + due.row[front:]))] += 1
        for wrong in spoilt(call, due):
            counts[bool(told_apart(call, due, wrong))] += 1
    if counts[False]:
        print('%d outcomes are judged wrongly' % counts[False])
    return counts[True], counts[False]


def check_expected(rng):
    """What is expected here against the tables' answers, and every number that is to be given."""
    counts = collections.Counter()
    for name, call, due in table_calls(rng):
        counts[wrong_of(name, call, due, outcome(call))] += 1
    found = {(call.sample, refusal(call)[0]) for _, call in itertools.chain(random_calls(rng, 20), refused_calls(rng, 20))}
    for sample, number in EVERY_NUMBER - found:
        print('no random call of sample kind %d gives %d' % (sample, number))
    counts[found != EVERY_NUMBER] += 1
    return counts[False], counts[True]


def main(words):
    if words == ['--self']:
        parts = check_expected(random.Random(1)), check_comparison(random.Random(1))
    else:
        parts = check_calls(int(words[0]), int(words[1]), words[2:]),
    passed, failed = map(sum, zip(*parts))
    print('%d passed, %d failed' % (passed, failed))
    return failed != 0


if __name__ == '__main__':
    sys.exit(main(sys.argv[1:]))
