#!/usr/bin/env python3
"""Holds open and fixed runs to runs.py: every answer, output row, state and queue, and that a refused call changes nothing.

    python3 tests/belts.py [COUNT [SEED [COMMAND..]]]
    python3 tests/belts.py --self
    python3 tests/belts.py --write
    python3 tests/belts.py --list

COMMAND runs the program of crates/belts; without one it is target/bin/belts, which tests/belts.sh proves and builds before it runs this. Run are
the scripts of crates/belts/data, each pair of things that can be wrong, and COUNT random pictures, the same ones for the same seed: each picture
twice on the same memory, once with its rows counted and once open with a stop, with calls between them that are refused. --self needs no program: it
holds runs.py to definition.py and to answers made by hand, and the comparison to telling wrong lines. --write writes crates/belts/data
and stdout anew, by the same definitions; --list tells what the files of data are.
"""
import collections
import itertools
import math
import multiprocessing
import pathlib
import random
import re
import subprocess
import sys
import tempfile

from belt_cases import GREYS, KEPT, MOST, SCRIPTS, THREE, both_ways, pairs, scripted, start_orders
from belt_random import any_plan, any_rows, random_script
from belt_script import ALL_LENT, Script
from cases import P
from definition import DILATION, EROSION, FLOAT, GREY, after
from runs import (
    FIXED, LAST, NO_STATE, OPEN, STOPPED, Plan, Stages, State, ahead, bad_column, comparisons, drain_rules, first_of, is_state_off, plan_of, queue, row_rules,
    stop_rules)

TOP = pathlib.Path(__file__).resolve().parent.parent
CRATE = TOP / 'crates' / 'belts'

# ---- the comparison

def answers(words, script):
    """The lines that the program gives. It is run where there are no files of commands, so it reads these."""
    with tempfile.TemporaryDirectory() as folder:
        run = subprocess.run(words, input=b''.join(script.commands), capture_output=True, cwd=folder, timeout=600)
    if run.returncode or run.stderr:
        return ['the program ends with %d, %s' % (run.returncode, run.stderr)]
    return run.stdout.decode().split('\n')[:-1]


def bare(line):
    """A line without the state, and without the output row where no row came."""
    return re.sub('(?<=not yet, comparisons )([0-9]*); out.*|; (fixed|open|stopped), .*', r'\1', line)


def differences(script, alike, got):
    """Each difference, as the place of the command and what is said of it."""
    for at, (due, line) in enumerate(itertools.zip_longest(script.lines, got, fillvalue='(no line)')):
        if due != line:
            yield at, '\n  expected %s\n  got      %s' % (due, line)
    for one, other in zip(*alike, strict=True) if alike else ():
        first, second = (bare(got[at]) if at < len(got) else '(no line)' for at in (one, other))
        if first != second:
            yield other, ' and command %d, which differ\n  %s\n  %s' % (one, second, first)


def compared(words, name, script, alike=()):
    """How many lines are right, and how many not; the first of these are printed with the commands that led there."""
    wrong = list(differences(script, alike, answers(words, script)))
    for at, said in wrong[:3]:
        print('DIFFERENCE %s, command %d%s' % (name, at, said))
    if wrong:
        at = wrong[0][0]
        start = max((place for place, line in enumerate(script.lines[:at + 1]) if line.startswith('start')), default=0)
        for line in script.lines[max(start, at - 12):at]:
            print('  after    %s' % line[:200])
    return max(0, len(script.lines) + (len(alike[0]) if alike else 0) - len(wrong)), len(wrong)


def check_runs(count, seed, words):
    counts = collections.Counter()
    numbers = collections.Counter()

    def add(name, script, alike=()):
        passed, failed = compared(words, name, script, alike)
        counts.update(passed=passed, failed=failed)
        numbers.update(told for line in script.lines for told in re.findall(r'^(?:\w+ (?=row|drain))?(row|drain|start|stop): (?:refused )?(\d+)', line))

    with multiprocessing.Pool() as pool:
        for make in SCRIPTS:
            add(make.__name__, scripted(make))
        for at, (script, alike) in enumerate(pool.imap(random_script, ('%d.%d' % (seed, at) for at in range(count)), 4)):
            add('random picture %d.%d' % (seed, at), script, alike)
    for call in 'start', 'row', 'drain', 'stop':
        told = sorted((int(number), times) for (name, number), times in numbers.items() if name == call)
        print('%s by its number:' % call, ', '.join('%d: %d' % pair for pair in told))
    return counts['passed'], counts['failed']


# ---- the tests of the tests

def check_rows(rng):
    """Rows of runs.py against whole pictures by definition.py: each due row against the rows read so far, and all of them at the end."""
    counts = collections.Counter()
    for _ in range(60):
        stages, width = any_plan(rng)
        rows = [[value + 0 for value in row] for row in any_rows(rng, rng.randrange(2), width, rng.randint(1, 24))]
        made = Stages(plan_of(stages))
        for t, row in enumerate(rows):
            made.rows.append(row)
            due = made.due(t)
            if due is not None:
                counts[due[0] == after(stages, made.rows)[due[1]]] += 1
        made.is_over = True
        counts[[made.due(t)[0] for t in range(ahead(stages), len(rows) + ahead(stages))] == after(stages, rows)] += 1
    return counts


def check_lines():
    """Lines of document 01: cases 5 to 8."""
    value = P.__getitem__
    falls, flat = [4, 3, 2, 1].__getitem__, [7, 7, 7].__getitem__
    return collections.Counter((
        [comparisons(DILATION, 4, value, t) for t in range(8)] == [0, 1, 2, 1, 2, 1, 1, 2],
        queue(DILATION, 4, value, 7, 7) == [(9, 5), (6, 7)],
        queue(DILATION, 4, value, 7, 8) == [(9, 5), (6, 7)],
        queue(DILATION, 4, value, 7, 9) == [(6, 7)],
        sum(comparisons(DILATION, 2, falls, t) for t in range(4)) == 3,
        [queue(DILATION, 2, falls, t, t) for t in range(4)] == [[(4, 0)], [(4, 0), (3, 1)], [(3, 1), (2, 2)], [(2, 2), (1, 3)]],
        queue(DILATION, 3, flat, 2, 2) == [(7, 2)],
        sum(comparisons(DILATION, 3, flat, t) for t in range(3)) == 2,
        [queue(EROSION, 3, falls, t, t) for t in range(4)] == [[(4, 0)], [(3, 1)], [(2, 2)], [(1, 3)]]))


def check_known():
    """The picture of three stages against what crates/queues is to write, which was so before there were open runs: answers, rows, and column 1's queues."""
    counts = collections.Counter()
    known = [line.split(': ', 1)[1] for line in (TOP / 'crates' / 'queues' / 'stdout').read_text().splitlines()[3:16]]
    for ending in FIXED, OPEN:
        script = Script()
        script.out[GREY] = [255] * 1024
        script.start(ending, plan_of(THREE), GREY, 3, 3)
        for line in known:
            if ending == OPEN and line.startswith('refused'):
                continue
            if ending == OPEN and script.state.step == 3 and script.state.ending == OPEN:
                script.stop()
            if line.startswith('refused 7'):
                script.row([7, 2])
            elif line.startswith('refused 10'):
                script.drain()
            elif line.startswith('refused 9'):
                script.row([3, 5, 1])
            elif script.state.step < 3:
                script.row(GREYS[script.state.step])
            else:
                script.drain()
            answer = re.sub('^grey (row|drain): |; (fixed|open|stopped).*', '', script.lines[-1])
            script.queues((1,))
            queues = [re.sub('grey queue:|; kept', '', told) for told in script.lines[-3:]]
            counts['%s; queues%s' % (answer, ','.join(queues)) == line] += 1
    return counts


def numbers_by_hand():
    """States and calls, and their numbers as the sentences of documents 01 and 02 have them."""
    plan = plan_of(THREE)
    fixed, open_run, stopped = (State(plan, GREY, 3, ending, rows, step) for ending, rows, step in ((FIXED, 3, 1), (OPEN, 0, 1), (STOPPED, 3, 3)))
    for number, state in (
            (0, fixed), (0, open_run), (0, stopped), (12, fixed._replace(rows=0)), (12, fixed._replace(rows=65536)), (0, fixed._replace(rows=65535)),
            (0, fixed._replace(step=6)), (12, fixed._replace(step=7)), (0, open_run._replace(step=LAST)), (12, open_run._replace(step=LAST + 1)),
            (0, open_run._replace(rows=MOST)), (12, open_run._replace(width=4097)), (0, open_run._replace(width=4096)), (12, stopped._replace(rows=0, step=0)),
            (0, stopped._replace(rows=LAST, step=LAST)), (12, stopped._replace(rows=LAST + 1, step=LAST + 1)), (12, stopped._replace(step=2)),
            (0, stopped._replace(step=6)), (12, stopped._replace(step=7)), (12, stopped._replace(sample=2)), (12, open_run._replace(plan=Plan(17, plan.stages))),
            (12, NO_STATE)):
        yield is_state_off(state) == (number == 12)
    row, nothing = [1, 2, 3], {}
    for number, state, offered in (
            (0, fixed, row), (9, fixed._replace(step=3), row), (9, fixed._replace(step=3), row[:2]), (7, open_run, row[:2]), (0, open_run, row),
            (0, open_run._replace(step=LAST - 1), row), (28, open_run._replace(step=LAST), row), (28, open_run._replace(step=LAST), row[:2]),
            (9, stopped, row), (9, stopped._replace(rows=LAST, step=LAST), row), (5, open_run._replace(sample=1, step=LAST), row)):
        yield first_of(row_rules(GREY, state, ALL_LENT, nothing, offered, 3)) == number
    for number, state in (
            (10, fixed), (0, fixed._replace(step=3)), (0, fixed._replace(step=5)), (10, fixed._replace(step=6)), (10, open_run), (10, open_run._replace(step=0)),
            (0, stopped), (10, stopped._replace(step=6)), (0, stopped._replace(rows=LAST, step=LAST + 2)), (10, stopped._replace(rows=LAST, step=LAST + 3))):
        yield first_of(drain_rules(GREY, state, ALL_LENT, nothing, 3)) == number
    for number, state in (
            (0, open_run), (4, open_run._replace(step=0)), (9, fixed), (9, fixed._replace(step=0)), (9, fixed._replace(step=6)), (9, stopped),
            (12, open_run._replace(step=LAST + 1)), (12, open_run._replace(step=0, width=0)), (0, open_run._replace(step=LAST)), (12, NO_STATE)):
        yield first_of(stop_rules(state)) == number
    spoiled = [0.0, math.inf, math.nan]
    yield first_of(row_rules(FLOAT, open_run._replace(sample=1), ALL_LENT, nothing, spoiled, 3)) == 8 and bad_column(spoiled) == 1
    yield first_of(row_rules(FLOAT, open_run._replace(sample=1), ALL_LENT, nothing, spoiled, 2)) == 7


def check_comparison():
    """Right lines are taken, and each line with a character changed, a line too few and one too many is told."""
    counts = collections.Counter()
    script = scripted(both_ways)
    counts[not list(differences(script, (), script.lines))] += 1
    for at, line in enumerate(script.lines):
        for place in {0, len(line) // 2, len(line) - 1}:
            wrong = line[:place] + chr(ord(line[place]) ^ 1) + line[place + 1:]
            counts[[told[0] for told in differences(script, (), script.lines[:at] + [wrong] + script.lines[at + 1:])] == [at]] += 1
    counts[bool(list(differences(script, (), script.lines[:-1])))] += 1
    counts[bool(list(differences(script, (), script.lines + ['more'])))] += 1
    script, alike = random_script('1.0')
    counts[not list(differences(script, alike, script.lines))] += 1
    counts[bool(list(differences(script, [alike[0], alike[1][1:] + alike[1][:1]], script.lines)))] += 1
    return counts


# Numbers that stand next to each other in an order, with the first one's place: 12 is twice in a step's. No call can be told both 9 and 28, since one is for
# a run that is not open and the other for one that is: 12 and 7 stand next to both.
NEXT = {('row', 12, 5, 0), ('row', 5, 6, 1), ('row', 6, 12, 2), ('row', 12, 9, 3), ('row', 12, 28, 3), ('row', 9, 7, 4), ('row', 28, 7, 5), ('row', 7, 8, 6),
        ('drain', 12, 5, 0), ('drain', 5, 6, 1), ('drain', 6, 12, 2), ('drain', 12, 10, 3), ('drain', 10, 7, 4), ('stop', 12, 9, 0), ('stop', 9, 4, 1),
        ('start', 1, 2, 0), ('start', 2, 3, 1), ('start', 3, 2, 2), ('start', 3, 5, 2), ('start', 3, 5, 4), ('start', 5, 4, 5), ('start', 4, 6, 6)}


def check_orders():
    """The scripts bring about each two things that are wrong whose numbers stand next to each other."""
    noted = set()
    for make in pairs, start_orders:
        script = Script()
        script.is_noting = True
        make(script)
        noted |= script.noted
    if NEXT - noted:
        print('not together:', sorted(NEXT - noted))
    return collections.Counter(pair in noted for pair in NEXT)


def check_self():
    rng = random.Random(1)
    parts = {'rows': check_rows(rng), 'lines': check_lines(), 'known': check_known(), 'numbers': collections.Counter(numbers_by_hand()),
             'comparison': check_comparison(), 'orders': check_orders()}
    for name, counts in parts.items():
        if counts[False]:
            print('%d of %s are wrong' % (counts[False], name))
    total = sum(parts.values(), collections.Counter())
    return total[True], total[False]


# ---- the files of the crate

def write_files():
    data = CRATE / 'data'
    data.mkdir(exist_ok=True)
    for old in data.iterdir():
        old.unlink()
    made = [scripted(make) for make in KEPT]
    for at, script in enumerate(made):
        (data / ('b%03d' % at)).write_bytes(b''.join(script.commands))
    (CRATE / 'stdout').write_text(''.join(line + '\n' for script in made for line in script.lines))
    print('%d files, %d commands' % (len(made), sum(len(script.lines) for script in made)))


def list_files():
    for at, make in enumerate(KEPT):
        print('b%03d' % at, '%4d commands' % len(scripted(make).lines), ' '.join(make.__doc__.split()))


def main(words):
    if words in (['--write'], ['--list']):
        return write_files() if words == ['--write'] else list_files()
    if words == ['--self']:
        passed, failed = check_self()
    else:
        count, seed = (int(word) for word in (words + ['100', '1'][len(words):])[:2])
        passed, failed = check_runs(count, seed, words[2:] or [str(TOP / 'target' / 'bin' / 'belts')])
    print('%d passed, %d failed' % (passed, failed))
    return failed != 0


if __name__ == '__main__':
    sys.exit(main(sys.argv[1:]))
