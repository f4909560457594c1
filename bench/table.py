#!/usr/bin/env python3
"""Prints the lines of bench and others.py, given as files, as tables: medians over the processes that measured the same."""
import statistics
import sys

METHODS = ('whole, proved', 'whole in C', 'proved', 'queue in C', 'van Herk in C', 'OpenCV', 'OpenCV, output lent', 'SciPy',
           'scikit-image', 'Leptonica', 'libvips', 'ImageMagick')
# Those whose means over the windows are compared.
MEANT = 'whole, proved', 'whole in C', 'OpenCV', 'OpenCV, output lent'
# How many fields at a line's end are measured, and so differ from process to process.
MEASURED = {'time': 1, 'count': 1, 'plan': 1, 'latency': 2, 'memory': 1}


def read(paths):
    """The lines by their kind. Each field that was measured is a list, of what each process measured."""
    several = {}
    for path in paths:
        for line in open(path):
            kind, *fields = line.rstrip('\n').split('\t')
            if kind in MEASURED:
                at = len(fields) - MEASURED[kind]
                several.setdefault((kind, *fields[:at]), []).append(fields[at:])
    found = {kind: [] for kind in MEASURED}
    for (kind, *fields), measured in several.items():
        found[kind].append(fields + list(zip(*measured)))
    return found


def groups(lines, fields):
    """The lines by their first fields, in the order in which these come."""
    found = {}
    for line in lines:
        found.setdefault(tuple(line[:fields]), []).append(line[fields:])
    return found


def numbers(cells):
    return [float(cell.rstrip('*')) for cell in cells]


def median(cells):
    """The median, with as many digits as each has."""
    return '%.*f' % (len(cells[0].partition('.')[2]), statistics.median(numbers(cells)))


def nanoseconds(value):
    """A time, with one digit more where it is below 1."""
    return '%.*f' % (3 if value < 0.9995 else 2, value)


def median_time(cells):
    """The median, with a star where one has one; a dash where there is none."""
    if not cells:
        return '-'
    return nanoseconds(statistics.median(numbers(cells))) + ('*' if any(cell.endswith('*') for cell in cells) else '')


def mean_time(several):
    """The geometric mean of medians; a dash where one of them is missing."""
    if not all(several):
        return '-'
    return nanoseconds(statistics.geometric_mean(statistics.median(numbers(cells)) for cells in several))


def ratio(above, below):
    """The median of the ratios that the processes find, each in itself: what slows a process slows both sides."""
    if not above or not below:
        return '-'
    return '%.2f' % statistics.median(a / b for a, b in zip(numbers(above), numbers(below)))


def show(head, rows):
    """A table, with its columns set off so that it can be read as it stands."""
    lines = [[str(cell) for cell in row] for row in [head, *rows]]
    widths = [max(len(line[at]) for line in lines) for at in range(len(head))]
    lines.insert(1, ['-' * (width - 1) + ':' for width in widths])
    for line in lines:
        print('| ' + ' | '.join(cell.rjust(width) for cell, width in zip(line, widths)) + ' |')
    print()


def named(sample, picture, size):
    return '%s, %s, %s' % (sample, picture, size.replace('x', ' × '))


def columns(entries):
    """The windows of a picture's times, and what was measured of a method at a window: nothing where it was not."""
    cost = {(method, window): cells for window, method, cells in entries}
    return list(dict.fromkeys(window for window, _, _ in entries)), lambda method, window: cost.get((method, window), ())


def show_times(lines, counts):
    for key, entries in groups(lines, 3).items():
        compared = dict(groups(counts, 3)[key])
        windows, at = columns(entries)
        present = [method for method in METHODS if any(at(method, window) for window in windows)]
        print('%s: nanoseconds per pixel\n' % named(*key))
        rows = [[window] + [median_time(at(method, window)) for method in present]
                + [ratio(at('whole, proved', window), at('whole in C', window)),
                   ratio(at('proved', window), at('queue in C', window)), median(compared[window])] for window in windows]
        growth = [ratio(at(method, windows[-1]), at(method, windows[0])) for method in present]
        more = ratio(compared[windows[-1]], compared[windows[0]])
        show(['window', *present, 'whole/C', 'proved/queue', 'comparisons'], rows + [['largest/smallest', *growth, '', '', more]])


def show_means(lines):
    print('nanoseconds per pixel, the geometric mean over the windows\n')
    rows = []
    for key, entries in groups(lines, 3).items():
        windows, at = columns(entries)
        rows.append([named(*key)] + [mean_time([at(method, window) for window in windows]) for method in MEANT])
    show(['samples, picture', *MEANT], rows)


def show_plans(lines):
    if not lines:
        return
    print('a plan of eight stages on a whole picture: its time over that of one stage, by the window\n')
    rows = {named(*key): dict(entries) for key, entries in groups(lines, 3).items()}
    windows = list(next(iter(rows.values())))
    show(['samples, picture', *windows], [[name] + ['%.2f' % statistics.median(numbers(cells[window])) for window in windows]
                                          for name, cells in rows.items()])


def show_latencies(lines):
    print('microseconds for a row: the median row and the worst\n')
    rows = []
    for (sample, picture, width, window), entries in groups(lines, 4).items():
        by_method = {method: [median(cells) for cells in both] for method, *both in entries}
        rows.append(['%s, %s, %s wide' % (sample, picture, width), window]
                    + by_method.get('proved', ['-', '-']) + by_method['queue in C'])
    show(['samples, picture', 'window', 'proved: median', 'worst', 'queue in C: median', 'worst'], rows)


def show_memory(lines):
    for (sample, width), entries in groups(lines, 2).items():
        print('%s, %s wide: bytes of working memory beside a row in and a row out\n' % (sample, width))
        show(['window', 'method', 'bytes'], [[window, method, median(cells)] for window, method, cells in entries])


if __name__ == '__main__':
    found = read(sys.argv[1:])
    show_times(found['time'], found['count'])
    if any(cell.endswith('*') for line in found['time'] for cell in line[-1]):
        print('* its answer is not the largest value of the window at every pixel\n')
    show_means(found['time'])
    show_plans(found['plan'])
    show_latencies(found['latency'])
    show_memory(found['memory'])
