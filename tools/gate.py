#!/usr/bin/env python3
"""Prints a table from what the gate said: which crates are proved, and how many edits of each were refused.

    .ci/run 2>&1 | tee log; python3 tools/gate.py log
"""
import collections
import pathlib
import re
import sys

CRATES = pathlib.Path(__file__).resolve().parent.parent / 'crates.txt'


def main(path):
    said = open(path, encoding='utf-8').read()
    proved = set(re.findall(r'^rt: (\w+) (?:proved$|is kept: )', said, re.M))
    refused = collections.Counter(re.findall(r'^rt: must-fail (\w+)/[^:]*: refused, as it must be', said, re.M))
    order = [re.match(r'\w+', line)[0] for line in CRATES.read_text(encoding='utf-8').splitlines() if re.match(r'\w', line)]
    if missing := [name for name in order if name not in proved]:
        sys.exit('not proved in this run: ' + ', '.join(missing))
    print('| crate | edits refused |\n|---|---:|')
    for name in order:
        print('| `%s` | %s |' % (name, refused[name] or ''))
    print('| together | %d |' % sum(refused.values()))


if __name__ == '__main__':
    if len(sys.argv) != 2:
        sys.exit(__doc__)
    main(sys.argv[1])
