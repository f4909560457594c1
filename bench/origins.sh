#!/bin/sh
# Measures what asking for origins costs: the proved calls that do not ask beside those that do, in one process and in turns.
#
#     bench/origins.sh [ROUNDS [PROCESSES]]   rounds, 9 where it is not given, in each of PROCESSES processes, 7 where it is not given
#
# A line for each kind of samples, picture and window: nanoseconds a pixel of both, and their ratio, which is taken within a
# round; medians over the rounds of a process and then over the processes. Both have to give the same bytes and comparisons,
# and the last row's origins are those of a plain loop, or it stops. Needs the kit and a C compiler for this machine, cc.
set -eu
cd "$(dirname "$0")/.."
made=target/origins
mkdir -p $made
bench/native.sh bench/origins.txt $made/proved.a
cc -std=c99 -O2 -Wall -Wextra -o $made/origins bench/origins.c $made/proved.a
: >$made/results
process=0
while [ $process -lt "${2:-7}" ]; do
    $made/origins "${1:-9}" >>$made/results
    process=$((process + 1))
done
python3 - $made/results <<'END'
import statistics, sys
rows = {}
for line in open(sys.argv[1]):
    *key, plain, asked, ratio = line.split()
    rows.setdefault(tuple(key), []).append((float(plain), float(asked), float(ratio)))
print('samples picture window  plain  asked  ratio')
for key, runs in rows.items():
    plain, asked, ratio = (statistics.median(column) for column in zip(*runs))
    print(f'{key[0]:7} {key[1]:7} {key[2]:>6} {plain:6.2f} {asked:6.2f}  {ratio:5.3f}')
END
