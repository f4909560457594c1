#!/bin/sh
# Measures what a row's dark residue costs: the proved call over all columns, over those of a band, and of a row outside the
# band, beside the call that had no band and the same in C, in one process and in turns.
#
#     bench/dark.sh [ROUNDS [PROCESSES]]   rounds, 41 where not given, in each of PROCESSES processes, 7 where not given
#
# Two lines for each width: nanoseconds a row, and a pixel of the row, counted or not; beside them the ratios to the call
# without a band, and of the call over all columns to the C, which are taken within a round; medians over the rounds of a
# process and then over the processes. Every answer is compared with a plain loop's, or it stops. The extents of the band are
# 15, so that 30 columns at each side are not counted. Needs the kit and a C compiler for this machine, cc.
set -eu
cd "$(dirname "$0")/.."
kit=${RATTLE_HOME:-$(dirname "$(rt doc)")}
made=target/dark
mkdir -p $made/include
bench/native.sh bench/dark.txt $made/proved.a
# The kit's compiler has no headers of its own.
printf '#pragma once\ntypedef __UINT8_TYPE__ uint8_t;\ntypedef __UINT32_TYPE__ uint32_t;\n' >$made/include/stdint.h
printf '#pragma once\ntypedef __SIZE_TYPE__ size_t;\n' >$made/include/stddef.h
"$kit/toolchain/bin/clang" --target=x86_64-unknown-linux-gnu -std=c99 -O3 -fPIC -ffreestanding -isystem $made/include -Wall -Wextra -Werror \
    -c bench/residue.c -o $made/residue.o
cc -std=c99 -O2 -Wall -Wextra -o $made/dark bench/dark.c $made/residue.o $made/proved.a
: >$made/results
process=0
while [ $process -lt "${2:-7}" ]; do
    $made/dark "${1:-41}" >>$made/results
    process=$((process + 1))
done
python3 - $made/results <<'END'
import statistics, sys
rows = {}
for line in open(sys.argv[1]):
    width, *numbers = line.split()
    rows.setdefault(int(width), []).append(numbers)

def told(value, places):
    return '-' if value is None else f'{value:.{places}f}'

print('width  a        before  all columns     band  outside     in C   all/before band/before outside/before all/C')
for width, runs in rows.items():
    medians = [None if '-' in column else statistics.median(map(float, column)) for column in zip(*runs)]
    times, ratios = medians[:5], medians[5:]
    row, pixel = [told(t, 1) for t in times], [told(t and t / width, 3) for t in times]
    a, b, c, d = (told(r, 3) for r in ratios)
    print(f'{width:5}  row   {row[0]:>9} {row[1]:>12} {row[2]:>8} {row[3]:>8} {row[4]:>8}   {a:>10} {b:>11} {c:>14} {d:>5}')
    print(f'{"":5}  pixel {pixel[0]:>9} {pixel[1]:>12} {pixel[2]:>8} {pixel[3]:>8} {pixel[4]:>8}')
END
