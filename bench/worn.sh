#!/bin/sh
# Measures what a pair of rows costs a question, beside the row's residue alone; and whole pictures, of a question that never
# says yes and of one that says it at row 10 of 1,000, beside adding up the residues. In one process and in turns.
#
#     bench/worn.sh [ROUNDS [PROCESSES [archive]]]   rounds, 41 where not given, in each of PROCESSES processes, 12 where not
#                                                    given; archive: the calls that C programs link
#
# A line for each width: nanoseconds a row, or a picture, and the ratio of the question that never says yes to the residue,
# which is taken within a round; medians over the rounds of a process and then over the processes. The proved code lies at
# four places within 64 bytes, a process each in turn, as that moves the times; the last two numbers are the ratio where it
# is least and where it is most. The rows after a yes lie in memory that the process may not read. Every answer is compared
# with a plain loop's, or it stops. Needs the kit and a C compiler for this machine, cc; the archive is what
# `sh firmware/archive.sh` wrote.
set -eu
cd "$(dirname "$0")/.."
made=target/worn
proved=$made/proved.a calls=
mkdir -p $made
if [ "${3:-}" = archive ]; then
    proved=target/staticlib/libfirmware.a calls=-DFROM_C
else
    bench/native.sh bench/worn.txt $proved
fi
for place in 0 16 32 48; do
    printf '.text\n.balign 64\n.fill %d\n.section .note.GNU-stack,"",%%progbits\n' $((place + 64)) >$made/place.s
    cc -std=c99 -O2 -Wall -Wextra $calls -o $made/worn$place bench/worn.c $made/place.s $proved
done
: >$made/results
process=0
while [ $process -lt "${2:-12}" ]; do
    place=$((process % 4 * 16))
    $made/worn$place "${1:-41}" >$made/result
    sed "s/^/$place /" $made/result >>$made/results
    process=$((process + 1))
done
python3 - $made/results <<'END'
import statistics, sys
rows = {}
for line in open(sys.argv[1]):
    place, what, width, *numbers = line.split()
    rows.setdefault((what, width), {}).setdefault(place, []).append([float(number) for number in numbers])

def medians(runs):
    return [statistics.median(column) for column in zip(*runs)]

heads = {'row': ('alone', 'pair', 'after yes', 'pair/alone'), 'picture': ('sum', 'never', 'yes, on', 'yes, stop', 'never/sum')}
headed = None
for (what, width), places in rows.items():
    if what != headed:
        print(f'{what:7} width' + ''.join(f'{head:>12}' for head in heads[what] + ('least', 'most')))
    headed = what
    *times, ratio = medians(sum(places.values(), []))
    by_place = [medians(runs)[-1] for runs in places.values()]
    print(f'{width:>13}' + ''.join(f'{time:12.1f}' for time in times) + f'{ratio:12.3f}{min(by_place):12.3f}{max(by_place):12.3f}')
END
