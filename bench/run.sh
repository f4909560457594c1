#!/bin/sh
# Measures the proved code, streaming and on whole pictures, against the same methods in C, van Herk's method in C and what
# other libraries are installed, and prints tables. bench/README.md says what is measured and what the libraries are called.
#
#     bench/run.sh [RUNS [PROCESSES]]   RUNS rounds, 5 where it is not given, in each of PROCESSES processes, 7 where it is not given
#     PYTHON=..                         the Python that sees the libraries, python3 where it is not given
#
# Needs the kit and a C compiler for this machine, cc. The proved code is measured where bench/main.txt is there.
set -eu
cd "$(dirname "$0")/.."
kit=${RATTLE_HOME:-$(dirname "$(rt doc)")}
made=target/bench
mkdir -p $made/include $made/pictures

# (p) The proved code: main.txt, whose first line names the crates that it uses.
proved=
if [ -f bench/main.txt ]; then
    bench/native.sh bench/main.txt $made/proved.a
    # What is named weakly is taken from an archive only where all is.
    proved="-Wl,--whole-archive $made/proved.a -Wl,--no-whole-archive"
fi

# (a), (b), (w) The methods in C, by the kit's compiler, which has no headers of its own.
printf '#pragma once\ntypedef __UINT8_TYPE__ uint8_t;\ntypedef __UINT16_TYPE__ uint16_t;\ntypedef __UINT32_TYPE__ uint32_t;\n' >$made/include/stdint.h
printf '#pragma once\ntypedef __SIZE_TYPE__ size_t;\n' >$made/include/stddef.h
"$kit/toolchain/bin/clang" --target=x86_64-unknown-linux-gnu -std=c99 -O3 -fPIC -ffreestanding -isystem $made/include -Wall -Wextra -Werror \
    -c bench/methods.c -o $made/methods.o
cc -std=c99 -O2 -Wall -Wextra -Ibench -o $made/bench bench/bench.c $made/methods.o $proved -lm

# Where a process's stack lies against the rest of its memory moves a time, at some places by more than a quarter: so several processes,
# and the medians over them.
: >$made/results
process=0
while [ $process -lt "${2:-7}" ]; do
    $made/bench $made/pictures "${1:-5}" >>$made/results
    process=$((process + 1))
done
# (c) The other libraries.
"${PYTHON:-python3}" bench/others.py $made/pictures $made/results >$made/others
"${PYTHON:-python3}" bench/table.py $made/results $made/others
