#!/bin/sh
# Proves and builds the archive, and holds a job in memory to definition.py, through C: sh tests/memory.sh [COUNT [SEED]]
# The last line is 'N passed, M failed'.
set -eu
cd "$(dirname "$0")/.."
. firmware/kit.sh

archive
program memory tests/memory.c

# The guards guard: one byte too far must be the end of the run. The job is document 01's whole case without its last byte.
beyond() {
    printf '\16\0\0\0\0\0\0\0\14\0\0\0\0\0\0\0\0\0\0\0\0\0\0\0\1\1\1\0\0\0\0\3\0\1\0\5\2' | $made/memory beyond
}
guarded 'a byte past the job is read' beyond
python3 tests/memory.py "${1:-20000}" "${2:-1}" $made/memory
