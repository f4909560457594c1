#!/bin/sh
# Proves and builds the archive, and holds the question to definition.py, through C: sh tests/worn.sh [COUNT [SEED]]
# The last line is 'N passed, M failed'.
set -eu
cd "$(dirname "$0")/.."
. firmware/kit.sh

archive
program worn tests/worn.c

# The guards guard: one byte too far must be the end of the run. The call is the pair of the only row, three columns with all
# extents 0; a row lacks its last byte or its first one, or neither row is there.
numbers() { # NUMBERS..: each in 8 bytes
    for number in "$@"; do printf "\\$(printf %o "$number")\0\0\0\0\0\0\0"; done
}
beyond() { # WORD AT_BACK IS_THERE ROWS: what is there of both
    { numbers 1 "$2" "$3" 0 0 0 0 3 1 100 0 0 3 3; printf "$4"; } | $made/worn "$1"
}
guarded 'a byte past the closed row is read' beyond closed 1 1 '\5\5\5\2\4'
guarded 'a byte before the closed row is read' beyond closed 0 1 '\5\5\5\2\4'
guarded 'a byte past the input row is read' beyond input 1 1 '\5\5\5\5\2'
guarded 'a byte before the input row is read' beyond input 0 1 '\5\5\5\2\4'
guarded 'rows past their rooms are read' beyond all 1 0 ''
guarded 'rows before their rooms are read' beyond all 0 0 ''
python3 tests/worn.py "${1:-20000}" "${2:-1}" $made/worn
