#!/bin/sh
# Proves and builds the archive, and holds the dark residue to definition.py, through C: sh tests/dark.sh [COUNT [SEED]]
# The last line is 'N passed, M failed'.
set -eu
cd "$(dirname "$0")/.."
. firmware/kit.sh

archive
program dark tests/dark.c

# The guards guard: one place too far must be the end of the run. The call is row 0 of 1, three columns with all extents 0;
# a row lacks its last byte or its first one, or there is no place for the sum.
numbers() { # NUMBERS..: each in 8 bytes
    for number in "$@"; do printf "\\$(printf %o "$number")\0\0\0\0\0\0\0"; done
}
beyond() { # WORD AT_BACK CLOSED INPUT SUM: what is there of each
    { numbers "$2" 0 0 0 0 0 1 3 3; printf "$3$4$5"; } | $made/dark "$1"
}
place='\0\0\0\0\0\0\0\0'
guarded 'a byte past the closed row is read' beyond closed 1 '\5\5' '\5\2\4' "$place"
guarded 'a byte before the closed row is read' beyond closed 0 '\5\5' '\5\2\4' "$place"
guarded 'a byte past the input row is read' beyond input 1 '\5\5\5' '\5\2' "$place"
guarded 'a byte before the input row is read' beyond input 0 '\5\5\5' '\2\4' "$place"
guarded 'a sum past its room is written' beyond sum 1 '\5\5\5' '\5\2\4' ''
guarded 'a sum before its room is written' beyond sum 0 '\5\5\5' '\5\2\4' ''
python3 tests/dark.py "${1:-20000}" "${2:-1}" $made/dark
