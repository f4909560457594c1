#!/bin/sh
# Proves and builds the archive, and holds the filters of whole pictures to definition.py, through C: sh tests/whole.sh [COUNT [SEED]]
# The last line is 'N passed, M failed'.
set -eu
cd "$(dirname "$0")/.."
. firmware/kit.sh

archive
program whole tests/whole.c

# The guards guard: one byte too far must be the end of the run. The call is document 01's whole case without one of its bytes, the
# last one or the first, of the stages, the picture or the lent row.
numbers() { # NUMBERS..: each in 8 bytes
    for number in "$@"; do printf "\\$(printf %o "$number")\0\0\0\0\0\0\0"; done
}
beyond() { # WORD AT_BACK STAGES PICTURE ROW: what is there of each
    { numbers 0 "$2" 1 3 1 3 3; printf "$3$4$5"; } | $made/whole "$1"
}
guarded 'a byte past the stages is read' beyond stages 1 '\1\1\0\0' '\5\2\7' '\0\0\0'
guarded 'a byte past the picture is read' beyond picture 1 '\1\1\0\0\0' '\5\2' '\0\0\0'
guarded 'a byte past the lent row is written' beyond row 1 '\1\1\0\0\0' '\5\2\7' '\0\0'
guarded 'a byte before the stages is read' beyond stages 0 '\1\0\0\0' '\5\2\7' '\0\0\0'
guarded 'a byte before the picture is read' beyond picture 0 '\1\1\0\0\0' '\2\7' '\0\0\0'
guarded 'a byte before the lent row is written' beyond row 0 '\1\1\0\0\0' '\5\2\7' '\0\0'
python3 tests/whole.py "${1:-20000}" "${2:-1}" $made/whole
