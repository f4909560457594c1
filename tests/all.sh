#!/bin/sh
# All the tests that a contributor runs, one part after the other: sh tests/all.sh
#
# Each part's last line is shown under its name. A part ends with 'N passed, M failed', and its counts are added up; rt all check has no
# such line and counts as one. A part that ends otherwise, or with a status other than 0, counts as failed, and all that it said is shown.
# The last line is 'N passed, M failed', and the status is 0 where nothing failed.
set -u
cd "$(dirname "$0")/.." || exit 1
said=$(mktemp) || exit 1
trap 'rm -f "$said"' EXIT
trap 'exit 1' HUP INT TERM
passed=0 failed=0

run() { # COMMAND..: leaves its status, its last line, and all that it said
    echo "$*"
    status=0; "$@" </dev/null >"$said" 2>&1 || status=$?
    last=$(tail -n 1 "$said")
    echo "    $last"
}

add() { # PASSED FAILED: what the part adds to the counts; where something failed, what it said is shown
    passed=$((passed + $1)) failed=$((failed + $2))
    [ "$2" -eq 0 ] || { echo "    failed, with status $status:"; sed 's/^/    | /' "$said"; }
}

proved() { # COMMAND..: a part that counts as one
    run "$@"
    if [ $status -eq 0 ]; then add 1 0; else add 0 1; fi
}

counted() { # COMMAND..: a part that ends with its counts
    run "$@"
    counts=$(printf '%s\n' "$last" | sed -n 's/^\([0-9][0-9]*\) passed, \([0-9][0-9]*\) failed$/\1 \2/p')
    if [ -z "$counts" ]; then add 0 1
    elif [ $status -ne 0 ] && [ "${counts#* }" -eq 0 ]; then add "${counts% *}" 1
    else add "${counts% *}" "${counts#* }"; fi
}

proved rt all check
counted sh tests/programs.sh
counted python3 tests/check.py --self
counted python3 tests/check.py 300
counted sh firmware/test.sh
counted sh tests/memory.sh 500
counted python3 tests/whole.py --self
counted sh tests/whole.sh 500
counted python3 tests/dark.py --self
counted sh tests/dark.sh 500
counted python3 tests/worn.py --self
counted sh tests/worn.sh 500
counted python3 tests/belts.py --self
counted sh tests/belts.sh 100
counted python3 tests/origins.py --self
counted sh tests/origins.sh 100
counted python3 tests/tool.py --program ./kelafshir
counted python3 tests/first_hour.py
echo "$passed passed, $failed failed"
[ $failed -eq 0 ]
