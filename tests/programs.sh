#!/bin/sh
# Proves, builds and runs each program of crates/, and compares what it writes with its file stdout: sh tests/programs.sh [NAME..]
# A program reads its file stdin, where there is one, and runs in its folder data, where there is one. The last line is 'N passed, M failed'.
set -eu
cd "$(dirname "$0")/.."
. firmware/kit.sh

top=$PWD passed=0 failed=0
[ $# -gt 0 ] || set -- $(for main in crates/*/src/main.rt; do expr "$main" : 'crates/\(.*\)/src/main.rt'; done)
for name in "$@"; do
    built "$name"
    crate=$top/crates/$name given=/dev/null status=0
    [ ! -e "$crate/stdin" ] || given=$crate/stdin
    [ ! -d "$crate/data" ] || cd "$crate/data"
    "$top/target/bin/$name" <"$given" >"$top/$made/out" 2>"$top/$made/said" || status=$?
    cd "$top"
    if [ $status -eq 0 ] && cmp -s $made/out "$crate/stdout"; then passed=$((passed + 1)); continue; fi
    failed=$((failed + 1))
    echo "$name ends with $status, and what it writes, $made/out, is not what its file stdout has:"
    cmp $made/out "$crate/stdout" || :
    cat $made/said
done
echo "$passed passed, $failed failed"
[ $failed -eq 0 ]
