#!/bin/sh
# native.sh MAIN.txt OUT.a: proves and builds the functions that MAIN.txt exports to C, and what they call, into an archive.
#
# The first line of MAIN.txt names the repository's crates that it uses. They and those below them are proved and built where
# they are not yet. The kit builds nothing that is not proved: of the functions of MAIN.txt, which promise
# nothing, it proves that they are safe where what they require holds. The compiler is the archive's, for every x86-64 processor.
set -eu
main=$1 out=$2
kit=${RATTLE_HOME:-$(dirname "$(rt doc)")}
name=$(basename "$main" .txt)
work=$(mktemp -d)
trap 'rm -rf "$work"' EXIT

libraries="--extern std=$kit/rlibs/std.rlib -L dependency=$kit/rlibs"
below() { # CRATES: these, and whatever they depend on of the repository
    awk -F: -v named="$1" '
        function visit(name,    list, n, i) {
            if (!(name in needs) || name in seen) return
            seen[name] = 1
            n = split(needs[name], list, " ")
            for (i = 1; i <= n; i++) visit(list[i])
            print name
        }
        !/^#/ { needs[$1] = $2 }
        END { count = split(named, names, " "); for (at = 1; at <= count; at++) visit(names[at]) }' crates.txt
}
for crate in $(below "$(sed -n '1s/^\/\/ crates: //p' "$main")"); do
    (cd "crates/$crate" && "$kit/bin/rt" lib) </dev/null >"$work/log" 2>&1 || { cat "$work/log"; exit 1; }
    rlib=$PWD/crates/$crate/out/rlib
    libraries="$libraries --extern $crate=$rlib/$crate.rlib -L dependency=$rlib"
done
# The file's own name is no .rt, for it belongs to no crate.
mkdir "$work/src"
cp "$main" "$work/src/lib.rt"
(cd "$work" && "$kit/bin/rattle" build --crate-name "bench_$name" src/lib.rt $libraries \
    --antt-project "$kit/rattle/logic/antt-project.json" --logic-built "$kit/logic_built" --jobs 2 --links "bench_$name=" \
    --crate-type staticlib --cpu=x86-64 --toolchain "$kit/toolchain" --backend rattle -o made.a) >"$work/log" 2>&1 ||
    { cat "$work/log"; exit 1; }
cp "$work/made.a" "$out"
