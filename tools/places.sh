#!/bin/sh
# Counts the places that docs/DESIGN-PASS.md speaks of, by patterns, in the crates of a checkout.
#
#   tools/places.sh [TOP]           a line for each point: its kinds of places, and all of them together
#   tools/places.sh TOP crates      a table: for each crate, the places of each point
#   tools/places.sh TOP kinds       a table: for each kind, its places and where they are
#   tools/places.sh TOP list [N]    the places themselves, of point N alone where it is given
#
# docs/DESIGN-PASS.md says what each kind is. tools/places.py counts in another way, by reading functions.
set -eu
export LC_ALL=C.UTF-8
top=${1:-.} how=${2:-points} point=${3:-.}
work=$(mktemp -d)
trap 'rm -rf "$work"' EXIT
cd "$top"
find crates/*/src -name '*.rt' | sort > "$work/files"

# FILE:LINE: TEXT of each line of code: no comments, no ghost lines, no clauses.
xargs awk '!/^ *(\/\/|ghost |requires|ensures|×|#!)/ { print FILENAME ":" FNR ": " $0 }' < "$work/files" > "$work/code"
# The same of each function's head, in one line: its signature and its clauses.
xargs awk '
    /^ *(pub )?(unsafe )?(extern "C" )?fn / { at = FILENAME ":" FNR; head = ""; on = 1 }
    on && /;$/ { on = 0 }
    on { line = $0; sub(/^ +/, "", line); head = head " " line }
    on && /\{$/ && !/^ *(requires|ensures|×)/ { on = 0; print at ":" head }' < "$work/files" > "$work/heads"
# The same of each struct and enum, with the attributes before it.
xargs awk '
    /^#\[/ { said = said $0 " " }
    /^(pub )?(struct|enum) / { at = FILENAME ":" FNR; text = said; on = 1 }
    on { text = text " " $0 }
    on && /^}|;$/ { on = 0; print at ": " text }
    !/^#\[/ && !on { said = "" }' < "$work/files" > "$work/types"
find crates/*/proofs -name '*.antt' 2>/dev/null | sort > "$work/proofs"
xargs awk '!/^ *--/ { print FILENAME ":" FNR ": " $0 }' < "$work/proofs" > "$work/said"

# place N KIND: names what comes in a place of that point and kind.
place() { sed "s|^crates/|$1 $2 |"; }
heads() { grep -E -- "$1" "$work/heads" || true; }
code() { grep -E -- "$1" "$work/code" || true; }
types() { grep -E -- "$1" "$work/types" || true; }
said() { grep -E -- "$1" "$work/said" || true; }
and() { grep -E -- "$1" || true; }
but() { grep -vE -- "$1" || true; }
names() { grep -ohE '^(pub )?fn [a-z_0-9]+' "$@" | sed 's/.*fn //' | sort; }

refusals() {
    heads '-> u8' | and 'fn (judge|kelafshir_)|number|size_in' | but 'fn (byte|kind)_' | place 1 numbers
    code '(number|told|judge[a-z_]*\(.*\)) [!=]= 0 \{' | place 1 tests
    types 'pub struct .* number: u8,' | place 1 beside
    types 'enum .* (Refused|Failed|Lost|NotYet)\b' | place 1 shapes
    heads '\b(kind|sample): u8' | place 1 kinds
    types '\b(kind|sample): u8' | place 1 kinds
    types ': bool,' | place 1 flags
}

# A place is a function whose like stands under the same name in the other crate or file, counted once for both.
twins() {
    for rate in crates/*_rate; do
        grey=${rate%_rate}_grey
        [ -d "$grey" ] || continue
        names "$grey"/src/*.rt > "$work/a"
        names "$rate"/src/*.rt | comm -12 "$work/a" - | sed "s|^|$rate/src: fn |" | place 2 crates
    done
    for rate in crates/*/src/rate*.rt; do
        grey=$(echo "$rate" | sed 's|/rate\([a-z_]*\)\.rt|/grey\1.rt|')
        [ -f "$grey" ] || continue
        names "$grey" > "$work/a"
        names "$rate" | comm -12 "$work/a" - | sed "s|^|$rate: fn |" | place 2 files
    done
    heads 'fn ([a-z]+_most|(of|up_to|no|next)_(rates?|floats|positions|numbers|columns?|rows?))\(' | place 2 names
    types '(struct|enum) ' | sed 's|crates/\([a-z_]*\)_rate/|crates/\1_rate/ |' | and '_rate/ ' | place 2 types
}

loops() {
    code '^[^ ]+ +while ' | place 3 while
}

conversions() {
    code '[a-z0-9)] as (usize|u8|u16|u32|u64)\b' | place 4 casts
    code '\b(wide|narrow)\(' | but 'fn (wide|narrow)' | place 4 wide
    heads '\([a-z]+: u8\) -> [A-Z]|\([a-z]+: [A-Z][A-Za-z]*\) -> u8' | but 'fn judge' | place 4 kinds
    code '[*/%] (256|65536|16777216)\b' | place 4 bytes
    code '^[^ ]+ +[a-z_]+\[[a-z_]+( \+ [a-z_]+)?\] = ([a-z_]+\[[a-z_]+( \+ [a-z_]+)?\]|0(\.0)?);' | place 4 copies
    code 'if ([a-z_]+) <=? ([a-z_]+) \{ (\1|\2) \} else \{ (\1|\2) \}' | place 4 least
    types '(struct|enum) ' | but 'derive\([^)]*Debug' | place 4 derives
    code '^[^ ]+ +([a-z_]+): \1,$' | place 4 again
    code '\b(text|number|byte|position|hex|float|floats|bytes|positions|numbers|refused|not_yet)\(rt, ' | place 4 prints
}

parameters() {
    heads 'values: .*positions: .*starts: .*lengths: ' | place 5 memory
    heads '\(.*\bleft: u8, right: u8, up: u8, down: u8' | place 5 extents
    heads '\(.*\bkind: [a-zA-Z0-9]+, left: u8, right: u8, pixels: ' | place 5 line
    heads '\(.*\bstart: usize, count: usize' | place 5 ends
    heads '\(.*\bback: usize, ahead: usize' | place 5 reach
    heads '\(.*\bwidth: usize, rows: usize' | place 5 size
    heads 'origin_rows: .*origin_columns: ' | place 5 origins
    heads '\b(row|came): &mut \[f32\].*\bcame: |frame: .*\bcame: |came: .*frame: ' | place 5 frames
    # facts: a part of a clause that stands in three functions or more, one place for each function
    sed 's/^\([^:]*:[0-9]*\):.* fn \([a-z_0-9]*\).*\(requires {\)/\1 \2 \3/' "$work/heads" | grep 'requires {' | sed 's/ ensures .*//; s/ requires {/ × /' | awk -F ' × ' '
        { for (i = 2; i <= NF; i++) { f = $i; gsub(/\.(old|now|new)/, "", f); gsub(/^[ (]+|[ ){}]+$/, "", f); if (f != "") { n[f]++; at[f] = at[f] $1 "\n" } } }
        END { for (f in n) if (n[f] >= 3) { k = split(at[f], w, "\n"); for (i = 1; i < k; i++) { split(w[i], p, " "); print p[1] ": fn " p[2] ": " f } } }' | sort | place 5 facts
}

buffers() {
    heads '&(.a )?(mut )?\[.*requires \{[^}]*([( ][a-z]+ [≤<] length |length [a-z]+\.(old|now) ≡ [a-z]+( \*|\)| \}))' | place 6 lengths
    heads '&(.a )?(mut )?\[' | and '\b(at|from|lo|behind): usize' | place 6 places
    heads 'length [a-z_]+\.(old|now) ≡ length [a-z_]+\.(old|now)' | place 6 parallel
    types 'struct .*: \[[A-Za-z0-9]+; .*(count|have|length): usize|struct .*(count|have|length): usize.*: \[' | place 6 records
    heads '-> \[[a-z0-9]+; [0-9]+\]' | place 6 blanks
}

switches() {
    code 'Kind::Erosion => [a-z_:]+\(' | but 'wide\(' | place 7 arms
    code 'match (which|group|phase|op)\b' | place 7 matches
    heads '\((.*[ (])?[a-z_]+: bool' | place 7 flags
}

proofs() {
    said '/Answers.antt:[0-9]+: (pub )?[^ ]+ : goal\.' | place 8 answers
    said '/Answers.antt:[0-9]+: [^ ]+ [^ ]+ = ((omega|grind|search|cc)( [a-z]+)?|refl|[a-z]+(\.[-A-Za-z0-9_]+)+)$' | place 8 short
    said '/Answers.antt:[0-9]+: +let [-a-z0-9_]+ = [-a-z0-9_]+ in$' | place 8 steps
    said '/Answers.antt:[0-9]+: (pub )?[^ ]+ : ' | but ' : goal\.' | place 8 helpers
    said ': use (mathlib|native|lib|borrow|Prim)\.' | place 8 paths
}

{ refusals; twins; loops; conversions; parameters; buffers; switches; proofs; } > "$work/places"
case $how in
points)
    awk '!($1 $2 in n) { kinds[$1] = kinds[$1] " " $2 } { n[$1 $2]++; all[$1]++ }
        END { for (p = 1; p <= 8; p++) { k = split(kinds[p], kind, " "); line = p ":"; for (i = 1; i <= k; i++) line = line " " kind[i] " " n[p kind[i]] ","; print line " together " all[p] + 0 } }' "$work/places" ;;
crates)
    echo '| crate | 1 | 2 | 3 | 4 | 5 | 6 | 7 | 8 |'
    echo '|---|---:|---:|---:|---:|---:|---:|---:|---:|'
    awk '{ c = $3; sub(/\/.*/, "", c); crates[c] = 1; n[c $1]++; all[$1]++ }
        function row(name, c, of,  p, line) { line = "| " name " |"; for (p = 1; p <= 8; p++) line = line " " of[c p] " |"; return line }
        END { for (c in crates) print row("`" c "`", c, n) | "sort"; close("sort"); print row("together", "", all) }' "$work/places" ;;
kinds)
    echo '| point | kind | places | crates |'
    echo '|---|---|---:|---|'
    awk '{ c = $3; sub(/\/.*/, "", c); k = $1 " " $2; if (!(k in all)) order[++kinds] = k; if (!((k, c) in n)) where[k] = where[k] " " c; n[k, c]++; all[k]++ }
        END { for (i = 1; i <= kinds; i++) { k = order[i]; m = split(where[k], w, " "); line = ""; for (j = 1; j <= m; j++) line = line (j > 1 ? ", " : "") w[j] " " n[k, w[j]]; split(k, p, " "); print "| " p[1] " | " p[2] " | " all[k] " | " line " |" } }' "$work/places" ;;
list)
    grep -E "^$point " "$work/places" ;;
*)
    sed -n '2,9s/^# \{0,1\}//p' "$0" >&2
    exit 64 ;;
esac
