#!/bin/sh
# Proves and builds the archive, builds the tests of the one-row filters, of the dark residue and of the question about it
# and the five examples over it with the kit's own compiler, and runs them, on x86-64. The last line is 'N passed, M failed'.
set -eu
cd "$(dirname "$0")/.."
. firmware/kit.sh

archive
compile c++ c++11 firmware/kelafshir.h -fsyntax-only
for name in test test_dark test_worn bench job picture dark worn; do program $name firmware/$name.c; done

# The guards guard: one byte or position too far must be the end of the run.
guarded 'a byte past the row is read' $made/test beyond
guarded 'a position past the row of positions is written' $made/test beyond positions
for room in closed input sum; do
    guarded "the residue takes a place past the room of '$room'" $made/test_dark $room
    guarded "the residue takes a place before the room of '$room'" $made/test_dark $room before
done
for room in closed input; do
    guarded "the question takes a byte past the room of '$room'" $made/test_worn $room
    guarded "the question takes a byte before the room of '$room'" $made/test_worn $room before
done

# The example: line P of document 01 dilated with left 1, right 2, twice; then a row cut short, which is 13.
line_p='\3\1\4\1\5\11\2\6'
twice=$(printf "$line_p$line_p" | $made/bench 1 1 2 8 | od -An -v -tu1 | tr -d ' \n')
[ "$twice" = 3445999934459999 ] || { echo "the example gives $twice"; exit 1; }
example=bench usage='bench KIND LEFT RIGHT WIDTH < rows > filtered'
ends_with() { # STATUS ROWS WORDS..: how the example ends
    due=$1 rows=$2; shift 2
    status=0; printf "$rows" | $made/$example "$@" >$made/out 2>$made/said || status=$?
    [ $status -eq $due ] || { echo "$example ends with $status, not with $due, on the words '$*'"; exit 1; }
}
ends_with 13 '\3\1\4' 1 1 2 8
# A word that is not a number gives the usage text and 64; a number that is too large is refused as such, however large it is.
misused() { # WORDS..
    ends_with 64 "$line_p" "$@"
    [ ! -s $made/out ] && [ "$(cat $made/said)" = "$usage" ] || { echo "$example gives more or less than its usage text on the words '$*'"; exit 1; }
}
for word in 8x x 1x2 '' ' 1' '1 ' +1 -1 0x1 1.0; do
    misused "$word" 1 2 8; misused 1 "$word" 2 8; misused 1 1 "$word" 8; misused 1 1 2 "$word"
done
misused; misused 1 1 2; misused 1 1 2 8 8
for large in 256 65536 4294967297 18446744073709551617; do
    ends_with 2 "$line_p" $large 1 2 8; ends_with 3 "$line_p" 1 $large 2 8; ends_with 3 "$line_p" 1 1 $large 8
done
for width in 0 65536 65537 4294967304 18446744073709551624; do ends_with 4 "$line_p" 1 1 2 $width; done

# The second example: document 01's whole case, and the same job without its last byte, which is 13.
whole=$(printf '\1\1\1\0\0\0\0\3\0\1\0\5\2\7' | $made/job | od -An -v -tx1 | tr -d ' \n')
[ "$whole" = 020003000100010507070000 ] || { echo "the job gives $whole"; exit 1; }
status=0; printf '\1\1\1\0\0\0\0\3\0\1\0\5\2' | $made/job >>$made/log || status=$?
[ $status -eq 13 ] || { echo "the job ends with $status where its row is cut short"; exit 1; }

# The third example: a square of 3 pixels a side stays, a dot of one goes. What it refuses it does not write.
example=picture usage='picture WIDTH HALF < picture > opened'
square='\11\11\11\0\0\0\11\11\11\0\7\0\11\11\11\0\0\0'
ends_with 0 "$square" 6 1
opened=$(od -An -v -tu1 $made/out | tr -d ' \n')
[ "$opened" = 999000999000999000 ] || { echo "the picture is opened to $opened"; exit 1; }
refused() { # STATUS PICTURE WORDS..
    ends_with "$@"
    [ ! -s $made/out ] || { echo "$example writes what it refuses with $1"; exit 1; }
}
refused 3 "$square" 6 32; refused 4 "$square" 0 1; refused 4 "$square" 4097 1; refused 4 '' 6 1; refused 7 "$square\1" 6 1
for large in 65536 4294967302 18446744073709551622; do refused 3 "$square" 6 $large; refused 4 "$square" $large 1; done
misused; misused 6; misused 6 1 1; misused 6 -1; misused x 1
status=0; head -c 1048577 /dev/zero | $made/picture 1024 1 >$made/out || status=$?
[ $status -eq 6 ] && [ ! -s $made/out ] || { echo "a picture that is too long for the example ends with $status"; exit 1; }

# The fourth example: the dark ends of a rod, cut by the picture's edge, do not count, and a pit of 5 in the 9 does. What is told is a
# number and a line feed; where the band is empty it is 21 and nothing is told.
example=dark usage='dark WIDTH HALF < picture'
end='\0\11\11\11\11\11\11\0' pit='\0\11\11\11\5\11\11\0'
ends_with 0 "$end$end$pit$end$end$end" 8 1
[ "$(od -An -v -tx1 $made/out | tr -d ' \n')" = 340a ] || { echo "the residue is told as $(cat $made/out)"; exit 1; }
ends_with 0 "$end$end$pit$end$end$end" 8 0
[ "$(cat $made/out)" = 0 ] || { echo "the residue with no extents is told as $(cat $made/out)"; exit 1; }
refused 21 "$end$end$pit$end" 8 1; refused 21 "$end$end$pit$end$end$end" 8 2; refused 21 '\1\2\3\4' 4 1
refused 3 "$end" 8 32; refused 4 "$end" 0 1; refused 4 "$end" 4097 1; refused 4 '' 8 1; refused 7 "$end\1" 8 1
misused; misused 8; misused 8 1 1; misused 8 -1; misused x 1
status=0; head -c 1048577 /dev/zero | $made/dark 1024 1 >$made/out || status=$?
[ $status -eq 6 ] && [ ! -s $made/out ] || { echo "a picture that is too long for the residue's example ends with $status"; exit 1; }

# The fifth example: two pits of 5 in the 9, in rows 2 and 3, which add 4 each. A residue that equals the limit is not over it, and no
# limit is too large to be taken.
example=worn usage='worn WIDTH HALF LIMIT < picture' pits="$end$end$pit$pit$end$end$end"
answers() { # TEXT PICTURE WORDS..: with this line
    text=$1; shift
    ends_with 0 "$@"
    [ "$(cat $made/out; echo end)" = "$text
end" ] || { echo "$example answers '$(cat $made/out)' and not '$text'"; exit 1; }
}
answers 'yes, after row 2' "$pits" 8 1 0; answers 'yes, after row 2' "$pits" 8 1 3; answers 'yes, after row 3' "$pits" 8 1 4
answers 'yes, after row 3' "$pits" 8 1 7; answers no "$pits" 8 1 8; answers no "$pits" 8 0 0
for large in 68449996800 68449996801 4294967296 18446744073709551615 18446744073709551616 18446744073709551617 184467440737095516160; do
    answers no "$pits" 8 1 $large
done
refused 21 "$end$end$pit$end" 8 1 0; refused 21 "$pits" 8 2 0; refused 21 '\1\2\3\4' 4 1 0
refused 3 "$end" 8 32 0; refused 4 "$end" 0 1 0; refused 4 "$end" 4097 1 0; refused 4 '' 8 1 0; refused 7 "$end\1" 8 1 0
misused; misused 8; misused 8 1; misused 8 1 1 1; misused x 1 1; misused 8 -1 1
for word in 8x '' ' 1' -1 0x1 1.0; do misused 8 1 "$word"; done
status=0; head -c 1048577 /dev/zero | $made/worn 1024 1 0 >$made/out || status=$?
[ $status -eq 6 ] && [ ! -s $made/out ] || { echo "a picture that is too long for the question's example ends with $status"; exit 1; }

# The tests, and their counts added up.
passed=0 failed=0
for name in test test_dark test_worn; do
    status=0; $made/$name >$made/said || status=$?
    counts=$(sed -n '$s/^\([0-9][0-9]*\) passed, \([0-9][0-9]*\) failed$/\1 \2/p' $made/said)
    [ -n "$counts" ] && [ $status -le 1 ] || { cat $made/said; echo "$name ends with $status"; exit 1; }
    sed '$d' $made/said
    passed=$((passed + ${counts% *})) failed=$((failed + ${counts#* }))
done
echo "$passed passed, $failed failed"
[ $failed -eq 0 ]
