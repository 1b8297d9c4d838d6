#!/bin/sh
# Runs the example programs that were built into the folder given, and holds what
# they print against what they should. The last line is 'N passed, M failed'.
set -u
built=$1
here=$(dirname "$0")/..
work=$(mktemp -d) || exit 1
trap 'rm -rf "$work"' EXIT
passed=0 failed=0

# Runs an example.
run() { # NAME WORDS...
    example=$1
    shift
    "$here/tests/on-x86" "$built/$example" "$@"
}

verdict() { # NAME STATUS
    if [ "$2" -eq 0 ]; then
        echo "ok     $1"
        passed=$((passed + 1))
    else
        echo "FAILED $1"
        failed=$((failed + 1))
    fi
}

# Are the two files alike, and not empty?
same() { # NAME FILE FILE
    [ -s "$2" ] && cmp "$2" "$3"
    verdict "$1" $?
}

# Does the command say on the standard error stream exactly this, print nothing,
# and end with status 1?
refuses() { # NAME LINE COMMAND...
    name=$1 line=$2
    shift 2
    "$@" >"$work/printed" 2>"$work/said"
    [ $? -eq 1 ] && [ ! -s "$work/printed" ] && [ "$(cat "$work/said")" = "$line" ]
    verdict "$name" $?
}

# ---- pbm

pbm() { run pbm "$@"; }
sheet() { pbm sheet; }
picture() { pbm picture; }

# A plain picture as a sheet file in octal, so that it can be compared in a line.
octal_sheet() { printf '%b' "$1" | sheet | od -An -v -t o1 | tr -d ' \n'; }

# One black pixel in the north-east of four; sheet A's 32 bytes.
corner=121123001005000121116002121116000121116001121116000121116000
sheet_a=121123002011000121116002121116001121116002121116000121116000121116000121116001121116000121116000

gives_sheet() { # NAME OCTAL PICTURE
    [ "$(octal_sheet "$3")" = "$2" ]
    verdict "$1" $?
}

pbm_there_and_back() {
    sheet <"$here/examples/ponds.pbm" >"$work/ponds.sheet"
    picture <"$work/ponds.sheet" >"$work/ponds.pbm"
    same "the ponds as a sheet and back" "$here/examples/ponds.pbm" "$work/ponds.pbm"
    sheet <"$work/ponds.pbm" >"$work/again.sheet"
    same "one file for each picture" "$work/ponds.sheet" "$work/again.sheet"
}

# The largest picture has rows that are longer than a line.
pbm_largest() {
    awk 'BEGIN { print "P4 128 128"; for (i = 0; i < 2048; i++) printf "%c", 32 + i * i % 91 }' >"$work/large.raw"
    sheet <"$work/large.raw" >"$work/large.sheet"
    picture <"$work/large.sheet" >"$work/large.pbm"
    sheet <"$work/large.pbm" >"$work/large_again.sheet"
    same "the largest picture, raw, as a sheet and back" "$work/large.sheet" "$work/large_again.sheet"
    [ "$(wc -l <"$work/large.pbm")" -eq 258 ]
    verdict "its rows are two lines each" $?
}

pbm_forms() {
    gives_sheet "sheet A, plain" $sheet_a 'P1\n4 4\n1100\n1101\n0000\n0000\n'
    gives_sheet "sheet A, plain with comments and spaces" $sheet_a 'P1# A\n4# wide\n 4\n1 1 0 0 1 1\n0#\n1 00000000'
    gives_sheet "sheet A, raw" $sheet_a 'P4 4 4\n\0300\0320\0000\0000'
    gives_sheet "sheet A without its white rows" $sheet_a 'P1 4 2 11001101'
    gives_sheet "one row of two pixels" $corner 'P1 2 1 01'
    gives_sheet "one row of two pixels, raw" $corner 'P4 2 1 \0177'
}

pbm_refusals() {
    refuses "no picture" "pbm: this is no PBM picture" sheet </dev/null
    printf 'P5 2 2 255\n' >"$work/in"
    refuses "a picture of greys" "pbm: this is no PBM picture" sheet <"$work/in"
    printf 'P1 4\n' >"$work/in"
    refuses "no height" "pbm: width and height are missing" sheet <"$work/in"
    printf 'P1 129 1 0' >"$work/in"
    refuses "too wide" "pbm: the picture is wider or higher than 128 pixels" sheet <"$work/in"
    printf 'P1 1 4294967297 0' >"$work/in"
    refuses "far too high" "pbm: the picture is wider or higher than 128 pixels" sheet <"$work/in"
    printf 'P1 2 2 011' >"$work/in"
    refuses "a pixel is missing" "pbm: pixels are missing" sheet <"$work/in"
    printf 'P4 9 1 1' >"$work/in"
    refuses "a byte is missing" "pbm: pixels are missing" sheet <"$work/in"
    refuses "an empty sheet file" "pbm: sheet_read refused, code 13, value 0" picture </dev/null
    { cat "$work/ponds.sheet" && printf 'Q'; } >"$work/in"
    refuses "a byte too many" "pbm: sheet_read refused, code 14, value $(wc -c <"$work/ponds.sheet" | tr -d ' ')" \
        picture <"$work/in"
    refuses "no way named" "pbm: use: pbm sheet <PBM >SHEET, or pbm picture <SHEET >PBM" pbm
}

# ---- ponds

ponds() {
    run ponds >"$work/printed"
    cat >"$work/wanted" <<'END'
nodes: 9
east of the pond: node 2, grey, side 4
touching it in the north-east: node 3, dry, side 2
touching it in the south-east: node 5, dry, side 2
west of the pond: code 20
ponds: 2
pond 1: 16 pixels, rows 0 to 3, columns 0 to 3, nodes 1
pond 2: 8 pixels, rows 0 to 3, columns 6 to 7, nodes 4 6
END
    same "the two ponds do not touch" "$work/printed" "$work/wanted"
}

# ---- distances

distances() { run distances; }

# The archive job on two sheets of tests/rows, the ponds and a round lake; what it prints is stored in tests/archive.
archive() {
    cp "$here/tests/rows/sheet_a.sheet" "$here/tests/rows/one_black_pixel.sheet" "$work"
    awk 'BEGIN { print "P1 32 32"; for (i = 0; i < 1024; i++) print ((i % 32 - 13) ^ 2 + (int(i / 32) - 17) ^ 2 < 170) }' |
        sheet >"$work/round_lake.sheet"
    for wanted in "$here"/tests/archive/*.txt; do
        name=$(basename "$wanted" .txt)
        distances <"$work/$name.sheet" >"$work/printed"
        same "distances of $name" "$wanted" "$work/printed"
    done
    refuses "distances of an empty file" "distances: sheet_read refused, code 13, value 0" distances </dev/null
}

pbm_there_and_back
pbm_largest
pbm_forms
pbm_refusals
ponds
archive
echo "$passed passed, $failed failed"
[ "$failed" -eq 0 ] && [ "$passed" -gt 0 ]
