#!/bin/sh
# Runs the viewer that was built into the folder given, and holds its pictures against
# those of tests/viewer, its tables and what it refuses against what is written here.
# The last line is 'N passed, M failed'.
#
# A map has a letter for each pixel of a picture, and tests/viewer/colours the colour
# of each letter; a list of rectangles (letter, left, top, right, bottom) is a map too,
# each rectangle laid over those before it.
set -u
built=$1
here=$(dirname "$0")/..
maps=$here/tests/viewer
sheet_a=$here/tests/rows/sheet_a.sheet
estate=$here/examples/estate.pbm
ponds=$here/examples/ponds.pbm
work=$(mktemp -d) || exit 1
trap 'rm -rf "$work"' EXIT
passed=0 failed=0
out=$work/out.ppm
head='\0121\0123' node='\0121\0116'
LC_ALL=C
export LC_ALL

verdict() { # NAME STATUS
    if [ "$2" -eq 0 ]; then
        echo "ok     $1$form"
        passed=$((passed + 1))
    else
        echo "FAILED $1$form"
        failed=$((failed + 1))
    fi
}

# Are the two files alike, and not empty?
same() { # NAME FILE FILE
    [ -s "$2" ] && cmp "$2" "$3"
    verdict "$1" $?
}

viewer() { "$here/tests/on-x86" "$program" "$@"; }

# ---- pictures

# A map's letters, from the map or from its rectangles.
letters() { # MAP
    [ ! -f "$maps/$1.map" ] || cat "$maps/$1.map"
    [ ! -f "$maps/$1.rectangles" ] || awk '
        { for (y = $3; y <= $5; y++) for (x = $2; x <= $4; x++) letter[x, y] = $1 }
        NR == 1 { wide = $4; high = $5 }
        END { for (y = 0; y <= high; y++) { row = ""; for (x = 0; x <= wide; x++) row = row letter[x, y]; print row } }
    ' "$maps/$1.rectangles"
}

# The PPM picture of a map, a line for each number.
picture_of() { # MAP
    letters "$1" | awk '
        FILENAME != "-" { colour[$1] = $2 "\n" $3 "\n" $4; next }
        { row[++high] = $0 }
        END {
            print "P6\n" length(row[1]) " " high "\n255"
            for (y = 1; y <= high; y++) for (x = 1; x <= length(row[y]); x++) print colour[substr(row[y], x, 1)]
        }' "$maps/colours" -
}

# A PPM picture, a line for each number.
numbers() { # FILE
    head -n 3 "$1"
    tail -n +4 "$1" | od -An -v -t u1 | tr -s ' ' '\n' | sed '/^$/d'
}

# Does the viewer draw the map, and say nothing of a fault?
draws() { # NAME MAP WORDS...
    name=$1 map=$2
    shift 2
    rm -f "$out"
    picture_of "$map" >"$work/wanted"
    viewer -o "$out" "$@" >"$work/printed" 2>"$work/said" && [ ! -s "$work/said" ] && numbers "$out" >"$work/drawn" &&
        [ -s "$work/wanted" ] && cmp "$work/wanted" "$work/drawn"
    verdict "$name" $?
}

pictures() {
    draws "sheet A" sheet_a --scale 4 "$sheet_a"
    [ ! -s "$work/printed" ]
    verdict "and nothing is printed" $?
    draws "sheet A, its root" sheet_a_node_0 --node 0 --scale 4 "$sheet_a"
    draws "sheet A, node 1: east of it a fork is framed" sheet_a_node_1 --node 1 --scale 4 "$sheet_a"
    draws "sheet A, node 1, larger: round dots" sheet_a_node_1_large --node 1 --scale 16 "$sheet_a"
    draws "sheet A, node 2, a fork" sheet_a_node_2 --node 2 --scale 4 "$sheet_a"
    draws "sheet A, node 5: larger leaves at sides and corners" sheet_a_node_5 --node 5 --scale 4 "$sheet_a"
    draws "sheet A, node 7: a fork at a corner" sheet_a_node_7 --node 7 --scale 4 "$sheet_a"
    draws "sheet A, node 8: a black leaf at a corner" sheet_a_node_8 --node 8 --scale 4 "$sheet_a"
    draws "sheet A, ponds" sheet_a_ponds --ponds --scale 4 "$sheet_a"
    draws "sheet A, distances" sheet_a_distance --distance --scale 4 "$sheet_a"
    printf 'P1 2 2 01 00' >"$work/in"
    prints "a distance of one" --distance "$work/in" <<'TABLE'
greatest distance: 1 half pixel, first at node 2
TABLE
    printf 'P1 4 4 1110 1110 1111 1111' >"$work/in"
    draws "case (j), distances" case_j_distance --distance --scale 4 "$work/in"
    printf 'P1 1 1 1' >"$work/in"
    draws "one black pixel, distances" black_pixel_distance --distance --scale 4 "$work/in"
    draws "the estate" estate --scale 4 "$estate"
    draws "the estate, node 1: the other pond does not touch" estate_node_1 --node 1 --scale 4 "$estate"
    draws "the estate: two ponds, and a white bank between" estate_ponds --ponds --scale 4 "$estate"
    draws "the estate, larger" estate_ponds_large --ponds --scale 24 "$estate"
    draws "the estate, distances" estate_distance --distance --scale 4 "$estate"
}

# Each level has the same width, unless a scale is given.
sizes() {
    for side in 1 2 4 8 16 32 64 128; do
        awk -v side=$side 'BEGIN { print "P1", side, side; for (i = 0; i < side * side; i++) print 1 }' | viewer >"$out"
        [ "$(head -n 2 "$out" | tail -n 1)" = "513 513" ] && [ "$(wc -c <"$out")" -eq 789522 ]
        verdict "513 pixels wide, side $side" $?
    done
    viewer --scale 512 "$sheet_a" >"$out" && [ "$(head -n 2 "$out" | tail -n 1)" = "2049 2049" ]
    verdict "the largest picture" $?
}

# ---- forms of one sheet

# Does the standard input give the picture that is in $work/one.ppm?
as_one() { # NAME
    viewer --ponds >"$out" 2>"$work/said"
    same "$1" "$work/one.ppm" "$out"
}

forms() {
    viewer --ponds "$sheet_a" >"$work/one.ppm" 2>"$work/said"
    as_one "sheet A on the standard input" <"$sheet_a"
    printf 'P1\n4 4\n1100\n1101\n0000\n0000\n' >"$work/in"
    as_one "sheet A, plain" <"$work/in"
    printf 'P1# A\n4# wide\r 4\n1 1 0 0 1 1\n0#\n1 00\t0000\v00\f\n# the end' >"$work/in"
    as_one "sheet A, plain with comments and spaces" <"$work/in"
    printf 'P4 4 4\n\300\320\000\000' >"$work/in"
    as_one "sheet A, raw" <"$work/in"
    printf 'P4\n#\n4\n4#\n\317\337\017\017' >"$work/in"
    as_one "sheet A, raw with comments and bits beyond its columns" <"$work/in"
    viewer --ponds "$estate" >"$work/one.ppm" 2>"$work/said"
    printf '%b' "$head\003\011\000$node\002$node\001$node\002$node\000$node\001$node\000$node\001$node\000$node\000" >"$work/in"
    as_one "the estate as a sheet file" <"$work/in"
    viewer --ponds "$ponds" >"$work/one.ppm" 2>"$work/said"
    { echo "P4 16 16" && printf '%b' "$(awk 'NR > 2 {
        for (i = 1; i <= 16; i += 8) {
            byte = 0
            for (j = i; j < i + 8; j++) byte = 2 * byte + substr($0, j, 1)
            printf "\\0%03o", byte
        } }' "$ponds")"; } >"$work/in"
    as_one "rows of two bytes" <"$work/in"
}

# ---- tables

# Does the viewer print what stands on the standard input: on the standard output when
# the picture goes to a file, and else on the standard error stream?
prints() { # NAME WORDS...
    name=$1
    shift
    cat >"$work/wanted"
    viewer -o "$out" "$@" >"$work/printed" 2>"$work/said" && [ ! -s "$work/said" ]
    verdict "$name, to a file" $?
    same "$name" "$work/wanted" "$work/printed"
    viewer "$@" >"$work/drawn" 2>"$work/said"
    same "$name, beside the picture" "$work/wanted" "$work/said"
    same "$name, the same picture" "$out" "$work/drawn"
}

tables() {
    prints "east of node 1 in the estate is a fork, and two white leaves touch" --node 1 "$estate" <<'TABLE'
neighbour   node  level
N              -      -  off the sheet
E              2      2  fork
S              7      2  white leaf
W              -      -  off the sheet
NW             -      -  off the sheet
NE             -      -  off the sheet
SW             -      -  off the sheet
SE             8      2  white leaf
corner      leaf  level
N at NW        -      -  off the sheet
N at NE        -      -  off the sheet
E at NE        3      1  white leaf
E at SE        5      1  white leaf
S at SW        7      2  white leaf
S at SE        7      2  white leaf
W at NW        -      -  off the sheet
W at SW        -      -  off the sheet
beyond NW      -      -  off the sheet
beyond NE      -      -  off the sheet
beyond SW      -      -  off the sheet
beyond SE      8      2  white leaf
TABLE
    prints "around node 5 of sheet A" --node 5 "$sheet_a" <<'TABLE'
neighbour   node  level
N              3      0  white leaf
E              6      0  black leaf
S              8      1  white leaf
W              1      1  black leaf
NW             1      1  black leaf
NE             4      0  white leaf
SW             7      1  white leaf
SE             8      1  white leaf
corner      leaf  level
N at NW        3      0  white leaf
N at NE        3      0  white leaf
E at NE        6      0  black leaf
E at SE        6      0  black leaf
S at SW        8      1  white leaf
S at SE        8      1  white leaf
W at NW        1      1  black leaf
W at SW        1      1  black leaf
beyond NW      1      1  black leaf
beyond NE      4      0  white leaf
beyond SW      7      1  white leaf
beyond SE      8      1  white leaf
TABLE
    prints "the estate's register" --ponds "$estate" <<'TABLE'
 pond  pixels    rows      columns   colour
    1      16     0 - 3       0 - 3    blue
    2       8     0 - 3       6 - 7    orange
TABLE
    prints "the register of three ponds" --ponds "$ponds" <<'TABLE'
 pond  pixels    rows      columns   colour
    1      67     1 - 9       0 - 8    blue
    2      33     2 - 9      11 - 15   orange
    3       8    12 - 14      6 - 9    green
TABLE
    printf 'P1 2 2 0000' >"$work/in"
    prints "a register without ponds" --ponds "$work/in" <<'TABLE'
 pond  pixels    rows      columns   colour
TABLE
    prints "sheet A's greatest distance" --distance "$sheet_a" <<'TABLE'
greatest distance: 2 half pixels, first at node 1
TABLE
    printf 'P1 4 4 1110 1110 1111 1111' >"$work/in"
    prints "the first of two greatest distances" --distance "$work/in" <<'TABLE'
greatest distance: 4 half pixels, first at node 1
TABLE
    printf 'P1 2 2 0000' >"$work/in"
    prints "no distance without black" --distance "$work/in" <<'TABLE'
no pixel is black: there is no distance
TABLE
    printf 'P1 2 2 1111' >"$work/in"
    prints "no distance without white" --distance "$work/in" <<'TABLE'
no pixel is white: there is no distance
TABLE
}

# ---- many ponds

chequered() { # SIDE
    awk -v side="$1" 'BEGIN {
        print "P1", side, side
        for (y = 0; y < side; y++) for (x = 0; x < side; x++) print 1 - (x + y) % 2 }'
}

# The colour of pond 1 comes back darker in pond 8, lighter in pond 15 and with a step
# in pond 22: four ponds lie in each row.
tones() {
    chequered 8 | viewer --ponds --scale 4 >"$out" 2>"$work/said"
    for wanted in "0 0 0 114 178 blue" "7 1 13 82 120 dark blue" "5 3 127 184 216 light blue" "3 5 2 114 178 blue"; do
        set -- $wanted
        at=$(((($2 * 4 + 2) * 33 + $1 * 4 + 2) * 3))
        drawn=$(tail -n +4 "$out" | tail -c "+$((at + 1))" | head -c 3 | od -An -t u1 | tr -s ' ')
        [ "$drawn" = " $3 $4 $5" ]
        verdict "the pond in column $1 and row $2" $?
        x=$1 y=$2
        shift 5
        grep -Eq "^ +[0-9]+ +1 +$y - $y +$x - $x +$*\$" "$work/said"
        verdict "the name of its colour" $?
    done
}

# 8192 ponds, the border and the white leaves.
own_colours() {
    chequered 128 | viewer --ponds --scale 4 >"$out" 2>"$work/said"
    colours=$(tail -n +4 "$out" | od -An -v -t u1 | awk '
        { for (i = 1; i <= NF; i++) { colour = colour " " $i; if (++count % 3 == 0) { seen[colour] = 1; colour = "" } } }
        END { for (colour in seen) different++; print different }')
    [ "$colours" -eq 8194 ]
    verdict "no two of 8192 ponds have one colour" $?
}

# ---- refusals

# Does the command say exactly this line, print nothing and end with this status?
refuses() { # NAME STATUS LINE WORDS...
    name=$1 wanted=$2 line=$3
    shift 3
    viewer "$@" >"$work/printed" 2>"$work/said"
    [ $? -eq "$wanted" ] && [ ! -s "$work/printed" ] && [ "$(cat "$work/said")" = "viewer: $line" ]
    verdict "$name" $?
}

# Is this input, with the escapes of printf's %b, refused with these words?
bad() { # NAME WORDS INPUT
    printf '%b' "$3" >"$work/in"
    refuses "$1" 1 "standard input: $2" <"$work/in"
    refuses "$1, in a file" 1 "$work/in: $2" "$work/in"
}

bad_sheets() {
    ends="the file ends where a byte is needed, at byte"
    none="this is no sheet file and no PBM picture: a wrong mark, at byte"
    bad "an empty file" "$ends 0 (code 13)" ''
    bad "half a mark" "$ends 1 (code 13)" '\0121'
    bad "no level" "$ends 2 (code 13)" "$head"
    bad "no block" "$ends 5 (code 13)" "$head\0000\0001\0000"
    bad "another format" "$none 0 (code 12)" 'GIF89a'
    bad "a picture of greys" "$none 0 (code 12)" 'P5 2 2 255\n'
    bad "the P alone" "$none 0 (code 12)" 'P'
    bad "a wrong mark" "$none 1 (code 12)" '\0121\0124'
    bad "a wrong node mark" "a wrong mark or type, at byte 6 (code 12)" "$head\0000\0001\0000\0121\0117\0000"
    bad "a wrong type" "a wrong mark or type, at byte 7 (code 12)" "$head\0000\0001\0000$node\0003"
    bad "level 8" "the level is above 7, at byte 2 (code 1)" "$head\0010\0001\0000$node\0000"
    bad "a fork at level 0" "a block of one pixel is a fork, at byte 7 (code 4)" "$head\0000\0005\0000$node\0002"
    bad "four like leaves" "a fork has four like leaves and should be one leaf, at byte 19 (code 5)" \
        "$head\0001\0005\0000$node\0002$node\0001$node\0001$node\0001$node\0001"
    bad "a wrong count" "the node count is not the number of node records, at byte 3 (code 14)" \
        "$head\0000\0002\0000$node\0001"
    bad "a byte left over" "bytes are left over, from byte 8 (code 14)" "$head\0000\0001\0000$node\0001\0000"
    head -c 31 "$sheet_a" >"$work/in"
    refuses "sheet A without its last byte" 1 "standard input: $ends 31 (code 13)" <"$work/in"
    { cat "$sheet_a" && head -c 2000000 /dev/zero; } >"$work/in"
    refuses "sheet A and two million bytes" 1 "standard input: bytes are left over, from byte 32 (code 14)" <"$work/in"
}

bad_pictures() {
    shape="a sheet is square, and its side 1, 2, 4, 8, 16, 32, 64 or 128"
    large="the picture is wider or higher than 128 pixels"
    bad "no width" "width and height are missing" 'P1'
    bad "no height" "width and height are missing" 'P4 4\n'
    bad "no space before the width" "width and height are missing" 'P14 4 0000'
    bad "a width in letters" "width and height are missing" 'P1 four 4 0000'
    bad "a width with a letter" "width and height are missing" 'P1 4x 4 0000'
    bad "nothing after the height" "width and height are missing" 'P1 4 4'
    bad "wider than high" "the picture is 4 by 2 pixels; $shape" 'P1 4 2 11001101'
    bad "no power of two" "the picture is 3 by 3 pixels; $shape" 'P4 3 3 \0000\0000\0000'
    bad "no pixels" "the picture is 0 by 0 pixels; $shape" 'P1 0 0 '
    bad "too wide" "$large" 'P1 129 1 0'
    bad "too large" "$large" 'P4 256 256 0'
    bad "far too high" "$large" 'P1 1 4294967297 0'
    bad "a pixel is missing" "the file ends where a pixel is needed, in column 1 and row 1" 'P1 2 2 011'
    bad "a byte is missing" "the file ends where a pixel is needed, in column 8 and row 15" "P4 16 16 $(printf '%031d' 0)"
    bad "a pixel of another colour" "a pixel is neither 0 nor 1, in column 0 and row 1" 'P1 2 2 0 1 2 0'
    bad "a pixel too many" "bytes are left over after the last pixel, from byte 12" 'P1 2 2 0110 1'
    bad "a byte too many" "bytes are left over after the last pixel, from byte 9" 'P4 2 2 \0200\0100\0012'
    awk 'BEGIN { printf "P1 1 1 %1048568s0", "" }' >"$work/in"
    viewer <"$work/in" >"$out" && [ "$(wc -c <"$work/in")" -eq 1048576 ]
    verdict "the longest picture" $?
    echo >>"$work/in"
    refuses "a longer one" 1 "standard input: the picture is longer than 1048576 bytes" <"$work/in"
}

bad_words() {
    refuses "an unknown option" 2 "--pond: there is no such option; --help lists them" --pond "$sheet_a"
    for number in x -1 1x '' 4294967296 99999999999999999999; do
        refuses "node '$number'" 2 "--node: the number of a node must follow" --node "$number" "$sheet_a"
    done
    refuses "no node" 2 "--node: the number of a node must follow" --node
    refuses "a node that is not there" 1 "$sheet_a: the sheet has no node 9 (code 6)" --node 9 "$sheet_a"
    refuses "the highest number" 1 "$sheet_a: the sheet has no node 4294967295 (code 6)" --node 4294967295 "$sheet_a"
    one="a picture shows a node, the ponds or the distances, and one of them"
    refuses "two views" 2 "--distance: $one" --ponds --distance "$sheet_a"
    refuses "two nodes" 2 "--node: $one" --node 1 --node 2 "$sheet_a"
    for number in 3 0 x; do
        refuses "scale '$number'" 2 "--scale: a number from 4 on must follow" --scale "$number" "$sheet_a"
    done
    refuses "no scale" 2 "--scale: a number from 4 on must follow" "$sheet_a" --scale
    refuses "too large a scale" 2 "--scale: at most 512 on a sheet of level 2" --scale 513 "$sheet_a"
    refuses "two scales" 2 "--scale: a picture has one scale" --scale 8 --scale 9 "$sheet_a"
    refuses "two files to write" 2 "-o: a picture goes to one file" -o "$work/one.ppm" -o "$work/two.ppm" "$sheet_a"
    refuses "no file to write" 2 "-o: the name of a file must follow" "$sheet_a" -o
    refuses "two files" 2 "$estate: a picture shows one file" "$sheet_a" "$estate"
    viewer --help >"$work/printed" 2>"$work/said" && [ ! -s "$work/said" ] &&
        [ "$(head -n 1 "$work/printed")" = "viewer [--node P | --ponds | --distance] [--scale K] [-o FILE] [FILE]" ]
    verdict "help" $?
}

bad_files() {
    refuses "no such file" 1 "$work/none: No such file or directory" "$work/none"
    refuses "a folder" 1 "$work: Is a directory" "$work"
    refuses "no such folder" 1 "$work/none/out.ppm: No such file or directory" -o "$work/none/out.ppm" "$sheet_a"
    [ -c /dev/full ] || { echo "left out: a full disk, there is no /dev/full here" >&2 && return; }
    full="No space left on device"
    refuses "a full disk" 1 "/dev/full: $full" -o /dev/full "$sheet_a"
    viewer "$sheet_a" 2>"$work/said" >/dev/full
    [ $? -eq 1 ] && [ "$(cat "$work/said")" = "viewer: standard output: $full" ]
    verdict "a full disk behind the standard output" $?
    viewer --ponds -o "$out" "$sheet_a" 2>"$work/said" >/dev/full
    [ $? -eq 1 ] && [ "$(cat "$work/said")" = "viewer: standard output: $full" ]
    verdict "no room for the register" $?
    viewer --ponds "$sheet_a" 2>/dev/full >"$out"
    [ $? -eq 1 ]
    verdict "no room for the register behind the standard error stream" $?
}

# ---- PNG

png_is_refused() {
    refuses "PNG without libpng" 2 "$work/none.png: PNG needs libpng, and this viewer was built without it" \
        -o "$work/none.png" "$sheet_a"
    [ ! -e "$work/none.png" ]
    verdict "and no file" $?
}

# Does a PNG picture hold what the PPM picture does?
same_as_png() { # NAME WORDS...
    name=$1
    shift
    viewer -o "$work/out.png" "$@" >"$work/printed" && viewer -o "$out" "$@" >"$work/printed"
    reader "$work/out.png" >"$work/read.ppm"
    same "$name" "$out" "$work/read.ppm"
}

reader() { "$here/tests/on-x86" "$built/tests/viewer/png" "$1"; }

png_pictures() {
    same_as_png "sheet A in PNG" --node 1 "$sheet_a"
    same_as_png "the estate in PNG" --ponds "$estate"
    same_as_png "three ponds in PNG" --distance "$ponds"
    [ ! -c /dev/full ] || { ln -s /dev/full "$work/full.png" &&
        refuses "a full disk for PNG" 1 "$work/full.png: No space left on device" -o "$work/full.png" "$sheet_a"; }
    viewer --ponds --scale 24 -o "$out" "$estate" >"$work/printed"
    reader "$here/docs/ponds.png" >"$work/read.ppm"
    same "the README's picture is the viewer's" "$out" "$work/read.ppm"
}

everything() {
    pictures
    sizes
    forms
    tables
    tones
    own_colours
    bad_sheets
    bad_pictures
    bad_words
    bad_files
}

program=$built/examples/viewer form=
everything
if [ -x "$built/tests/viewer/png" ]; then
    png_pictures
else
    echo "left out: PNG pictures, no libpng here" >&2
    png_is_refused
fi

# The same under the sanitizers, without libpng.
program=$built/sanitized/viewer form=", sanitized"
if [ -x "$program" ]; then
    everything
    png_is_refused
else
    echo "left out: the viewer under the sanitizers, which do not run here" >&2
fi
echo "$passed passed, $failed failed"
[ "$failed" -eq 0 ] && [ "$passed" -gt 0 ]
