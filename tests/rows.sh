#!/bin/sh
# Runs the row program on the sheet files of tests/rows, whole and in small pieces
# through a pipe, and holds what it prints against what is stored beside them. The
# last line is 'N passed, M failed'.
set -u
program=$1
here=$(dirname "$0")
cases=$here/rows
work=$(mktemp -d) || exit 1
trap 'rm -rf "$work"' EXIT
passed=0 failed=0

rows() { "$here/on-x86" "$program"; }

# Is what the program printed exactly this file?
verdict() { # NAME WANTED
    if cmp "$work/printed" "$2"; then
        echo "ok     $1"
        passed=$((passed + 1))
    else
        echo "FAILED $1"
        failed=$((failed + 1))
    fi
}

# Does it print this one line?
says() { # NAME LINE BYTES
    printf '%s\n' "$2" >"$work/wanted"
    printf '%b' "$3" | rows >"$work/printed"
    verdict "$1" "$work/wanted"
}

head='\0121\0123' node='\0121\0116'
for wanted in "$cases"/*.txt; do
    name=$(basename "$wanted" .txt)
    rows <"$cases/$name.sheet" >"$work/printed"
    verdict "$name" "$wanted"
    dd bs=7 <"$cases/$name.sheet" 2>/dev/null | rows >"$work/printed"
    verdict "$name, seven bytes at a time" "$wanted"
done

# Each refusal that a file can give.
says "no input" "refused 13 0" ''
says "half a mark" "refused 13 1" '\0121'
says "a wrong mark" "refused 12 1" '\0121\0124'
says "no level" "refused 13 2" "$head"
says "level 6, and nothing more" "refused 15 2" "$head\0006"
says "level 7" "refused 15 2" "$head\0007\0001\0000${node}\0000"
says "level 8" "refused 1 2" "$head\0010"
says "no count" "refused 13 3" "$head\0000"
says "half a count" "refused 13 4" "$head\0000\0001"
says "no block" "refused 13 5" "$head\0000\0001\0000"
says "a wrong node mark" "refused 12 6" "$head\0000\0001\0000\0121\0117\0000"
says "a wrong type" "refused 12 7" "$head\0000\0001\0000${node}\0003"
says "a fork at level 0" "refused 4 7" "$head\0000\0005\0000${node}\0002"
says "four like leaves" "refused 5 19" "$head\0001\0005\0000${node}\0002${node}\0001${node}\0001${node}\0001${node}\0001"
says "a wrong count" "refused 14 3" "$head\0000\0002\0000${node}\0001"
says "a byte left over" "refused 14 8" "$head\0000\0001\0000${node}\0001\0000"

# Long input is read only as far as it decides.
{ printf '%b' "$head\0000\0001\0000${node}\0001" && head -c 300000 /dev/zero; } >"$work/long"
printf 'refused 14 8\n' >"$work/wanted"
rows <"$work/long" >"$work/printed"
verdict "a sheet and 300,000 bytes more" "$work/wanted"

echo "$passed passed, $failed failed"
[ "$failed" -eq 0 ] && [ "$passed" -gt 0 ]
