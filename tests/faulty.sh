#!/bin/sh
# Do the outside tests find a fault? Each fault of tests/faulty.c is put into the
# library; compare must find it, and so must the fuzzer for its call where there
# can be one. Every call of the header must have a fault and be known to compare.
# The last line is 'N passed, M failed'.
#
#   tests/faulty.sh [ARCHIVE]
#
# As many faults are looked for at a time as there are processors.
set -u
cd "$(dirname "$0")/.." || exit 1
unset MAKEFLAGS MFLAGS MAKELEVEL
passed=0 failed=0
jobs=$(nproc 2>/dev/null || echo 2)

verdict() { # NAME STATUS
    if [ "$2" -eq 0 ]; then
        echo "ok     $1"
        passed=$((passed + 1))
    else
        echo "FAILED $1"
        failed=$((failed + 1))
    fi
}

# Does compare end with status 1 and name a case, and does the command that it
# prints for this case find it alone?
found_by_compare() { # FOLDER
    tests/on-x86 "$1/compare" --seed 1 --cases 100000 >"$1/compare.out" 2>&1
    [ $? -eq 1 ] || return 1
    grep -E -m 1 '^  case [0-9]+ (differs|stops the program): compare ' "$1/compare.out" >"$1/case" || return 1
    # shellcheck disable=SC2046
    tests/on-x86 "$1/compare" $(sed 's/.*: compare //' "$1/case") >"$1/alone.out" 2>&1
    [ $? -eq 1 ] && grep -qxF "$(cat "$1/case")" "$1/alone.out"
}

# Does the fuzzer stop at an input, keep it, and stop at it again? It has a number of
# inputs, not of seconds, so that a machine's other work does not count.
found_by_fuzzer() { # FOLDER NAME
    rm -f "$1"/crash-*
    "$1/$2" -seed=1 -max_len=4100 -runs=200000 -artifact_prefix="$1/" >"$1/fuzz.out" 2>&1 && return 1
    for input in "$1"/crash-*; do
        [ -f "$input" ] && ! "$1/$2" "$input" >"$1/again.out" 2>&1
        return
    done
}

# The fuzzer for the call that has this fault.
fuzzer_of() { # FAULT
    case $1 in *-read) echo 'read' ;; *) echo 'table' ;; esac
}

# Looks for one fault, and leaves in its folder who has found it.
look_for() { # FAULT
    folder=build/faulty/$1
    found_by_compare "$folder" && touch "$folder/found-by-compare"
    [ -z "$fuzzers" ] || { found_by_fuzzer "$folder" "$(fuzzer_of "$1")" && touch "$folder/found-by-fuzzer"; }
}

if [ "${1:-}" = --look-for ]; then
    fuzzers=$2
    look_for "$3"
    exit
fi
archive=${1:-target/staticlib/libsheet.a}
make -s -j"$jobs" LIB="$archive" faulty compare
verdict "faults, built" $?
fuzzers=$(make -s has-fuzz)
sed -n 's:.* FAULT == \([0-9]*\) /\* \([a-z_]*\)\(.*\) \*/$:\1-\2 \2\3:p' tests/faulty.c >build/faulty/list
rm -f build/faulty/*/found-by-*
cut -d ' ' -f 1 build/faulty/list | xargs -n 1 -P "$jobs" tests/faulty.sh --look-for "$fuzzers"
while read -r fault what; do
    [ -f "build/faulty/$fault/found-by-compare" ]
    verdict "compare finds: $what" $?
    [ -n "$fuzzers" ] || continue
    [ -f "build/faulty/$fault/found-by-fuzzer" ]
    verdict "fuzz/$(fuzzer_of "$fault") finds: $what" $?
done <build/faulty/list
for call in $(sed -n 's/^uint64_t sheet_\([a-z_]*\)(.*/\1/p' include/sheet.h); do
    grep -q " $call:" build/faulty/list && tests/on-x86 build/tests/compare --call "$call" --cases 1 >/dev/null 2>&1
    verdict "compare knows sheet_$call, and it has a fault to find" $?
done
echo "$passed passed, $failed failed"
[ "$failed" -eq 0 ] && [ "$passed" -gt 0 ]
