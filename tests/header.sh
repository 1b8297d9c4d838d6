#!/bin/sh
# Has every name of include/sheet.h, in use, compiled without a warning: by each compiler that is here, as each
# standard of C and C++, at its strictest levels. The last line is 'N passed, M failed'.
#
# The header is included as the project's own (-I), so that nothing in it is excused as a system's.
set -u
cd "$(dirname "$0")/.." || exit 1
work=$(mktemp -d) || exit 1
trap 'rm -rf "$work"' EXIT
passed=0 failed=0 compiled=0
use=tests/header/use.c

verdict() { # NAME STATUS
    if [ "$2" -eq 0 ]; then
        echo "ok     $1"
        passed=$((passed + 1))
    else
        echo "FAILED $1"
        failed=$((failed + 1))
    fi
}

# ---- what is compiled

# The names that the header gives: macros, but for its own guard, and calls.
names() {
    sed -n -e 's/^ *#define \([A-Za-z_0-9]*\).*/\1/p' -e 's/^uint64_t \(sheet_[a-z_]*\)(.*/\1/p' include/sheet.h |
        grep -vx SHEET_H | sort -u
}

every_name_is_used() {
    names >"$work/names"
    lost=$(while read -r name; do grep -qw "$name" "$use" || echo "$name"; done <"$work/names")
    [ -s "$work/names" ] && [ -z "$lost" ]
    verdict "every name of the header is in use$(echo "${lost:+; missing:} $lost" | tr '\n' ' ' | sed 's/ *$//')" $?
}

# The version's second number says how many requests have landed, and each has its note.
version_counts_requests() {
    landed=$(find docs/requests -name '[0-9]*.md' | wc -l)
    grep -q "^#define SHEET_VERSION \"0\.$((landed))\.[0-9][0-9]*\"\$" include/sheet.h
    verdict "the version counts the requests that have landed" $?
}

# ---- by whom, and how strictly

# What gcc and g++ have beside -Wall and -Wextra, then what each has for its own language.
gnu='-Wpedantic -Wconversion -Wsign-conversion -Wfloat-conversion -Wdouble-promotion -Wfloat-equal -Wcast-qual
    -Wcast-align -Wundef -Wshadow -Wmissing-declarations -Wredundant-decls -Wunused-macros -Wswitch-default
    -Wswitch-enum -Wlong-long -Wvla -Wformat=2 -Wwrite-strings -Wnull-dereference -Wlogical-op -Wduplicated-cond
    -Wduplicated-branches -Wstrict-overflow=2 -Wpadded'
gnu_c='-Wstrict-prototypes -Wold-style-definition -Wmissing-prototypes -Wnested-externs -Wbad-function-cast
    -Wc++-compat -Wdeclaration-after-statement -Wjump-misses-init'
gnu_cxx='-Wold-style-cast -Wuseless-cast -Wzero-as-null-pointer-constant -Wextra-semi -Weffc++ -Wsign-promo
    -Wctor-dtor-privacy -Wnoexcept -Wstrict-null-sentinel'

# Of all that clang has, newer ones' warning that C11 has _Generic and older C has not is left out, since the test
# uses it in C11; older ones do not know that name.
clang='-Weverything -Wno-unknown-warning-option -Wno-pre-c11-compat'

compiles() { # NAME COMPILER LANGUAGE STANDARDS FLAGS...
    name=$1 compiler=$2 language=$3 standards=$4
    shift 4
    if ! command -v "$compiler" >/dev/null; then
        echo "left out: sheet.h by $name, which is not here" >&2
        return
    fi
    for standard in $standards; do
        "$compiler" -x "$language" -std="$standard" -O2 -Wall -Wextra -Werror "$@" -Iinclude -c -o "$work/use.o" "$use"
        verdict "$standard by $name" $?
        compiled=$((compiled + 1))
    done
}

c_standards='c89 c99 c11 c17'
cxx_standards='c++98 c++11 c++17 c++20'
cross=
[ "$(uname -m)" = x86_64 ] || cross=x86_64-linux-gnu-

every_name_is_used
version_counts_requests
{
    compiles gcc "${cross}gcc" c "$c_standards" $gnu $gnu_c
    compiles g++ "${cross}g++" c++ "$cxx_standards" $gnu $gnu_cxx
    compiles clang clang c "$c_standards" $clang
    compiles clang++ clang++ c++ "$cxx_standards" $clang
}
[ "$compiled" -gt 0 ]
verdict "a compiler is here" $?
echo "$passed passed, $failed failed"
[ "$failed" -eq 0 ] && [ "$passed" -gt 0 ]
