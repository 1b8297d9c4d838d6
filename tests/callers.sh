#!/bin/sh
# Runs the tests of the callers, the Rust crate and the Python module in callers/,
# against the archive given and a shared object made of it. The last line is
# 'N passed, M failed'.
set -u
archive=$(cd "$(dirname "$1")" && pwd)/$(basename "$1")
cd "$(dirname "$0")/.." || exit 1
built=$(pwd)/build
passed=0 failed=0

if [ "$(uname -m)" != x86_64 ]; then
    echo "left out: the callers in Rust and Python, as the library is for x86-64" >&2
    echo "0 passed, 0 failed"
    exit 0
fi

failure() { # NAME WHAT
    echo "FAILED $1: $2"
    failed=$((failed + 1))
}

# Adds up what a caller's tests count. Tests that end with another status than
# their counts say have failed, and so have tests that count nothing.
count() { # NAME STATUS PASSED FAILED
    passed=$((passed + $3))
    failed=$((failed + $4))
    [ "$4" -gt 0 ] || { [ "$2" -eq 0 ] && [ "$3" -gt 0 ]; } || failure "$1" "it ended with status $2, and $3 passed"
}

# Cargo ends the tests of each program with 'test result: ok. N passed; M failed; ..'.
rust() {
    command -v cargo >/dev/null || { failure Rust "there is no cargo here"; return; }
    # The crate links the libsheet.a of a folder.
    mkdir -p "$built/callers" && cp "$archive" "$built/callers/libsheet.a" || { failure Rust "no archive"; return; }
    SHEET_LIB_DIR=$built/callers CARGO_TARGET_DIR=$built/cargo RUSTFLAGS='-D warnings' \
        cargo test --quiet --offline --locked --no-fail-fast --manifest-path callers/rust/Cargo.toml \
        >"$built/log/rust.out" 2>&1
    status=$?
    cat "$built/log/rust.out"
    sum='/^test result: / { for (i = 2; i <= NF; i++) if ($i == word) total += $(i - 1) } END { print total + 0 }'
    count Rust $status "$(awk -v word='passed;' "$sum" "$built/log/rust.out")" \
        "$(awk -v word='failed;' "$sum" "$built/log/rust.out")"
}

# Python ends its tests with 'Ran N tests in ..', and then 'OK' or 'FAILED (failures=F, errors=E)'.
python() {
    command -v python3 >/dev/null || { failure Python "there is no python3 here"; return; }
    make -s LIB="$archive" shared || { failure Python "no shared object could be made"; return; }
    (cd callers/python && SHEET_LIBRARY=$built/libsheet.so PYTHONDONTWRITEBYTECODE=1 exec python3 -m unittest) \
        >"$built/log/python.out" 2>&1
    status=$?
    cat "$built/log/python.out"
    ran=$(awk '/^Ran [0-9]+ tests? in / { total = $2 } END { print total + 0 }' "$built/log/python.out")
    bad=$(awk '/^FAILED \(/ { n = split($0, part, /[ (=,)]+/); total = 0
                              for (i = 1; i < n; i++)
                                  if (part[i] == "failures" || part[i] == "errors") total += part[i + 1] }
               END { print total + 0 }' "$built/log/python.out")
    count Python $status $((ran - bad)) "$bad"
}

mkdir -p "$built/log"
rust
python
echo "$passed passed, $failed failed"
[ "$failed" -eq 0 ] && [ "$passed" -gt 0 ]
