#!/bin/sh
# What a reader has to believe, and how much of it there is (docs/TRUST.md): nothing
# is assumed in a library crate but what prints for the worked-case programs, no
# outside call asks anything of its caller, and sheet.h declares what is exported.
# The last line is 'N passed, M failed'.
#
#   tests/trust.sh [LOG]
#
# What is proved is read from the log of 'rt ci' that tests/run leaves (tests/run
# crates alone writes it); what is assumed, from that log and from the check of the
# archive, which has all that is linked into it. Of a crate that an earlier run on
# this machine proved, the log says no more than that. Signatures are read from the
# sources, and lines are counted without blank ones and comments.
set -u
cd "$(dirname "$0")/.." || exit 1
log=${1:-build/log/rt ci.out}
archive=target/staticlib/libsheet
[ -f "$log" ] || { echo "there is no log of rt ci: tests/run crates writes it, and runs this" && echo "0 passed, 1 failed" && exit 1; }
work=$(mktemp -d) || exit 1
trap 'rm -rf "$work"' EXIT
passed=0 failed=0

verdict() { # NAME STATUS
    if [ "$2" -eq 0 ]; then
        echo "ok     $1"
        passed=$((passed + 1))
    else
        echo "FAILED $1"
        failed=$((failed + 1))
    fi
}

crates() { sed 's/#.*//' crates.txt | sed -n 's/^[[:space:]]*\([a-z_0-9]*\)\( *staticlib\)\{0,1\}[[:space:]]*:.*/\1/p'; }
is_program() { [ -f "crates/$1/src/main.rt" ]; }

# A crate that reads or prints by std: a library's check does not name the C functions below it, its programs' do.
prints() { grep -Eqr 'HostRuntime|\bstd::(env|fs|io|net|os|process|rt|thread|time)\b' "crates/$1/src"; }

# ---- what the check says

# A check that used files of earlier checks or another logic is no verdict.
proved() { # SAID: a file with what the check printed
    grep '^logic=' "$1" | tail -n 1 | grep '^logic=proved ' | grep -Eqv ' (foreign|pinned|cache|incremental)='
}

# What the run's check of a crate printed; nothing where an earlier run had proved it.
said_of() { awk -v crate="$1" '$0 == "== " crate { on = 1 } on { print } index($0, "rt: " crate " proved") { on = 0 }' "$log"; }

# Did the run prove the crate, or find it proved? By itself 'rt ci' refuses what is assumed in a crate.
in_run() { # CRATE SAID
    grep -Eq "rt: $1 is kept: " "$log" || { grep -Eq "rt: $1 proved" "$log" && proved "$2"; }
}

# The crates of the kit whose C functions it reaches.
reached_of() { sed -n '/: none reached of /d; s/^axioms \([^:]*\):.*/\1/p' "$1"; }

assumes_nothing() { # SAID
    [ -z "$(reached_of "$1")" ] && ! grep -Eq '^logic=.* axioms=|: assumed' "$1"
}

assumes_only_std() { # SAID
    [ -z "$(reached_of "$1" | grep -Evx 'io|libc|os|std')" ]
}

# Does each crate stand on crates of this repository alone, and on std?
stand_alone() {
    crates >"$work/crates"
    below=$(sed 's/#.*//' crates.txt | sed -n 's/^[^:]*://p' | tr -s ' ' '\n' | grep -v '^$' | sort -u)
    other=$(echo "$below" | grep -Fxv -f "$work/crates")
    [ -s "$work/crates" ] && [ -z "$other" ] || { echo "crates.txt names: $other"; return 1; }
}

verdicts() {
    tail -n 1 "$log" | grep -Eqx '[0-9]+ passed, 0 failed'
    verdict "rt ci passed" $?
    for crate in $(crates); do
        said=$work/said
        said_of "$crate" >"$said"
        if is_program "$crate"; then
            in_run "$crate" "$said" && assumes_only_std "$said"
            verdict "$crate: proved, and assumes only C functions of std" $?
        elif prints "$crate"; then
            in_run "$crate" "$said" && assumes_nothing "$said"
            verdict "$crate: proved, over std's printing" $?
        else
            in_run "$crate" "$said" && assumes_nothing "$said"
            verdict "$crate: proved, with no assumption" $?
        fi
    done
    stand_alone
    verdict "no crate stands on a library of the kit but std" $?
    ! grep -q '^logic=.* incremental=' "$archive.say" ||
        echo "libsheet.a was made over libraries of earlier checks: rm -r crates/*/out/rlib, and run tests/run crates again"
    [ -n "$(find "$archive.a" -newer build/proved)" ] && proved "$archive.say" && assumes_nothing "$archive.say" &&
        grep -q '^axioms ' "$archive.say"
    verdict "libsheet.a with all that is linked into it: no assumption" $?
}

# ---- what the sources say

# Each function of a file on one line, from its first word to its body, contract included.
signatures() { # FILE
    sed 's|^[[:space:]]*//.*||' "$1" | awk '
        { text = text " " $0 }
        END {
            while (match(text, /(pub |extern "C" )*fn [a-z_0-9]+/)) {
                text = substr(text, RSTART)
                depth = 0
                for (i = 1; i <= length(text); i++) {
                    c = substr(text, i, 1)
                    if (c == "{") {
                        if (depth == 0 && substr(text, 1, i - 1) !~ /(requires|ensures)[*]?( [a-z_0-9]+)? *$/) break
                        depth++
                    }
                    if (c == "}") depth--
                    if (c == ";" && depth == 0) break
                }
                line = substr(text, 1, i - 1)
                gsub(/ +/, " ", line)
                print line
                text = substr(text, i)
            }
        }'
}

# The exported functions, as the archive has them and as the crate below states them.
exported() { signatures crates/sheet_c/src/lib.rt | grep 'extern "C" fn'; }
stated() { signatures crates/sheet/src/lib.rt | grep -E 'pub (extern "C" )?fn'; }

# The functions that are called from outside: the exported ones, the walk's step, the programs' read and the ponds' call on structs.
outside() {
    exported
    signatures crates/walk/src/lib.rt | grep 'fn step('
    signatures crates/file_load/src/lib.rt | grep 'fn load('
    signatures crates/ponds_find/src/lib.rt | grep 'fn in_entries('
}

outside_calls() {
    outside >"$work/outside"
    while IFS= read -r signature; do
        name=$(echo "$signature" | sed 's/.*fn \([a-z_0-9]*\).*/\1/')
        case $signature in *' requires '*) false ;; esac
        verdict "$name: no requires" $?
        case $signature in *' ensures '*) ;; *) false ;; esac
        verdict "$name: its outcome is stated" $?
    done <"$work/outside"
    for call in step load in_entries; do
        [ "$(grep -c "fn $call(" "$work/outside")" = 1 ]
        verdict "$call: among the outside calls" $?
    done
}

# A signature as C declares it.
as_c() {
    sed -e 's/.*fn \([a-z_0-9]*\)( *\(.*[^ ,]\),\{0,1\} *) -> u64.*/uint64_t \1(\2);/' \
        -e 's/\([a-z]*\): &mut \[\([a-z0-9]*\)\]/\2 *\1, size_t \1_len/g' \
        -e 's/\([a-z]*\): &\[\([a-z0-9]*\)\]/const \2 *\1, size_t \1_len/g' \
        -e 's/\([a-z]*\): \([uf][0-9]*\)/\2 \1/g' \
        -e 's/\<u32\>/uint32_t/g; s/\<u8\>/uint8_t/g; s/\<f64\>/double/g'
}

# The header's declarations, one to a line.
declared() {
    awk '{ while ((i = index($0, "/*")) || inside) {
               if (inside) { j = index($0, "*/"); if (!j) { $0 = ""; break } $0 = substr($0, j + 2); inside = 0 }
               else { kept = kept substr($0, 1, i - 1); $0 = substr($0, i + 2); inside = 1 } }
           kept = kept " " $0 }
         END { gsub(/ +/, " ", kept); while (match(kept, /uint64_t sheet_[a-z_]*\([^;]*\);/)) {
             print substr(kept, RSTART, RLENGTH); kept = substr(kept, RSTART + RLENGTH) } }' include/sheet.h | sort
}

header() {
    exported | as_c | sort >"$work/exported"
    declared >"$work/declared"
    [ -s "$work/exported" ] && diff "$work/exported" "$work/declared"
    verdict "sheet.h declares each exported function, with its parameters, and no other" $?
}

# rt refuses a crate that declares C functions or assumes an axiom, and a definition that rests on its own crate's proofs;
# the rest is seen here.
sources() {
    exported | sed 's/extern "C" //' >"$work/exported"
    stated | sed 's/extern "C" //' >"$work/stated"
    [ -s "$work/exported" ] && diff "$work/exported" "$work/stated"
    verdict "sheet_c exports each function of sheet, with its clauses, and no other" $?
    others=$(grep -l 'extern "C" fn' crates/*/src/*.rt | grep -Evx 'crates/(sheet|sheet_c)/src/lib.rt')
    [ -z "$others" ] || echo "$others"
    [ -z "$others" ]
    verdict "no other crate exports a function" $?
    ! grep -En 'extern "C" *\{' crates/*/src/*.rt
    verdict "no crate declares a C function" $?
    ! grep -rEn '^ *axiom\b|Prim\.Axiom' crates/*/src crates/*/specs crates/*/proofs
    verdict "no crate assumes an axiom" $?
    ! grep -En '\bRattle\.[a-z_0-9]+\.proofs\b' crates/*/specs/*.antt crates/*/src/*.rt | grep -v 'Rattle\.std\.proofs'
    verdict "no definition and no contract rests on a proof of this repository" $?
}

# ---- how much there is to read

count() { cat "$@" 2>/dev/null | grep -Evc '^[[:space:]]*(//.*|--.*)?$'; }

# The definitions that the statements of the outside calls and of the whole walk rest on.
believed() {
    echo 'sheet/Calls walk/Walk walk_rows/Rows file_load/Load' | tr ' ' '\n' >"$work/todo"
    : >"$work/believed"
    while [ -s "$work/todo" ]; do
        sort -u "$work/todo" | grep -Fxv -f "$work/believed" >"$work/new"
        cat "$work/new" >>"$work/believed"
        while IFS=/ read -r crate module; do
            sed -n 's/^use Rattle\.\([a-z_0-9]*\)\.specs\.\([A-Z][A-Za-z]*\)\..*/\1\/\2/p' "crates/$crate/specs/$module.antt" |
                grep -v '^std/'
        done <"$work/new" >"$work/todo"
    done
    sort "$work/believed"
}

# The lines of contracts and their imports; a contract goes on to the line that closes it.
contracts() {
    awk '/^[[:space:]]*(requires[*]?|ensures[*]?|ghost use) / || more { print; more = !/( }|;)$/ }'
}

sizes() {
    echo
    echo "lines            definitions   contracts        code      proofs   functions"
    for crate in $(crates); do
        find "crates/$crate/src" -name '*.rt' -exec cat {} + >"$work/src"
        contracts <"$work/src" >"$work/contracts"
        find "crates/$crate/specs" -name '*.antt' -exec cat {} + >"$work/specs" 2>/dev/null
        find "crates/$crate/proofs" -name '*.antt' -exec cat {} + >"$work/proofs" 2>/dev/null
        functions=$(find "crates/$crate/src" -name '*.rt' | while read -r file; do signatures "$file"; done | wc -l)
        echo "$crate $(count "$work/specs") $(count "$work/contracts") $(($(count "$work/src") - $(count "$work/contracts"))) \
$(count "$work/proofs") $functions"
    done | awk '{ printf "%-16s %11d %11d %11d %11d %11d\n", $1, $2, $3, $4, $5, $6; for (i = 2; i <= 6; i++) sum[i] += $i }
        END { printf "%-16s %11d %11d %11d %11d %11d\n", "all", sum[2], sum[3], sum[4], sum[5], sum[6] }'
    echo
    echo "what the statements of the outside calls rest on:"
    believed | while IFS=/ read -r crate module; do
        echo "$(count "crates/$crate/specs/$module.antt") crates/$crate/specs/$module.antt"
    done | awk '{ printf "%5d %s\n", $1, $2; sum += $1 } END { printf "%5d lines in all\n", sum }'
    echo
    for crate in $(crates); do
        is_program "$crate" || continue
        said_of "$crate" | sed -n "/: none reached of /d; s/^axioms [^:]*: /the program $crate assumes /p"
        calls=$(nm -D --undefined-only "crates/$crate/out/$crate" | sed -n 's/.* U \([^@]*\).*/\1/p' | tr '\n' ' ')
        echo "the program $crate calls of the C library: $calls"
    done
    echo "toolchain: $(rt version)"
}

verdicts
outside_calls
header
sources
sizes
echo "$passed passed, $failed failed"
[ "$failed" -eq 0 ] && [ "$passed" -gt 0 ]
