#!/bin/sh
# Installs the archive given into folders of its own, and uses the copy as a stranger would: by pkg-config, man and
# nothing else. The last line is 'N passed, M failed'.
#
#   tests/installed.sh [ARCHIVE]
set -u
cd "$(dirname "$0")/.." || exit 1
unset MAKEFLAGS MFLAGS MAKELEVEL PKG_CONFIG_PATH PKG_CONFIG_LIBDIR PKG_CONFIG_SYSROOT_DIR LD_LIBRARY_PATH
archive=${1:-target/staticlib/libsheet.a}
here=$PWD
work=$(mktemp -d) || exit 1
trap 'rm -rf "$work"' EXIT
passed=0 failed=0
prefix=$work/prefix
cc=cc readelf=readelf
[ "$(uname -m)" = x86_64 ] || cc=x86_64-linux-gnu-gcc readelf=x86_64-linux-gnu-readelf
version=$(sed -n 's/^#define SHEET_VERSION "\(.*\)"$/\1/p' include/sheet.h)
answers=${version%.*}

verdict() { # NAME STATUS
    if [ "$2" -eq 0 ]; then
        echo "ok     $1"
        passed=$((passed + 1))
    else
        echo "FAILED $1"
        failed=$((failed + 1))
    fi
}

# Are the two files alike, and not empty?
same() { # NAME WANTED FILE
    [ -s "$2" ] && diff "$2" "$3"
    verdict "$1" $?
}

install_to() { make -s LIB="$archive" "$@" install; } # VARIABLES...
uninstall_from() { make -s LIB="$archive" "$@" uninstall; }

# ---- the files

# What the header declares, in lower case: each has its page.
called() {
    sed -n -e 's/^uint64_t \(sheet_[a-z_]*\)(.*/\1/p' -e 's/^#define \(sheet_[a-z]*\)(.*/\1/p' include/sheet.h
}

wanted_files() {
    {
        printf '%s\n' '644 include/sheet.h' '644 lib/libsheet.a' "755 lib/libsheet.so.$version" \
            '777 lib/libsheet.so libsheet.so.0' "777 lib/libsheet.so.0 libsheet.so.$version" \
            '644 lib/pkgconfig/sheet.pc' '644 share/man/man3/sheet.3'
        called | sed 's|.*|644 share/man/man3/&.3|'
    } | LC_ALL=C sort
}

# The mode and name of each file below a folder, and where a link points.
files() { # FOLDER
    find "$1" ! -type d -printf '%m %P %l\n' | sed 's/ *$//' | LC_ALL=C sort
}

# Without it nothing else can be tried.
installs() {
    install_to PREFIX="$prefix"
    status=$?
    verdict "make install" $status
    return $status
}

installed_files() {
    wanted_files >"$work/wanted"
    files "$prefix" >"$work/found"
    same "its files and their modes" "$work/wanted" "$work/found"
    cmp include/sheet.h "$prefix/include/sheet.h" && cmp "$archive" "$prefix/lib/libsheet.a"
    verdict "the header and the archive as they are" $?
}

# ---- the shared object

# What the symbols are that it gives to programs, with the version that they must have been made for.
given() { $readelf --dyn-syms -W "$1" | awk '$4 == "FUNC" && $7 != "UND" { print $8 }' | LC_ALL=C sort; } # OBJECT

# The libraries that a program or an object needs.
needed() { $readelf -d "$1" | sed -n 's/.*(NEEDED).*\[\(.*\)\].*/\1/p'; } # FILE

shared_object() {
    sed -n "s/^uint64_t \(sheet_[a-z_]*\)(.*/\1@@SHEET_$answers/p" include/sheet.h | LC_ALL=C sort >"$work/wanted"
    given "$prefix/lib/libsheet.so" >"$work/found"
    same "the shared object gives the header's calls alone" "$work/wanted" "$work/found"
    [ "$(needed "$prefix/lib/libsheet.so")" = libc.so.6 ]
    verdict "and needs the C library alone" $?
    $readelf -d "$prefix/lib/libsheet.so" >"$work/dynamic"
    grep -q 'SONAME.*\[libsheet.so.0\]' "$work/dynamic" && ! grep -q TEXTREL "$work/dynamic"
    verdict "its name is libsheet.so.0, and its code stays as it is where it is loaded" $?
}

# ---- programs

# Looked for in the installed copy and nowhere else, or there first.
flags() { echo $(PKG_CONFIG_LIBDIR="$prefix/lib/pkgconfig" pkg-config "$@" sheet); }
flags_beside_others() { echo $(PKG_CONFIG_PATH="$prefix/lib/pkgconfig" pkg-config "$@" sheet); }

pkg_config() {
    [ "$(flags --cflags --libs)" = "-I$prefix/include -L$prefix/lib -lsheet" ]
    verdict "pkg-config gives the copy's folders" $?
    [ "$(flags_beside_others --cflags --libs)" = "-I$prefix/include -L$prefix/lib -lsheet" ]
    verdict "and finds it beside other libraries" $?
    [ -n "$version" ] && [ "$(flags --modversion)" = "$version" ]
    verdict "the header's version is pkg-config's" $?
}

# Document 01's marked cases (b), (e) and (h) on its sheet A, with sides as request No. 3 has them.
wanted_print() {
    cat <<'END'
nodes 9
east of node 1: node 2, grey, side 2
south-east of node 1: node 8, white, side 2
north-west of node 1: code 20
END
}

# The flags go before and after those of pkg-config; the program sees nothing of this folder.
builds() { # NAME BEFORE AFTER
    (cd "$work" && cp "$here/tests/installed/neighbours.c" . &&
        $cc -std=c99 -O2 -Wall -Wextra -Werror neighbours.c $2 $(flags --cflags --libs) $3 -o "$1")
    verdict "$1: a program is built with what pkg-config says" $?
}

programs() {
    wanted_print >"$work/wanted"
    builds shared '' ''
    needed "$work/shared" | grep -qx libsheet.so.0 && $readelf -V "$work/shared" | grep -q "Name: SHEET_$answers "
    verdict "shared: it needs the shared object, and one with these answers" $?
    LD_LIBRARY_PATH=$prefix/lib tests/on-x86 "$work/shared" >"$work/found"
    same "shared: it prints what it should" "$work/wanted" "$work/found"
    builds static -Wl,-Bstatic -Wl,-Bdynamic
    [ "$(needed "$work/static")" = libc.so.6 ]
    verdict "static: it needs the C library alone" $?
    tests/on-x86 "$work/static" >"$work/found"
    same "static: it prints what it should" "$work/wanted" "$work/found"
}

# ---- pages

formatted_page() {
    page=$prefix/share/man/man3/sheet.3
    groff -man -ww -z -Tutf8 "$page" >"$work/said" 2>&1 && [ ! -s "$work/said" ]
    verdict "the man page is formatted without a warning" $?
    groff -man -Tascii -rLL=80n -P-c -P-b -P-u "$page" >"$work/page"
    [ -s "$work/page" ] && awk 'length > 80 { print; wide = 1 } END { exit wide }' "$work/page"
    verdict "in 80 columns" $?
    lost=$(called | while read -r name; do
        grep -Eq "^ *(uint64_t $name[(]|$name[(]answer[)]\$)" "$work/page" || echo "$name"
    done)
    [ -z "$lost" ]
    verdict "it has every call and macro" $?
    lost=$(sed -n 's/^#define \(SHEET_[A-Z_]*\) .*/\1/p' include/sheet.h |
        while read -r name; do grep -Eq "^ *$name +[0-9\"]" "$work/page" || echo "$name"; done)
    [ -z "$lost" ]
    verdict "it has every constant with its number" $?
}

found_pages() {
    lost=$(for name in sheet $(called); do
        man -M "$prefix/share/man" 3 "$name" 2>&1 | grep -q 'quadtree map sheets' || echo "$name"
    done)
    [ -z "$lost" ]
    verdict "man finds a page for each of them" $?
}

# Does what needs a program, if that is here.
with() { # PROGRAM COMMAND
    if command -v "$1" >/dev/null; then "$2"; else echo "left out: the man pages by $1, which is not here" >&2; fi
}

# ---- away again

uninstalls() {
    touch "$prefix/lib/libsheet.so.old"
    uninstall_from PREFIX="$prefix"
    [ "$(find "$prefix" ! -type d)" = "$prefix/lib/libsheet.so.old" ] && [ -d "$prefix/share/man/man3" ]
    verdict "make uninstall takes away its own files and no other" $?
}

# ---- other folders

staged() {
    (umask 077 && install_to DESTDIR="$work/stage" PREFIX=/usr)
    wanted_files >"$work/wanted"
    files "$work/stage/usr" >"$work/found"
    same "DESTDIR: the same files, whatever the umask" "$work/wanted" "$work/found"
    [ -z "$(find "$work/stage/usr" -type d ! -perm 755)" ]
    verdict "DESTDIR: folders that all may enter" $?
    ! grep -r "$work" "$work/stage"
    verdict "DESTDIR: nothing names it" $?
    grep -qx 'prefix=/usr' "$work/stage/usr/lib/pkgconfig/sheet.pc"
    verdict "DESTDIR: pkg-config is told the prefix" $?
    uninstall_from DESTDIR="$work/stage" PREFIX=/usr
    [ -d "$work/stage/usr/lib" ] && [ -z "$(find "$work/stage" ! -type d)" ]
    verdict "DESTDIR: make uninstall leaves no file" $?
}

# Each folder by itself: one in the prefix, and the others away from it.
chosen() {
    prefix=$work/chosen
    set -- PREFIX="$prefix" libdir="$prefix/lib/wide" includedir="$work/own/include" mandir="$work/own/man" \
        pkgconfigdir="$prefix/lib/pkgconfig"
    install_to "$@" && [ -f "$work/own/man/man3/sheet.3" ] &&
        [ "$(flags --cflags --libs)" = "-I$work/own/include -L$prefix/lib/wide -lsheet" ]
    verdict "folders of one's own" $?
    uninstall_from "$@"
    [ -z "$(find "$prefix" "$work/own" ! -type d)" ]
    verdict "make uninstall leaves no file in them" $?
    ! install_to PREFIX="$work/with space" 2>/dev/null && [ ! -e "$work/with" ] && [ ! -e "$work/with space" ]
    verdict "a folder with a space in its name is refused" $?
    ! install_to PREFIX="$work/this&that" 2>/dev/null && [ ! -e "$work/this" ] && [ ! -e "$work/this&that" ]
    verdict "and so is one with a sign of the shell's" $?
}

for tool in pkg-config "$readelf" "$cc"; do
    command -v "$tool" >/dev/null && continue
    verdict "$tool is here, which this test needs" 1
done
if [ "$failed" -eq 0 ] && installs; then
    installed_files
    shared_object
    pkg_config
    programs
    with groff formatted_page
    with man found_pages
    uninstalls
    staged
    chosen
fi
echo "$passed passed, $failed failed"
[ "$failed" -eq 0 ] && [ "$passed" -gt 0 ]
