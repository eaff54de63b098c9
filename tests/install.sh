#!/usr/bin/env bash
# What make install puts in place, that it serves (C static and shared by pkg-config, Python, the tool), and that make
# uninstall takes it away. Over the built programs and the archive: nothing is proved here.
set -euo pipefail
cd "$(dirname "$0")/.."
. install/version.sh
work=$(mktemp -d) # outside this checkout, in which rt wants no links
trap 'rm -rf "$work"' EXIT
archive=target/staticlib/libfanchuki.a
shared=target/install/libfanchuki.so.$version

fail() {
    echo "install: $*" >&2
    exit 1
}

same() { # WHAT FOUND EXPECTED
    [ "$2" = "$3" ] || fail "$1: found '$2', expected '$3'"
}

# A make of its own, beside the one that may be running this.
make_() { # TARGET; by root, prefix and libdir
    env -u MAKEFLAGS -u MAKELEVEL -u Q -u INCLUDEDIR -u MANDIR \
        make --no-print-directory -o built "$1" DESTDIR="$root" PREFIX="$prefix" LIBDIR="$libdir"
}

defined() { # NM-WORDS..
    nm --defined-only "$@" | awk 'NF == 3 { print $3 }'
}

# Position-independent code, and one symbol for callers, in the archive and in the shared object.
symbols() {
    local dynamic
    same "the archive's symbols" "$(defined -g "$archive")" fanchuki_plan
    same "the shared object's symbols" "$(defined -D "$shared")" fanchuki_plan
    dynamic=$(readelf -dW "$shared")
    [[ $dynamic = *"Library soname: [libfanchuki.so.$major]"* ]] || fail "the soname is not libfanchuki.so.$major"
    [[ $dynamic != *TEXTREL* ]] || fail "the shared object's code is changed to be loaded"
    [[ $dynamic = *" NOW"* ]] || fail "the shared object binds its calls late"
    [[ $(readelf -lW "$shared") != *"GNU_STACK"*RWE* ]] || fail "the shared object asks for a stack that can be run"
}

# Each with its mode, and where a link leads; nothing else stands below the root.
files() {
    diff <(find "$root" ! -type d -printf '%m /%P %l\n' | LC_ALL=C sort) <(LC_ALL=C sort <<END
755 $prefix/bin/fanchuki 
644 $prefix/include/fanchuki.h 
644 $libdir/libfanchuki.a 
777 $libdir/libfanchuki.so libfanchuki.so.$major
777 $libdir/libfanchuki.so.$major libfanchuki.so.$version
755 $libdir/libfanchuki.so.$version 
644 $libdir/pkgconfig/fanchuki.pc 
755 $prefix/libexec/fanchuki/calls 
755 $prefix/libexec/fanchuki/plan 
644 $prefix/share/man/man1/fanchuki.1 
END
    ) || fail "other files below '$root' than expected (>)"
}

pkg_config() { # WORDS..
    PKG_CONFIG_SYSROOT_DIR=$root PKG_CONFIG_LIBDIR=$root$libdir/pkgconfig pkg-config "$@" fanchuki
}

# It prints the steps of each example, as the program plan does below its heading.
plans() { # WHAT COMMAND..
    local file
    for file in examples/*.query; do
        same "$1 on $file" "$("${@:2}" "$file")" "$(target/bin/plan <"$file" | tail -n +2)"
    done
}

needed() { # PROGRAM
    readelf -dW "$1" | sed -n 's/.*(NEEDED).*\[\(libfanchuki.*\)\]/\1/p'
}

# pkg-config writes a blank in a path as the shell reads it.
c_compiled() { # NAME [-static]
    local flags
    flags=$(pkg_config --cflags --libs ${2:+--static})
    eval "flags=($flags)"
    gcc -Wall -Wextra -Werror -o "$work/$1" examples/plan.c ${2:+"$2"} "${flags[@]}"
}

c() {
    same "pkg-config's version" "$(pkg_config --modversion)" "$version"
    ! grep -F "$root" "$root$libdir/pkgconfig/fanchuki.pc" || fail "the pkg-config file has DESTDIR in it"
    c_compiled plan-shared
    same "the shared object that C needs" "$(needed "$work/plan-shared")" "libfanchuki.so.$major"
    LD_LIBRARY_PATH=$root$libdir plans "C, shared" "$work/plan-shared"
    gcc -o "$work/plan-archive" -I"$root$prefix/include" examples/plan.c "$root$libdir/libfanchuki.a"
    same "the shared object that C with the archive needs" "$(needed "$work/plan-archive")" ""
    plans "C, by the archive" "$work/plan-archive"
    [ -f "$(gcc -print-file-name=libc.a)" ] || { echo "no libc.a: nothing is linked with -static"; return; }
    c_compiled plan-static -static
    plans "C, static" "$work/plan-static"
}

python() {
    local found
    LD_LIBRARY_PATH=$root$libdir plans Python python3 examples/plan.py
    found=$(LD_LIBRARY_PATH=$root$libdir python3 examples/plan.py examples/q.txt) && fail "Python ends with 0 on a refusal"
    same "Python on a text" "$found" "refused $(target/bin/plan <examples/q.txt | sed 's/refused //')"
}

# From a folder of its own, so that it finds the programs by its own place alone.
tool() {
    local run=$root$prefix/bin/fanchuki repository=$PWD
    (
        unset FANCHUKI_PROGRAMS
        cd "$root"
        same "the tool's version" "$("$run" --version)" "fanchuki $version"
        same "the tool's plan" "$("$run" plan "$repository/examples/q.txt")" "$listing"
        "$run" explain "$repository/examples/q.txt" >"$work/explained.txt" || fail "the tool does not explain Q"
        grep -qw 21 "$work/explained.txt" || fail "the tool explains Q without its cost"
    )
}

manual() {
    local name page=$root$prefix/share/man/man1/fanchuki.1
    for name in $("$root$prefix/bin/fanchuki" --help | sed -n 's/^  \([a-z]*\) .*/\1/p'); do
        grep -qx ".B fanchuki $name" "$page" || fail "the manual page lacks $name"
    done
    command -v groff >/dev/null || { echo "no groff: the manual page is not set"; return; }
    same "groff on the manual page" "$(groff -man -ww -z "$page" 2>&1)" ""
}

# A stranger's file stays, and so does a folder with one in it.
taken_away() {
    local stranger=$root$prefix/libexec/fanchuki/other
    : >"$stranger"
    make_ uninstall
    same "what uninstall leaves" "$(find "$root" ! -type d)" "$stranger"
    rm "$stranger"
    make_ uninstall
    [ ! -e "${stranger%/*}" ] || fail "uninstall leaves ${stranger%/*}"
    [ -d "$root$prefix/include" ] || fail "uninstall takes a folder that is not its own"
}

installed() { # PREFIX LIBDIR
    prefix=$1 libdir=$2
    rm -rf "$root"
    make_ install
    make_ install
    files
    c
    python
    tool
    manual
    taken_away
}

for program in pkg-config python3 gcc readelf nm; do
    command -v "$program" >/dev/null || fail "no $program, which this test needs"
done
listing=$(target/bin/plan <examples/q.query)
env -u MAKEFLAGS -u MAKELEVEL make --no-print-directory -o programs tool
install/shared.sh
symbols
root=$work/root
installed /opt/fanchuki /opt/fanchuki/lib
root="$work/root of blanks"
installed "/opt/two words" "/opt/lib 64"
! prefix=here libdir=/lib make_ install 2>/dev/null || fail "a prefix that does not begin with / is taken"
echo "install: ok"
