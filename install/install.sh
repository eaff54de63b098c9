#!/usr/bin/env bash
# Puts everything that is built in place, or takes it away again.
#   install.sh put|take   by PREFIX, DESTDIR, LIBDIR, INCLUDEDIR and MANDIR of the environment
# The tool looks for the programs in PREFIX/libexec/fanchuki beside its own PREFIX/bin, so these two stay together.
set -euo pipefail
cd "$(dirname "$0")/.."
. install/version.sh
prefix=${PREFIX:-/usr/local} root=${DESTDIR:-}
libdir=${LIBDIR:-${prefix%/}/lib} includedir=${INCLUDEDIR:-${prefix%/}/include} mandir=${MANDIR:-${prefix%/}/share/man}
for folder in "$prefix" "$libdir" "$includedir" "$mandir" "${root:-/}"; do
    [[ $folder = /* ]] || { echo "'$folder' does not begin with /" >&2; exit 2; }
done
prefix=${prefix%/}

# Everything that is installed: COMMAND MODE FROM TO for each, a link's FROM being what it names.
each() { # COMMAND
    "$1" 644 include/fanchuki.h "$includedir/fanchuki.h"
    "$1" 644 target/staticlib/libfanchuki.a "$libdir/libfanchuki.a"
    "$1" 755 "target/install/libfanchuki.so.$version" "$libdir/libfanchuki.so.$version"
    "$1" link "libfanchuki.so.$version" "$libdir/libfanchuki.so.$major"
    "$1" link "libfanchuki.so.$major" "$libdir/libfanchuki.so"
    "$1" 644 target/install/fanchuki.pc "$libdir/pkgconfig/fanchuki.pc"
    "$1" 755 target/bin/plan "$prefix/libexec/fanchuki/plan"
    "$1" 755 target/bin/calls "$prefix/libexec/fanchuki/calls"
    "$1" 755 tools/target/release/fanchuki "$prefix/bin/fanchuki"
    "$1" 644 install/fanchuki.1 "$mandir/man1/fanchuki.1"
}

there() { # MODE FROM TO
    [ "$1" = link ] || [ -f "$2" ] || { echo "no $2: 'make built' makes it" >&2; exit 1; }
}

put() { # MODE FROM TO
    install -d "$root${3%/*}"
    if [ "$1" = link ]; then
        ln -sfn "$2" "$root$3"
    else
        install -m "$1" "$2" "$root$3"
    fi
}

take() { # MODE FROM TO
    rm -f "$root$3"
}

# A folder below the prefix is told by it, so that pkg-config can be given another prefix.
below_prefix() { # FOLDER
    case $1 in
    "$prefix"/*) printf '${prefix}%s' "${1#"$prefix"}" ;;
    *) printf '%s' "$1" ;;
    esac
}

write_pc() {
    local text
    text=$(cat install/fanchuki.pc.in)
    text=${text//@prefix@/"$prefix"}
    text=${text//@libdir@/"$(below_prefix "$libdir")"}
    text=${text//@includedir@/"$(below_prefix "$includedir")"}
    mkdir -p target/install
    printf '%s\n' "${text//@version@/"$version"}" >target/install/fanchuki.pc
}

case ${1:-} in
put)
    write_pc
    each there
    each put
    ;;
take)
    each take
    [ ! -d "$root$prefix/libexec/fanchuki" ] || rmdir --ignore-fail-on-non-empty "$root$prefix/libexec/fanchuki"
    ;;
*) echo "usage: install.sh put|take" >&2; exit 2 ;;
esac
