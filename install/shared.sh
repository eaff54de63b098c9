#!/usr/bin/env bash
# Links target/install/libfanchuki.so.VERSION from the proved archive, with the one symbol that the archive exports. -z text
# refuses code that must be changed to be loaded; -z now binds memcpy and memset before the first call, which then needs no
# more than the stack that the header states.
set -euo pipefail
cd "$(dirname "$0")/.."
. install/version.sh
archive=target/staticlib/libfanchuki.a
[ -f "$archive" ] || { echo "no $archive: 'make built' makes it" >&2; exit 1; }
mkdir -p target/install
gcc -shared -o "target/install/libfanchuki.so.$version" -Wl,-soname,"libfanchuki.so.$major" \
    -Wl,--whole-archive "$archive" -Wl,--no-whole-archive -Wl,--version-script=install/fanchuki.map \
    -Wl,-z,defs -Wl,-z,text -Wl,-z,now -Wl,-z,relro -Wl,-z,noexecstack
