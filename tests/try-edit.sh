#!/usr/bin/env bash
# try-edit.sh CRATE NAME   applies crates/CRATE/must-fail/NAME.edit to a copy of the crates and shows where the check first
# refuses it. `rt must-fail CRATE` tries all edits of the crate, and shows the first line of each refusal.
set -euo pipefail
cd "$(dirname "$0")/.."
[ $# -eq 2 ] && [ -f "crates/$1/must-fail/$2.edit" ] || { echo "usage: try-edit.sh CRATE NAME, an edit of crates/CRATE/must-fail" >&2; exit 2; }
mkdir -p target
log=$PWD/target/try-edit.txt
(cd "crates/$1" && rt check) >"$log" 2>&1 || { echo "$1 is not proved as it is ($log)" >&2; exit 2; }
# Outside this checkout, in which rt wants no other crates. A check there begins with what this one has kept.
copy=$(mktemp -d)
trap 'rm -rf "$copy"' EXIT
tar -c --exclude='crates/*/out' crates crates.txt | tar -x -C "$copy"
python3 - "$copy/crates/$1" "$2" <<'END'
import sys
crate, name = sys.argv[1:]
for line in open(f"{crate}/must-fail/{name}.edit", encoding="utf-8").read().splitlines():
    word, _, text = line.partition(" ")
    if word == "file:":
        path = f"{crate}/{text}"
    elif word == "old:":
        old = text
    elif word == "new:":
        whole = open(path, encoding="utf-8").read()
        if whole.count(old) != 1:
            sys.exit(f"{name}: '{old}' occurs {whole.count(old)} times in {path}")
        open(path, "w", encoding="utf-8").write(whole.replace(old, text))
END
cd "$copy/crates/$1"
if rt check >"$log" 2>&1; then
    echo "NOT REFUSED"
    exit 1
fi
grep -nE 'error|: not proved|: no proof' "$log" | grep -v 'advice on a' | head -n 5 | cut -c 1-600
echo "(all of it: $log)"
