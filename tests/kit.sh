#!/usr/bin/env bash
# Warns where the Rattle kit is another one than the proofs were made with (kit-version): another checker may refuse them.
set -euo pipefail
cd "$(dirname "$0")/.."
made_with=$(cat kit-version)
command -v rt >/dev/null || { echo "no rt: the proofs need the Rattle kit, '$made_with'" >&2; exit 2; }
here=$(rt version)
[ "$here" = "$made_with" ] || cat >&2 <<END
WARNING: the Rattle kit here is another one than the proofs were made with.
    here       $here
    made with  $made_with
A proof that fails below may fail for that reason alone.
END
