#!/usr/bin/env bash
# Every test. rt's gate comes first, on the checkout as it stands, and its tally is printed last, so that a failure of any
# other test ends the run before it.
set -euo pipefail
cd "$(dirname "$0")/.."
crates=(crates/*/src) edits=(crates/*/must-fail/*.edit)
log=target/log/rt-ci.txt

fail() {
    echo "FAILED: $*"
    exit 1
}

echo "${#crates[@]} crates to prove, ${#edits[@]} edits to refuse"
tests/prove.sh ci
tally=$(tail -n 1 "$log")
# rt passes where an edit cannot be applied or read, and says so in this line.
bad=$(sed -n 's/^rt: ok; .*; must-fail edits: .*, \([0-9]*\) bad; .*/\1/p' "$log")
[ -z "$bad" ] || fail "edits that cannot be applied or read: $bad (BAD EDIT in $log)"
# A crate or an edit that rt passed over would be missing in its tally.
[ "$tally" = "$((${#crates[@]} + ${#edits[@]})) passed, 0 failed" ] ||
    fail "rt counts ${tally%% *} crates and edits in all, and there are ${#crates[@]} and ${#edits[@]}"
tests/outside.sh
echo "$tally"
