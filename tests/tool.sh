#!/usr/bin/env bash
# make plan and make explain on a query of the user's, over the built programs: nothing is proved here.
set -euo pipefail
cd "$(dirname "$0")/.."

fail() {
    echo "tool: $*" >&2
    exit 1
}

# A make of its own, beside the one that may be running this.
make_() { # WORDS..
    env -u MAKEFLAGS -u MAKELEVEL -u Q -u ARGS -u FANCHUKI_PROGRAMS make --no-print-directory -o programs "$@"
}

planned() { # EXPECTED WORDS..
    local found
    found=$(make_ plan "${@:2}") || fail "make plan ${*:2} ends with $?"
    [ "$found" = "$1" ] || fail "make plan ${*:2} prints '$found'"
}

refused() { # LINE WORDS..
    local found
    found=$(make_ "${@:2}" 2>target/outside/refused.txt) && fail "make ${*:2} ends with 0"
    [ -z "$found" ] || fail "make ${*:2} prints '$found'"
    grep -qe "$1" target/outside/refused.txt || fail "make ${*:2} says '$(cat target/outside/refused.txt)'"
}

mkdir -p target/outside
q=$(target/bin/plan <examples/q.query)
cp examples/q.txt "target/outside/it's my query.txt"
planned "$q" Q=examples/q.txt
planned "$q" Q=examples/q.query
planned "$q" Q="target/outside/it's my query.txt"
planned "$q" Q=- <examples/q.query
planned "$(cat tools/tests/stored/plan-chain-from-rows.txt)" Q=examples/chain-from-rows.txt
planned "$(cat tools/tests/stored/plan-chain-from-rows.txt)" Q=examples/chain-from-rows.rows ARGS=--rows
refused '^fanchuki: no such file.txt: ' plan Q='no such file.txt'
refused '^make: .* Error 1$' plan Q=examples/draft.txt
refused '^make: .* Error 2$' explain Q='no such file.txt'
make_ explain >target/outside/explained.txt
make_ explain Q="target/outside/it's my query.txt" | cmp - target/outside/explained.txt
grep -qw 21 target/outside/explained.txt || fail "make explain does not tell the cost of Q"
echo "tool: ok"
