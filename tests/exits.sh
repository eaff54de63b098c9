#!/usr/bin/env bash
# What the built programs do where their output cannot be written: they end at once and say so on standard error.
# They have no exit status of their own. A pipe that nobody reads may end them by its signal.
set -euo pipefail
cd "$(dirname "$0")/.."

fail() {
    echo "exits: $*" >&2
    exit 1
}

# NAME INPUT LINE: the program NAME on INPUT, which says LINE where a write fails.
try() {
    local run=target/bin/$1 input=$2 line=$3 said status
    said=$("$run" <"$input" 2>&1 >/dev/null) || fail "$1 ends with $?"
    [ -z "$said" ] || fail "$1 says '$said' where all is written"
    said=$("$run" <"$input" 2>&1 >/dev/full) || true
    [ "$said" = "$line" ] || fail "$1 says '$said' on a full device"
    said=$("$run" <"$input" 2>&1 >&-) || true
    [ "$said" = "$line" ] || fail "$1 says '$said' on a closed output"
    exec 3> >(:)
    wait $!
    status=0
    said=$("$run" <"$input" 2>&1 >&3) || status=$?
    exec 3>&-
    [ "$status" -eq 141 ] || [ "$said" = "$line" ] || fail "$1 says '$said' on a pipe that nobody reads"
}

try plan examples/q.query "plan: the listing was not written"
try calls crates/calls/stdin "calls: an answer was not written"
echo "exits: ok"
