#!/usr/bin/env bash
# The tests from outside: the C call at its boundary, what the archive copies, the programs' exit codes and what they write where
# room is short, programs and archive held to the reference, the tool, the installed copy. Over the programs in target/bin, which
# stand there after `make programs` and after rt's gate, and over the archive, which is built here.
#   outside.sh [seed=N] [files=N] [lists=N]   so many random files and lists of calls in each comparison, from that seed
set -euo pipefail
cd "$(dirname "$0")/.."
. tests/stage.sh
seed=1 files='' lists=''
for word in "$@"; do
    case $word in
    seed=[0-9]* | files=[1-9]* | lists=[1-9]*) declare "$word" ;;
    *) echo "usage: outside.sh [seed=N] [files=N] [lists=N]" >&2; exit 2 ;;
    esac
done

# By cargo run, which runs what it has just built, wherever cargo is told to put it.
reference() { # PROGRAM WORDS..
    cargo run --quiet --release --offline --manifest-path reference/Cargo.toml --bin "$1" -- "${@:2}"
}

tool() { # WORDS..
    cargo run --quiet --release --offline --manifest-path tools/Cargo.toml -- "$@"
}

over_the_archive() { # PROGRAM WORDS..
    FANCHUKI_ARCHIVE=$PWD/target/staticlib/libfanchuki.a \
        cargo run --quiet --release --offline --manifest-path reference/diff_c/Cargo.toml --bin "$1" -- "${@:2}"
}

own_tests() { # FOLDER
    local log=target/outside/tests-of-$1.txt
    cargo test --quiet --release --offline --manifest-path "$1/Cargo.toml" | tee "$log"
    awk '/^test result: ok/ { passed += $4; left_out += $8 + $12 }
        END { print passed " passed, " left_out " left out"; exit passed == 0 || left_out > 0 }' "$log"
}

examples_packed() {
    for file in examples/*.query examples/*.rows; do
        tool pack "${file%.*}.txt" | cmp - "$file"
    done
}

# The figures of a draft, by way of calls.
draft_shown() {
    tool room examples/draft.txt | tee target/outside/draft.txt
    diff target/outside/draft.txt <(printf '%s\n' "subqueries 11" "cells 33" "trials 36")
}

# The stored lines of calls are stated by a script, not copied from what the program printed.
calls_stated() {
    python3 crates/calls/make_stdin.py target/outside/stdin target/outside/stdout
    cmp target/outside/stdin crates/calls/stdin
    cmp target/outside/stdout crates/calls/stdout
}

for name in plan calls; do
    [ -x "target/bin/$name" ] || { echo "no target/bin/$name: 'make programs' makes it" >&2; exit 1; }
done
# They take nothing that is built here, and longer than anything else here.
beside "the reference's own tests" own_tests reference
tests/prove.sh lib fanchuki
export FANCHUKI_PROGRAMS=$PWD/target/bin
began=$SECONDS
tests/c/run.sh
echo "   the C tests: ok ($((SECONDS - began)) s)"
stage "no list of joins is copied in the archive" tests/copies/run.sh
stage "exit codes" tests/exits.sh
stage "a pipe with little room, and little stack" tests/short.py
stage "the stored cases of calls are the stated ones" calls_stated
stage "the examples are packed from their texts" examples_packed
stage "a draft's figures are shown by way of calls" draft_shown
stage "the tool's own tests" own_tests tools
stage "make plan and make explain on a query" tests/tool.sh
stage "the installed copy" tests/install.sh
stage "plan beside the reference" reference diff_plan target/bin/plan "$seed" ${files:+"$files"}
stage "calls beside the reference" reference diff_calls target/bin/calls "$seed" ${lists:+"$lists"}
stage "the C call beside the reference" over_the_archive diff_c "$seed" ${files:+"$files"}
stage "a soak of the C call" over_the_archive soak 20000 2 "$seed"
stage "planners that nearly work are told apart" reference tell_apart target/bin/plan "$seed" ${files:+"$files"}
beside_ended
echo "outside: ok ($SECONDS s)"
