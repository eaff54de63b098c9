#!/usr/bin/env bash
# Sourced by the test scripts, which begin with set -e.

# stage NAME COMMAND..   runs a test: its name when it begins, the last line that it prints and its time when it ends.
# All that it prints is kept in target/outside/; where it fails that is shown, and the run ends.
stage() {
    local name=$1 began=$SECONDS log=target/outside/${1//[^a-zA-Z]/-}.txt status last
    shift
    mkdir -p target/outside
    echo "== $name"
    # Not after 'if' or '||': there bash goes on behind a command that fails.
    set +e
    (set -e; "$@") >"$log" 2>&1 </dev/null
    status=$?
    set -e
    if [ "$status" -ne 0 ]; then
        cat "$log"
        echo "FAILED: $name, with $status after $((SECONDS - began)) s (all that it printed: $log)"
        exit 1
    fi
    last=$(tail -n 1 "$log")
    echo "   ${last:-ok} ($((SECONDS - began)) s)"
}

# beside NAME COMMAND..   begins a stage that runs beside those after it; beside_ended waits for it, shows what it printed, and
# ends the run where it failed. A run that ends before that waits for it too, so that nothing is left running.
beside() {
    mkdir -p target/outside
    stage "$@" >target/outside/beside.txt 2>&1 &
    beside_pid=$!
    trap wait EXIT
}

beside_ended() {
    local status=0
    wait "$beside_pid" || status=$?
    cat target/outside/beside.txt
    [ "$status" -eq 0 ] || exit 1
}
