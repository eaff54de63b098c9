#!/usr/bin/env bash
# No list of joins is copied below solve, nor in a load's table of sets: read off the built archive (tests/prove.sh
# lib fanchuki).
set -euo pipefail
cd "$(dirname "$0")/../.."

# LISTING ROOT COPIES: the test fails on a stored listing, and that is what it counts in it.
finds() {
    local said status=0
    said=$(python3 tests/copies/copies.py "tests/copies/$1.txt" "$2") || status=$?
    said=$(tail -n 1 <<<"$said")
    if [ "$status" != 1 ] || [ "$said" != "copies: $3" ]; then
        echo "copies: in $1 it finds '$said' (status $status) and not '$3'"
        exit 1
    fi
    echo "copies: found in $1: $3"
}

echo "== the test finds copies where they are"
# Of an archive in which growth and splits took the list itself: a function, and the parts of two others that matter.
finds before-grow grow "3 of a list of joins"
finds before-solved solved "3 of a list of joins"
finds before-join_table join_table "1 of a list of joins"
finds query-in-a-loop again "1 of the query, again and again"

echo "== the archive"
python3 tests/copies/copies.py target/staticlib/libfanchuki.a
