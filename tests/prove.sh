#!/usr/bin/env bash
# prove.sh ci           rt's gate over the whole repository, which builds the programs too
# prove.sh run NAME..   proves and builds these programs, and runs each on its stored input
# prove.sh lib NAME..   proves and builds these archives
# Each with a line for each crate proved, edit refused and program run. What rt says is kept in target/log; where it fails,
# what is not routine in it is shown. What is built is put into target/bin and target/staticlib, where all else looks for it.
set -uo pipefail
cd "$(dirname "$0")/.." || exit 2
top=$PWD
mkdir -p target/log target/bin target/staticlib || exit 2

brief() {
    sed -un -e 's/^rt: chose --jobs .* for /proving /p; t' \
        -e 's/^rt: \([^ ]*\) proved$/proved \1/p; t' \
        -e 's/^rt: \([^ ]*\): its tests are proved$/proved the tests of \1/p; t' \
        -e 's/^rt: \([^ ]*\) is kept: .*/kept \1/p; t' \
        -e 's/^rt: must-fail \(.*\)\.edit: refused, as it must be (\(only [^,]*\),.*/refused \1, \2/p; t' \
        -e 's/^rt: must-fail \(.*\)\.edit: refused, as it must be.*/refused \1/p; t' \
        -e 's/^rt: \([^ ]*\) ran\(.*\), and wrote what its file stdout has$/ran \1\2/p; t' \
        -e '/^rt: ok; /d; /^rt: running /d; /^rt: nothing has changed /d; /^rt: [^ ]*: begins with /d; /^rt: /p'
}

routine='^(fn|struct|enum|impl) .*: proved|^(logic|library|crate|statements|axioms|linked) |^logic=proved|^only='
routine="$routine|^empty contracts: 0 found|: note: .search. made no use of|^note: no function with a body|^== "
routine="$routine|^rt: (chose|running|nothing has changed) |^rt: [^ ]+ (proved$|is kept: |ran)|^rt: [^ ]+: (its|trying|begins) "
routine="$routine|^rt: must-fail [^ ]+: refused,|^tests: |^test .* ok$|^test result: ok"

# step NAME COMMAND..   runs the command, in brief; all that it says stands in target/log/rt-NAME.txt. Where it fails, so does the run.
step() {
    local log=$top/target/log/rt-$1.txt status
    began=$SECONDS
    echo "== rt ${1/-/ }"
    "${@:2}" </dev/null 2>&1 | tee "$log" | brief
    status=${PIPESTATUS[0]}
    [ "$status" -ne 0 ] || return 0
    echo "rt ${1/-/ } FAILED:"
    grep -Ev "$routine" "$log" | cut -c 1-300 | head -n 20
    echo "(all that it printed: $log)"
    exit "$status"
}

ended() { # WHAT
    echo "   $1 ($((SECONDS - began)) s)"
}

program() { # NAME
    cd "crates/$1" && rt run <stdin >"$top/target/log/$1.stdout" && cmp stdout "$top/target/log/$1.stdout"
}

archive() { # NAME
    cd "crates/$1" && rt lib
}

put() { # MODE FILE FOLDER
    install -m "$1" "$2" "$3" || exit 2
}

case ${1:-} in
ci)
    step ci rt ci
    for main in crates/*/src/main.rt; do
        name=$(basename "${main%/src/main.rt}")
        put 755 "crates/$name/out/$name" target/bin
    done
    ended "$(sed -n 's/^rt: \(ok; .*\)/\1/p' target/log/rt-ci.txt)"
    ;;
run)
    for name in "${@:2}"; do
        step "run-$name" program "$name"
        put 755 "crates/$name/out/$name" target/bin
        ended "target/bin/$name"
    done
    ;;
lib)
    for name in "${@:2}"; do
        step "lib-$name" archive "$name"
        put 644 "crates/$name/out/lib$name.a" target/staticlib
        ended "target/staticlib/lib$name.a"
    done
    ;;
*)
    echo "usage: prove.sh ci | run NAME.. | lib NAME.." >&2
    exit 2
    ;;
esac
