#!/usr/bin/env bash
# The tests of the C call, over a built archive (tests/prove.sh lib fanchuki): the example, the header, the boundary, the stack.
set -euo pipefail
cd "$(dirname "$0")/../.."
out=target/outside/c
mkdir -p "$out"

warnings="-Wall -Wextra -Wpedantic -Wconversion -Wsign-conversion -Wshadow -Wcast-qual -Wundef -Werror"
c_warnings="-Wstrict-prototypes -Wmissing-prototypes"
build() { # NAME COMPILER WORDS..
    local name=$1
    shift
    "$@" -O2 -g $warnings -Iinclude -Ltarget/staticlib -lfanchuki -o "$out/$name"
}

echo "== the C example"
build example gcc -std=c99 $c_warnings examples/plan.c
"$out/example" examples/q.query | diff - <(printf '%s\n' "load 0" "load 1" "send 0" "join 0")

echo "== the header in C and C++"
compilers=("gcc -std=c99 $c_warnings" "gcc -std=c11 $c_warnings" "g++ -std=c++11" "g++ -std=c++17")
if command -v clang >/dev/null; then
    compilers+=("clang -std=c99 $c_warnings" "clang -x c++ -std=c++11")
fi
for compiler in "${compilers[@]}"; do
    build header $compiler tests/c/header.c -x none
    "$out/header" examples/q.query
    echo "header: as it should be: ${compiler% "$c_warnings"}"
done

echo "== the C boundary between guard pages"
boundary="$c_warnings tests/c/boundary.c tests/c/guarded.c tests/c/examples.c"
build boundary gcc -std=gnu99 $boundary
"$out/boundary"

echo "== the boundary test finds each fault"
build faulty gcc -std=gnu99 -Wl,--wrap=fanchuki_plan tests/c/faulty.c $boundary
FAULT=none "$out/faulty" >/dev/null
finds() { # TEXT FAULT..: with each fault the boundary test ends with 1 and says the text
    local text=$1 fault said status
    shift
    for fault; do
        status=0
        said=$(FAULT=$fault "$out/faulty") || status=$?
        if [ "$status" != 1 ] || [[ $said != *"$text"* ]]; then
            echo "boundary: $fault is not found (status $status): $said"
            exit 1
        fi
        echo "boundary: found: $fault"
    done
}
finds "an access outside" reads-before-the-query reads-past-the-query writes-into-the-query \
    writes-before-the-output writes-past-the-output
finds "a byte of the output's page" writes-behind-the-plan writes-on-a-refusal
finds "the answer" answers-one-less

echo "== the C boundary under valgrind"
if command -v valgrind >/dev/null; then
    valgrind --quiet --error-exitcode=3 "$out/boundary"
else
    echo "boundary: valgrind is not here, so it did not run"
fi

echo "== the stack of the C call"
build stack gcc -std=gnu99 $c_warnings -pthread -Wl,-z,now tests/c/stack.c tests/c/random_query.c tests/c/examples.c
"$out/stack"
