#!/usr/bin/env bash
# Builds the benchmark and runs it.
#   run.sh                      the product beside the C of plain.c
#   run.sh growth               the same; then docs/GROWTH.md and docs/growth.svg are written anew
#   run.sh loads                the ordinary load and the load from row counts, of the product and of the C
#   run.sh before REV           beside the archives of an earlier revision, all in turns in one run
#   run.sh compare COUNT SEED   random queries, on which the product and the C must answer alike
set -euo pipefail
cd "$(dirname "$0")/.."
out=target/bench
bench=$out/bench
mkdir -p "$out"

build() { # further words for the linker
    gcc -O2 -Wall -Wextra -Iinclude -Ibench -c bench/plain.c -o "$out/plain.o"
    gcc -O3 -march=native -Iinclude -Ibench -Dplain_load=fast_load -Dplain_load_rows=fast_load_rows -Dplain_solve=fast_solve -Dplain_plan=fast_plan -c bench/plain.c -o "$out/fast.o"
    gcc -O2 -Wall -Wextra -Iinclude -Ibench bench/bench.c bench/queries.c "$out/plain.o" "$out/fast.o" -Ltarget/staticlib -ltimed -lfanchuki "$@" -o "$bench"
}

# Proves the archives of REV by its own sources, into FOLDER. The sources stand outside this checkout, in which rt wants no
# others; this kit proves no revision that was written for the kits before rattle-kit-13f.
archives_of() { # REV FOLDER
    local name log=$PWD/$out/before.log
    sources=$(mktemp -d)
    trap 'rm -rf "$sources"' EXIT
    git archive "$1" | tar -x -C "$sources"
    for name in fanchuki timed; do
        (cd "$sources/crates/$name" && rt lib) >"$log" 2>&1 ||
            { tail -n 20 "$log"; echo "run.sh: $name of $1 is not proved by this kit ($log)" >&2; exit 1; }
        cp "$sources/crates/$name/out/lib$name.a" "$2"
    done
}

# Builds the archives of REV once, and renames what they export, so that both link into one program.
build_before() { # REV
    local rev was name archives=()
    rev=$(git rev-parse --verify --quiet "$1^{commit}") || { echo "run.sh: no revision $1" >&2; exit 2; }
    was=$out/before/$rev
    if [ ! -f "$was/built" ]; then
        rm -rf "$was" && mkdir -p "$was"
        archives_of "$rev" "$was"
        touch "$was/built"
    fi
    for name in fanchuki timed; do
        objcopy --redefine-sym fanchuki_plan=before_plan --redefine-sym fanchuki_solves=before_solves \
            --redefine-sym fanchuki_loads=before_loads --redefine-sym fanchuki_row_loads=before_row_loads "$was/lib$name.a" "$out/before/lib$name.a"
        archives+=("$out/before/lib$name.a")
    done
    build -Wl,--whole-archive "${archives[@]}" -Wl,--no-whole-archive
}

count() { # TIMES PLANNER WORK SHAPE LINES N S: the instructions of so many
    local inside
    case $3 in
    solve) inside=$2_solves ;;
    call) inside=$2_plan ;;
    load) inside=$2_loads ;;
    rows) inside=$2_row_loads ;;
    esac
    valgrind --tool=callgrind --callgrind-out-file=/dev/null --toggle-collect="$inside" "$bench" repeat "$@" 2>&1 </dev/null |
        sed -n 's/.*refs: *\([0-9,]*\).*/\1/p' | tr -d ,
}

# A row for each shape and work, a column for each planner, and the first planner's ratio to the second.
counts() { # SHAPES WORKS TIMES PLANNER..
    local shapes=$1 works=$2 times=$3
    shift 3
    command -v valgrind >/dev/null || return 0
    printf '\n%-37s' "instructions"
    printf '%10s' "$@" ratio
    printf '\n'
    "$bench" $shapes | while read -r shape lines n s; do
        for work in $works; do
            for planner in "$@"; do count $times "$planner" $work "$shape" "$lines" "$n" "$s"; done |
                awk -v times=$times -v row="$(printf '%-6s %dx%d %-7s %s' "$shape" "$n" "$s" "$lines" "$work")" '
                    { one[NR] = $1 / times }
                    END {
                        printf "%-37s", row
                        for (i = 1; i <= NR; i++) printf "%10d", one[i]
                        printf "%10s\n", one[2] ? sprintf("%.3f", one[1] / one[2]) : "-"
                    }'
        done
    done
}

loads() {
    { "$bench" loads && counts 'shapes loads' 'load rows' 1000 fanchuki plain; } | tee "$out/loads.txt"
}

tests/prove.sh lib fanchuki timed
case ${1:-} in
compare)
    build
    "$bench" "$@"
    ;;
loads)
    build
    loads
    ;;
before)
    build_before "${2:?the revision to measure beside}"
    { "$bench" before && counts shapes 'solve call' 100 fanchuki before plain; } | tee "$out/before.txt"
    ;;
*)
    build
    { "$bench" && counts shapes 'solve call' 100 fanchuki plain; } | tee "$out/shapes.txt"
    if [ "${1:-}" = growth ]; then
        loads
        "$bench" growth >"$out/growth.txt"
        python3 bench/growth.py <"$out/growth.txt"
    fi
    ;;
esac
