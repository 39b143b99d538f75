#!/usr/bin/env bash
# Refuses each allocation of the built program in turn, over the example and over a run that faults:
# each time the program must end with status 7 and write nothing, or answer as with ample memory.
set -eu
top=$(cd "$(dirname "$0")/.." && pwd)
program=${PROGRAM:-$top/crates/coupling_run/out/coupling_run}
[ -x "$program" ] || { echo "fail_alloc: build the program first (./coupling)" >&2; exit 1; }
work=$(mktemp -d)
trap 'rm -rf "$work"' EXIT
gcc -O2 -shared -fPIC -o "$work/fail.so" "$top/bench/fail_alloc.c" -ldl
cp "$top"/examples/base/*.toml "$work"
cd "$work"

# The answer of one run, as its status and its text. The first argument is the number refused.
answer() {
    local status=0
    FAIL_ALLOC=$1 ALLOC_COUNT=$work/count LD_PRELOAD=$work/fail.so "$program" solo ab.toml >text 2>errors || status=$?
    echo "status $status"
    cat text
}

# Refuses each allocation of the case in this folder.
refuse_each() {
    local wanted total got wrong=0 memory=0
    wanted=$(answer 0)
    total=$(cat count)
    for ((number = 1; number <= total; number++)); do
        got=$(answer "$number")
        if [ "$got" = "status 7" ]; then
            memory=$((memory + 1))
        elif [ "$got" != "$wanted" ]; then
            wrong=$((wrong + 1))
            echo "$1: refusing allocation $number gives: $got"
        fi
    done
    echo "$1: $total allocations, $memory answered for want of memory, $((total - memory - wrong)) with the case's own answer, $wrong otherwise"
    [ "$wrong" -eq 0 ]
}

refuse_each base
sed -i 's/^add = "1"/add = "10000000"/' a.toml
refuse_each faulting
