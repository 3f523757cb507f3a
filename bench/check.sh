#!/bin/sh
# How long checking a placement takes, compared with `wc -lw` on its netlist: the best of 31 runs of each, and the ratio.
# usage: bench/check.sh [DESIGN]
# DESIGN is one of examples, by default duo_ble. The program is the one that `make test` built.
set -eu
top=$(cd "$(dirname "$0")/.." && pwd)
program=$top/crates/vplace/out/vplace
design=${1:-duo_ble}
cd "$top/examples"

# The least time of 31 runs of a command, in microseconds.
best() {
    least=''
    for _ in 1 2 3 4 5 6 7 8 9 10 11 12 13 14 15 16 17 18 19 20 21 22 23 24 25 26 27 28 29 30 31; do
        from=$(date +%s%N)
        "$@" > /dev/null
        taken=$((($(date +%s%N) - from) / 1000))
        if [ -z "$least" ] || [ "$taken" -lt "$least" ]; then least=$taken; fi
    done
    echo "$least"
}

words=$(best wc -lw "$design.net")
check=$(best "$program" check --arch "$design.arch" --net "$design.net" --place "$design.place")
echo "$design: check $check us, wc -lw $words us, ratio $(awk "BEGIN { printf \"%.2f\", $check / $words }")"
