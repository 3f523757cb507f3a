#!/bin/sh
# How many moves per second `vplace place` makes with one worker and batches of 1,024 moves, on designs of 200, 770, 1,585, 9,583 and
# 60,000 blocks, and the ratios of these. Timed from outside: a run of many moves minus a run of few, so that reading and writing cancel;
# the best of each. Before the rates stands a line for each run: `time`, whose it is, the design, the moves of a stage, the microseconds, the
# moves of all stages, and the blocks.
# usage: [PROGRAM=PROGRAM] [BASELINE=PROGRAM] [MOVES=N] [RUNS=N] bench/place.sh [DESIGN..]
# A design is one of examples, or /PATH/NAME; by default there is also a grown one of 60,000 blocks (grown.awk). PROGRAM is by default the
# one that `make test` built. BASELINE is another placer that takes the same words (none is in the repository): it makes the same moves in
# the same run, in turn with PROGRAM. A stage has MOVES moves, 60,000 by default, or one in the run of few; there are 11 stages. Each run is
# made RUNS times, 5 by default.
set -eu
top=$(cd "$(dirname "$0")/.." && pwd)
program=${PROGRAM:+$(realpath "$PROGRAM")}
program=${program:-$top/crates/vplace/out/vplace}
baseline=${BASELINE:+$(realpath "$BASELINE")}
moves=${MOVES:-60000}
if [ ! -x "$program" ]; then
    echo "there is no program $program: make test builds it" >&2
    exit 2
fi
work=$(mktemp -d)
trap 'rm -rf "$work"' EXIT
if [ $# -eq 0 ]; then
    awk -v logic=59000 -f "$top/bench/grown.awk" > "$work/grown.net"
    cp "$top/bench/grown.arch" "$work/"
    set -- c880_ble grom_ble picorv32_cl4 duo_ble "$work/grown"
fi
cd "$top/examples"

# One run: whose it is, the program, the design, the moves of a stage. Prints these without the program, then the
# microseconds, the moves of all stages, and the number of blocks.
timed() {
    from=$(date +%s%N)
    "$2" place --arch "$3.arch" --net "$3.net" --out "$work/$1.place" --init-t 10 --exit-t 0.01 --alpha-t 0.5 \
        --workers 1 --batch 1024 --moves "$4" > "$work/$1.report"
    taken=$((($(date +%s%N) - from) / 1000))
    echo "$1 $(basename "$3") $4 $taken $(awk 'NR == 1 { blocks = $2 } END { print $NF, blocks }' "$work/$1.report")"
}

for design in "$@"; do
    run=0
    while [ "$run" -lt "${RUNS:-5}" ]; do
        for count in 1 "$moves"; do
            timed ours "$program" "$design" "$count"
            [ -z "$baseline" ] || timed theirs "$baseline" "$design" "$count"
        done
        run=$((run + 1))
    done
    # The last runs made the same moves if they end in the same bytes.
    if [ -n "$baseline" ]; then
        cmp -s "$work/ours.place" "$work/theirs.place" && cmp -s "$work/ours.report" "$work/theirs.report" \
            || echo "differ $(basename "$design")"
    fi
done > "$work/times"
sed -n '/^differ /!s/^/time /p' "$work/times"
awk -v many="$moves" '
    $1 == "differ" { differ[$2] = 1; next }
    {
        key = $1 " " $2 ($3 == many ? " many" : " few")
        if (!(key in least) || $4 < least[key]) least[key] = $4
        made[key] = $5
        if (!($2 in blocks)) { order[++n] = $2; blocks[$2] = $6 }
        if ($1 == "theirs") compared = 1
    }
    # Millions of moves per second.
    function rate(who, name,    key) {
        key = who " " name
        return (made[key " many"] - made[key " few"]) / (least[key " many"] - least[key " few"])
    }
    END {
        for (i = 1; i <= n; i++) {
            name = order[i]
            ours = rate("ours", name)
            printf "%s: %d blocks, %.3f million moves a second, ", name, blocks[name], ours
            printf "%.2f of the rate at %d blocks", ours / rate("ours", order[1]), blocks[order[1]]
            if (compared) printf "; the baseline %.3f million, ratio %.2f", rate("theirs", name), ours / rate("theirs", name)
            print name in differ ? ", BUT IT ENDS OTHERWISE" : ""
        }
    }' "$work/times"
