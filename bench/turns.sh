#!/bin/sh
# How many moves per second `vplace place` makes with 1, 2 and 4 workers and batches of 64, 256, 1,024 and 4,096 moves, on designs of 1,585
# and 9,583 blocks, and which share of the moves is judged again. Timed from outside as in bench/place.sh: a run of many moves minus a run
# of few, the best of each. The share comes from a program over the same library.
# usage: [PROGRAM=PROGRAM] [MOVES=N] [RUNS=N] [WORKERS=LIST] [BATCHES=LIST] bench/turns.sh [DESIGN..]
set -eu
here=$(cd "$(dirname "$0")" && pwd)
top=$(cd "$here/.." && pwd)
program=${PROGRAM:+$(realpath "$PROGRAM")}
program=${program:-$top/crates/vplace/out/vplace}
moves=${MOVES:-60000}
batches=${BATCHES:-64 256 1024 4096}
[ $# -gt 0 ] || set -- picorv32_cl4 duo_ble

. "$here/scratch.sh"
scratch_with bench_turns "fab_file fab_run fab_sched fab_text anyhow" <<'MAIN'
//! Places the designs that are named with four batches each, and prints how many moves were judged again.
#![tactic(auto)]

use fab_file::Labels;
use fab_run::{Inputs, Moves, Options, RunFault, place_run};
use fab_sched::Cooling;
use fab_text::Counted;
use std::env;
use std::fs;
use std::rt::Files;
use std::sync::Wait;
use std::thread::Threads;

const MOVES: u64 = 20_000;

const LABELS: Labels<'static> = Labels {
    net: b"net",
    arch: b"arch",
};

// How many moves a run judges again.
fn redone<'x, R: AllocGlobal + Threads + Wait + Sync>(
    rt: &R,
    arch: &'x [u8],
    net: &'x [u8],
    batch: u64,
) -> Result<u64, RunFault> {
    let inputs = Inputs {
        arch,
        net,
        pads: None,
        labels: LABELS,
    };
    let options = Options {
        seed: 1,
        size: None,
        init_t: 100_000,
        exit_t: 100,
        cooling: Cooling::Factor(500),
        moves: Moves::Given(MOVES),
        batch,
        workers: 2,
        stop: None,
    };
    let mut report = Counted::new(Vec::new(rt.alloc()));
    let mut place = Counted::new(Vec::new(rt.alloc()));
    let outcome = place_run(rt, &inputs, &options, &mut report, &mut place)?;
    Ok(outcome.redone)
}

fn told<R: AllocGlobal + Files + Threads + Wait + Sync>(
    rt: &R,
    name: &str,
) -> anyhow::Result<String> {
    let mut text = String::new(rt.alloc());
    let arch = fs::read(rt, format!(in rt.alloc(); "{name}.arch")?.as_str())?;
    let net = fs::read(rt, format!(in rt.alloc(); "{name}.net")?.as_str())?;
    for batch in [64, 256, 1024, 4096] {
        let again = redone(rt, &arch, &net, batch)?;
        text.push_str(format!(in rt.alloc(); "redone {name} {batch} {again}\n")?.as_str())?;
    }
    Ok(text)
}

fn main(rt: HostRuntime) -> anyhow::Result<()> {
    for name in env::args(&rt)?.skip(1) {
        print!(rt; "{}", told(&rt, name.as_str())?)?;
    }
    Ok(())
}
MAIN
enter bench_turns
if [ ! -x "$program" ]; then
    echo "there is no program $program: make test builds it" >&2
    exit 2
fi
(
    for design in "$@"; do
        shift
        set -- "$@" "$top/examples/$design"
    done
    exec rt run -- "$@"
) 2>> "$work/log" > "$work/told" || { tail -n 40 "$work/log"; exit 1; }
sed "s|$top/examples/||" "$work/told" > "$work/again"
cd "$top/examples"

# One run: the design, workers, batch, the moves of a stage. Prints these, the microseconds, and the moves of all stages.
timed() {
    from=$(date +%s%N)
    "$program" place --arch "$1.arch" --net "$1.net" --out "$work/timed.place" --init-t 10 --exit-t 0.01 --alpha-t 0.5 \
        --workers "$2" --batch "$3" --moves "$4" > "$work/timed.report"
    taken=$((($(date +%s%N) - from) / 1000))
    echo "time $1 $2 $3 $4 $taken $(awk 'END { print $NF }' "$work/timed.report")"
}

for design in "$@"; do
    for batch in $batches; do
        for workers in ${WORKERS:-1 2 4}; do
            run=0
            while [ "$run" -lt "${RUNS:-3}" ]; do
                for count in 1 "$moves"; do
                    timed "$design" "$workers" "$batch" "$count"
                done
                run=$((run + 1))
            done
        done
    done
done > "$work/times"
awk -v many="$moves" '
    # 11 stages of 20,000 moves.
    $1 == "redone" { share[$2 " " $3] = 100 * $4 / 220000; next }
    {
        key = $2 " " $4 " " $3 ($5 == many ? " many" : " few")
        if (!(key in least) || $6 < least[key]) least[key] = $6
        made[key] = $7
        line = $2 " " $4
        if (!(line in seen)) { seen[line] = 1; order[++n] = line }
        if (!(($3) in worker)) { worker[$3] = 1; workers[++m] = $3 }
    }
    END {
        for (i = 1; i <= n; i++) {
            split(order[i], part, " ")
            printf "%s, batch %s:", part[1], part[2]
            for (j = 1; j <= m; j++) {
                key = order[i] " " workers[j]
                rate = (made[key " many"] - made[key " few"]) / (least[key " many"] - least[key " few"])
                printf " %.3f million moves a second with %s %s,", rate, workers[j], workers[j] == 1 ? "worker" : "workers"
            }
            printf " %.1f %% judged again\n", share[order[i]]
        }
    }' "$work/again" "$work/times"
