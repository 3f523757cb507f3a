#!/bin/sh
# The time of `show` with no watcher and with two that read all the time, on this machine.
# usage: bench/dial.sh
set -eu
here=$(cd "$(dirname "$0")" && pwd)
. "$here/scratch.sh"
scratch_with bench_dial fab_dial <<'MAIN'
//! The time of one `show`, in nanoseconds.
#![tactic(auto)]

ghost use Rattle.std.specs.Prelude.{◌≡◌, ◌≤◌, All};

use fab_dial::{Dial, Reading, Shower, Watcher};
use std::alloc::Global;
use std::io;
use std::sync::Wait;
use std::thread;
use std::thread::Threads;
use std::time::{Clock, Instant};

const SHOWN: u64 = 1000000;

fn reading(moves: u64) -> Reading {
    Reading {
        moves,
        accepted: moves / 2,
        cost: 40000,
    }
}

// Shows them all, and returns how many nanoseconds that took.
fn show_all<R: Wait + Clock>(rt: &R, dial: &Dial, mut shower: Shower) -> io::Result<u128>
    requires { shower.dial ≡ dial.now }
{
    let start = Instant::now(rt)?;
    for moves in 1..=SHOWN {
        dial.show(rt, &mut shower, reading(moves));
    }
    Ok(start.elapsed(rt)?.as_nanos())
}

// Reads until it sees the last reading, and returns how often it read.
fn watch<R: Wait>(rt: &R, dial: &Dial, mut watcher: Watcher) -> u64
    requires { watcher.dial ≡ dial.now }
{
    let mut reads: u64 = 0;
    for _turn in rt.forever() {
        reads = reads.wrapping_add(1);
        if dial.read(rt, &mut watcher).moves == SHOWN {
            return reads;
        }
    }
    unreachable!()
}

// The nanoseconds of all shows, and how often the watchers read.
fn measured<R: Threads + Wait + Clock + Sync>(rt: &R, alloc: Global, watchers: u64) -> io::Result<(u128, u64)>
    requires { watchers ≤ 64 }
{
    let (dial, shower, ends) = Dial::new(rt, alloc, watchers, reading(0))?;
    let shown = &dial;
    let (time, reads) = thread::join(
        rt,
        move || -> io::Result<u128>
            requires { shower.dial ≡ shown.now }
        { show_all(rt, shown, shower) },
        move || -> Result<Vec<u64>, std::alloc::AllocError>
            requires { All (λ w. w.dial ≡ shown.now) ends.items }
        {
            thread::map_vec(
                rt,
                ends,
                &|w: Watcher| -> u64
                    requires { w.dial ≡ shown.now }
                { watch(rt, shown, w) },
            )
        },
    );
    let mut sum: u64 = 0;
    for count in reads?.iter() {
        sum = sum.wrapping_add(*count);
    }
    Ok((time?, sum))
}

fn report<R: Threads + Wait + Clock + Print + Sync>(rt: &R, alloc: Global, watchers: u64) -> io::Result<()>
    requires { watchers ≤ 64 }
{
    let (time, reads) = measured(rt, alloc, watchers)?;
    println!(rt; "with {watchers} watchers: {time} ns for {SHOWN} shows, {reads} reads")
}

fn main(rt: HostRuntime) -> io::Result<()> {
    for _round in 0..5 {
        report(&rt, rt.alloc(), 0)?;
        report(&rt, rt.alloc(), 2)?;
    }
    Ok(())
}
MAIN
crate=$work/repo/crates/bench_dial
mkdir -p "$crate/proofs/show_all"
cat > "$crate/proofs/show_all/Invariants.antt" <<'ANTT'
use Rattle.std.proofs.Common.{◌≡◌}
use Rattle.bench_dial.proofs.show_all.Given as goal

abbrev pub invariant-loop-moves : goal.invariant-loop-moves
invariant-loop-moves g l = l.shower.dial ≡ l.dial
ANTT
mkdir -p "$crate/proofs/watch"
cat > "$crate/proofs/watch/Invariants.antt" <<'ANTT'
use Rattle.std.proofs.Common.{◌≡◌}
use Rattle.bench_dial.proofs.watch.Given as goal

abbrev pub invariant-loop-turn : goal.invariant-loop-turn
invariant-loop-turn g l = l.watcher.dial ≡ l.dial
ANTT

enter bench_dial
rt run > "$work/log" 2>&1 || { cat "$work/log"; exit 1; }
awk '
    /^with/ { print; time[$2] += $4; shows[$2] += $7; reads[$2] += $9 }
    END {
        printf "a show with no watcher: %.1f ns\n", time[0] / shows[0]
        printf "a show with two watchers: %.1f ns, ratio %.1f\n", time[2] / shows[2], time[2] / time[0]
        printf "reads of both in that time: %.2f a show\n", reads[2] / shows[2]
    }' "$work/log"
