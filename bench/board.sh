#!/bin/sh
# The cost of a batch that judges nothing: the time to start the workers, claim the numbers and join, by the number of workers. Prints
# nanoseconds per batch, and that time in hundredths of the time with one worker.
# usage: bench/board.sh
set -eu
here=$(cd "$(dirname "$0")" && pwd)
. "$here/scratch.sh"
scratch_with bench_board fab_board <<'MAIN'
//! Times batches whose closure does nothing.
#![tactic(auto)]

ghost use Rattle.std.specs.Prelude.{◌<◌, ◌≤◌};

use fab_board::{NoGate, judge_batch};
use std::alloc::{AllocError, Global};
use std::io;
use std::rt::Clock;
use std::sync::Wait;
use std::thread::Threads;
use std::time::Instant;

const BATCHES: u64 = 2000;

// The nanoseconds that a batch takes.
fn nanoseconds<R: Threads + Wait + Clock + Sync>(
    rt: &R,
    alloc: Global,
    count: u64,
    workers: u64,
) -> io::Result<u128>
    requires count { count ≤ 4096 }
    requires workers { (0 < workers) × (workers ≤ 64) }
{
    let start = Instant::now(rt)?;
    for _batch in 0..BATCHES {
        judge_batch(
            rt,
            alloc,
            0,
            count,
            workers,
            &NoGate,
            &|k: u64| -> Result<u64, AllocError> { Ok(k) },
        )?;
    }
    Ok(start.elapsed(rt)?.as_nanos() / BATCHES as u128)
}

fn row<R: Threads + Wait + Clock + Print + Sync>(rt: &R, alloc: Global, count: u64) -> io::Result<()>
    requires { count ≤ 4096 }
{
    let one = nanoseconds(rt, alloc, count, 1)?;
    let two = nanoseconds(rt, alloc, count, 2)?;
    let four = nanoseconds(rt, alloc, count, 4)?;
    let eight = nanoseconds(rt, alloc, count, 8)?;
    for (workers, taken) in [(1, one), (2, two), (4, four), (8, eight)] {
        println!(rt; "{count} numbers, {workers} workers: {taken} ns, {} hundredths", taken.saturating_mul(100) / one.max(1))?;
    }
    Ok(())
}

fn main(rt: HostRuntime) -> io::Result<()> {
    let alloc = rt.alloc();
    row(&rt, alloc, 0)?;
    row(&rt, alloc, 8)?;
    row(&rt, alloc, 256)
}
MAIN
enter bench_board
rt run
