#!/bin/sh
# How long the random words of a move take: made for many moves in a row, and for one move alone. The least of nine rounds.
# usage: bench/words.sh
set -eu
here=$(cd "$(dirname "$0")" && pwd)
. "$here/scratch.sh"
scratch_with bench_words "fab_site fab_move anyhow" <<'MAIN'
//! Times the words of moves.
#![tactic(auto)]

use fab_move::StreamWords;
use fab_site::Words;
use std::time::Instant;

const RUNS: u64 = 30_000;
const IN_A_ROW: usize = 32;
const ROUNDS: u32 = 9;

// A sum of all words, so that all are made.
fn sum_of(words: &[[u32; 4]], sum: u32) -> u32 {
    let mut all = sum;
    for four in words {
        all = all.wrapping_add(four[0] ^ four[1] ^ four[2] ^ four[3]);
    }
    all
}

fn in_a_row(source: &StreamWords) -> u32 {
    let mut words = [[0u32; 4]; IN_A_ROW];
    let mut sum: u32 = 0;
    for run in 0..RUNS {
        source.fill_words(run * IN_A_ROW as u64, &mut words);
        sum = sum_of(&words, sum);
    }
    sum
}

fn alone(source: &StreamWords) -> u32 {
    let mut sum: u32 = 0;
    for k in 0..RUNS {
        sum = sum_of(&[source.move_words(k)], sum);
    }
    sum
}

fn main(rt: HostRuntime) -> anyhow::Result<()> {
    let source = StreamWords::new(1);
    for _ in 0..ROUNDS {
        let begun = Instant::now(&rt)?;
        let many = in_a_row(&source);
        let row = begun.elapsed(&rt)?.as_nanos();
        let begun = Instant::now(&rt)?;
        let few = alone(&source);
        let one = begun.elapsed(&rt)?.as_nanos();
        println!(&rt; "{row} {one} {many} {few}")?;
    }
    Ok(())
}
MAIN
enter bench_words
rt run 2>> "$work/log" > "$work/times" || { tail -n 40 "$work/log"; exit 1; }
awk 'NR == 1 || $1 < row { row = $1 } NR == 1 || $2 < one { one = $2 }
     END { printf "the words of a move: %.1f ns in a row, %.1f ns alone\n", row / (30000 * 32), one / 30000 }' "$work/times"
