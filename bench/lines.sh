#!/bin/sh
# How long reading the lines of a netlist takes at 1 MB and at 10 MB, and the ratio of the two.
# usage: bench/lines.sh NETLIST
set -eu
here=$(cd "$(dirname "$0")" && pwd)
. "$here/scratch.sh"
[ "$compile" = --compile ] || netlist=$(realpath "$1")
scratch_with bench_lines "fab_text anyhow" <<'MAIN'
//! Reads the lines of the files that it is given, and prints how long each took.
#![tactic(auto)]

use fab_text::Lines;
use std::alloc::{AllocError, Global};
use std::time::Instant;
use std::{env, fs};

fn count(alloc: Global, text: &[u8]) -> Result<(u64, u64), AllocError> {
    let mut lines = Lines::new(alloc, text);
    let mut found = 0u64;
    let mut words = 0u64;
    for _line in 0..u64::MAX {
        let Some(line) = lines.next()? else {
            break;
        };
        found = found.saturating_add(1);
        words = words.saturating_add(line.words.len() as u64);
    }
    Ok((found, words))
}

fn main(rt: HostRuntime) -> anyhow::Result<()> {
    for path in env::args(&rt)?.skip(1) {
        let text = fs::read(&rt, path.as_str())?;
        let start = Instant::now(&rt)?;
        let (lines, words) = count(rt.alloc(), &text)?;
        let taken = start.elapsed(&rt)?.as_micros();
        println!(rt; "{} bytes {lines} lines {words} words {taken} us", text.len())?;
    }
    Ok(())
}
MAIN
enter bench_lines
while [ "$(stat -c %s "$work/unit" 2>/dev/null || echo 0)" -lt 1000000 ]; do cat "$netlist" >> "$work/unit"; done
head -c 1000000 "$work/unit" > "$work/one"
for _ in 1 2 3 4 5 6 7 8 9 10; do cat "$work/one"; done > "$work/ten"
rt run -- "$work/one" "$work/one" "$work/ten" "$work/one" "$work/ten" 2>> "$work/log" | tee "$work/times"
awk '{ us = $(NF - 1); if ($1 == 1000000 && (one == "" || us < one)) one = us; if ($1 > 1000000 && (ten == "" || us < ten)) ten = us }
     END { printf "10 MB take %.2f times as long as 1 MB (best runs)\n", ten / one }' "$work/times"
