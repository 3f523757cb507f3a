#!/bin/sh
# How long the start placement of 6,000 and of 60,000 logic blocks takes, and the ratio of the two.
# usage: bench/start.sh
set -eu
here=$(cd "$(dirname "$0")" && pwd)
. "$here/scratch.sh"
scratch_with bench_start "fab_arch fab_net fab_site anyhow" <<'MAIN'
//! Makes start placements of designs of many logic blocks, and prints how long each took.
#![tactic(auto)]

use fab_arch::{Grid, read_arch};
use fab_net::{Design, read_net};
use fab_site::{Fixed, ListWords, Pins, start};
use std::alloc::{AllocError, Global};
use std::time::Instant;

const ARCH: &[u8] = b"io_rat 1\noutpin class: 0 top\n";

// A netlist of this many logic blocks, each of which drives a net of its own.
fn netlist(alloc: Global, blocks: u32) -> Result<Vec<u8>, AllocError> {
    let mut text = Vec::new(alloc);
    for block in 0..blocks {
        let line = format!(in alloc; ".clb b{block}\npinlist: n{block}\n")?;
        text.extend_from_slice(line.as_bytes())?;
    }
    Ok(text)
}

fn design(alloc: Global, blocks: u32) -> anyhow::Result<Design> {
    let arch = read_arch(alloc, ARCH)?;
    let text = netlist(alloc, blocks)?;
    Ok(read_net(alloc, &text, &arch)?)
}

// Words that go over all of the range.
fn words(alloc: Global, blocks: u32) -> Result<ListWords, AllocError> {
    let mut starts = Vec::new(alloc);
    for block in 0..blocks {
        starts.push(block.wrapping_mul(2_654_435_761))?;
    }
    Ok(ListWords {
        starts,
        moves: Vec::new(alloc),
    })
}

fn place(alloc: Global, design: &Design, words: &ListWords) -> anyhow::Result<usize> {
    let grid = Grid::fit(design.logic_blocks(), design.pads(), 1)?;
    let pins = Pins {
        fixed: Fixed::none(alloc),
        begun: Fixed::none(alloc),
    };
    Ok(start(alloc, design, &grid, &pins, words)?.blocks())
}

fn main(rt: HostRuntime) -> anyhow::Result<()> {
    let alloc = rt.alloc();
    for blocks in [6_000, 60_000, 6_000, 60_000, 6_000, 60_000] {
        let design = design(alloc, blocks)?;
        let words = words(alloc, blocks)?;
        let begun = Instant::now(&rt)?;
        let placed = place(alloc, &design, &words)?;
        let taken = begun.elapsed(&rt)?.as_micros();
        println!(rt; "{placed} blocks {taken} us")?;
    }
    Ok(())
}
MAIN
enter bench_start
rt run 2>> "$work/log" | tee "$work/times"
awk '{ if ($1 == 6000 && (few == "" || $3 < few)) few = $3; if ($1 == 60000 && (many == "" || $3 < many)) many = $3 }
     END { printf "60,000 blocks take %.2f times as long as 6,000 (best runs)\n", many / few }' "$work/times"
