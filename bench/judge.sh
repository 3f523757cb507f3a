#!/bin/sh
# How many moves per second are judged on arrays of side 6, 98 and 1,000, and how far these are apart.
# usage: bench/judge.sh
set -eu
here=$(cd "$(dirname "$0")" && pwd)
. "$here/scratch.sh"
scratch_with bench_judge "fab_arch fab_net fab_site fab_cost fab_move anyhow" <<'MAIN'
//! Judges moves on placements of many logic blocks, and prints how long that took.
#![tactic(auto)]

ghost use Rattle.std.specs.Prelude.{◌≡◌, [], IfOk};
ghost use Rattle.fab_cost.specs.Swapping.{CountedStandsFor};
ghost use Rattle.fab_site.specs.Placement.{IsLegal};

use fab_arch::{Grid, read_arch};
use fab_cost::EdgeBoxes;
use fab_move::{StreamWords, View, judge};
use fab_net::{Design, read_net};
use fab_site::{Fixed, Pins, Placement, is_legal, start};
use std::alloc::{AllocError, Global};
use std::time::Instant;

const ARCH: &[u8] =
    b"io_rat 1\ninpin class: 0 left\ninpin class: 0 top\ninpin class: 0 right\noutpin class: 1 bottom\n";
const MOVES: u64 = 100_000;

// A netlist of this many logic blocks, each of which reads the nets of three others with near numbers.
fn netlist(alloc: Global, blocks: u32) -> Result<Vec<u8>, AllocError> {
    let mut text = Vec::new(alloc);
    for block in 0..blocks {
        let [first, second, third] = [block / 2, block / 3, block ^ 1];
        let line = format!(in alloc; ".clb b{block}\npinlist: n{first} n{second} n{third} n{block}\n")?;
        text.extend_from_slice(line.as_bytes())?;
    }
    Ok(text)
}

fn design(alloc: Global, blocks: u32) -> anyhow::Result<Design> {
    let arch = read_arch(alloc, ARCH)?;
    let text = netlist(alloc, blocks)?;
    Ok(read_net(alloc, &text, &arch)?)
}

fn no_pins(alloc: Global) -> Pins
    ensures { (result.fixed ≡ []) × (result.begun ≡ []) }
{
    Pins {
        fixed: Fixed::none(alloc),
        begun: Fixed::none(alloc),
    }
}

// How many of the moves are accepted on a view.
fn accepted(alloc: Global, view: &View<'_, EdgeBoxes, StreamWords>) -> Result<u64, AllocError>
    requires legal { IsLegal view.now.design.now view.now.grid.now view.now.fixed.now view.now.placement.now.sites }
    requires array { view.now.placement.now.grid ≡ view.now.grid.now }
    requires stands { CountedStandsFor view.now.cost.now view.now.design.now view.now.grid.now view.now.placement.now.sites }
{
    let mut accepted: u64 = 0;
    for k in 0..MOVES {
        if judge(alloc, view, k)?.accepted {
            accepted = accepted.saturating_add(1);
        }
    }
    Ok(accepted)
}

// How many microseconds judging takes on a view.
fn timed(rt: &HostRuntime, view: &View<'_, EdgeBoxes, StreamWords>) -> anyhow::Result<u64>
    requires legal { IsLegal view.now.design.now view.now.grid.now view.now.fixed.now view.now.placement.now.sites }
    requires array { view.now.placement.now.grid ≡ view.now.grid.now }
    requires stands { CountedStandsFor view.now.cost.now view.now.design.now view.now.grid.now view.now.placement.now.sites }
{
    let begun = Instant::now(rt)?;
    let accepted = accepted(rt.alloc(), view)?;
    let taken = begun.elapsed(rt)?.as_micros();
    println!(rt; "moves {MOVES} accepted {accepted} us {taken}")?;
    Ok(accepted)
}

// A design on an array.
#[derive(Drop)]
struct Placed {
    design: Design,
    grid: Grid,
    fixed: Fixed,
    placement: Placement,
    ghost array: { placement.grid ≡ grid },
}

fn placed_at_start(alloc: Global, side: u16, blocks: u32) -> anyhow::Result<Placed> {
    let design = design(alloc, blocks)?;
    let grid = Grid::new(side, side, 1)?;
    grid.holds(design.logic_blocks(), design.pads())?;
    let placement = start(alloc, &design, &grid, &no_pins(alloc), &StreamWords::new(1))?;
    Ok(Placed {
        design,
        grid,
        fixed: Fixed::none(alloc),
        placement,
    })
}

fn judge_all(rt: &HostRuntime, placed: &Placed, range: u64) -> anyhow::Result<u64> {
    let Placed {
        design,
        grid,
        fixed,
        placement,
    } = placed;
    if !is_legal(design, grid, fixed, placement) {
        return Ok(0);
    }
    let cost = EdgeBoxes::new(rt.alloc(), design, grid, placement)?;
    let words = StreamWords::new(1);
    let view = View {
        design,
        grid,
        fixed,
        placement,
        cost: &cost,
        words: &words,
        t: 100_000,
        range,
    };
    timed(rt, &view)
}

fn bench(rt: &HostRuntime, side: u16, blocks: u32) -> anyhow::Result<u64> {
    print!(rt; "side {side} blocks {blocks} ")?;
    let placed = placed_at_start(rt.alloc(), side, blocks)?;
    judge_all(rt, &placed, 1000 * u64::from(side))
}

fn main(rt: HostRuntime) -> anyhow::Result<()> {
    for _ in 0..3 {
        bench(&rt, 6, 30)?;
        bench(&rt, 98, 9_000)?;
        bench(&rt, 1000, 60_000)?;
    }
    Ok(())
}
MAIN
enter bench_judge
rt run 2>> "$work/log" | tee "$work/times"
awk '{ if (!($2 in best) || $10 < best[$2]) best[$2] = $10; moves = $6 }
     END { for (side in best) printf "side %s: %.0f moves a second (best run)\n", side, moves * 1000000 / best[side]
           printf "side 6 to side 98: %.2f; side 98 to side 1,000: %.2f; side 6 to side 1,000: %.2f\n", best[98] / best[6], best[1000] / best[98], best[1000] / best[6] }' "$work/times"
