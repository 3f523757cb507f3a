#!/bin/sh
# How long a change of cost takes, for far swaps and near ones, with whole boxes and with edge counts, on the stored placements of four
# examples and of each further /PATH/NAME.arch, .net and .place. A far swap is of two random blocks; a near one leads to a site at
# most three columns and three rows away. Each figure is the least of nine rounds, less the time of the draws alone.
# usage: bench/delta.sh [/PATH/NAME ..]
set -eu
here=$(cd "$(dirname "$0")" && pwd)
. "$here/scratch.sh"
scratch_with bench_delta "fab_arch fab_net fab_site fab_file fab_cost anyhow" <<'MAIN'
//! Times changes of cost on the designs with the given names.
#![tactic(auto)]

ghost use Rattle.std.specs.Prelude.{◌≡◌, IfSome, Some, length, slice_get};
ghost use Rattle.fab_site.specs.Placement.{IsSwapOf};

use fab_arch::{Grid, Site, read_arch};
use fab_cost::{Boxes, EdgeBoxes, WireCost};
use fab_file::{place_size, read_place};
use fab_net::{BlockId, Design, read_net};
use fab_site::{Placement, Swap};
use std::alloc::Global;
use std::time::{Clock, Instant};
use std::{env, fs, io};

const DRAWS: u32 = 200_000;
const ROUNDS: u32 = 9;

// Where a block that is drawn goes.
#[derive(Clone, Copy)]
enum Reach {
    // To the site of another block.
    Far,
    // To a site at most three columns and three rows away.
    Near,
}

// The site of the block with this number, if there is one.
fn site_of_block(placement: &Placement, block: BlockId) -> Option<Site>
    ensures { IfSome result (λ s. slice_get placement.now.sites block.0 ≡ Some s) }
{
    if (block.0 as usize) < placement.blocks() {
        Some(placement.site_of(block))
    } else {
        None
    }
}

// The swap that takes a block to a site of the same kind as its own.
fn swap_to(placement: &Placement, grid: &Grid, block: BlockId, to: Site) -> Option<Swap>
    ensures { IfSome result (λ s. IsSwapOf grid.now placement.now.sites s) }
{
    let from = site_of_block(placement, block)?;
    let kind = grid.has_site(from);
    if from == to || kind.is_none() || grid.has_site(to) != kind {
        return None;
    }
    let other = placement.at(to);
    Some(Swap { block, from, to, other })
}

// The next of a linear congruential generator (Knuth's constants).
fn next(state: u64) -> u64 {
    state.wrapping_mul(6364136223846793005).wrapping_add(1442695040888963407)
}

fn block_from(state: u64, blocks: usize) -> BlockId {
    BlockId(((state >> 33) % (blocks as u64).max(1)) as u32)
}

// A number from -3 to 3, wrapped.
fn step(bits: u64) -> u16 {
    ((bits % 7) as u16).wrapping_sub(3)
}

fn target(placement: &Placement, block: BlockId, state: u64, reach: Reach) -> Option<Site> {
    match reach {
        Reach::Far => site_of_block(placement, block_from(state, placement.blocks())),
        Reach::Near => {
            let from = site_of_block(placement, block)?;
            let x = from.x.wrapping_add(step(state >> 20));
            let y = from.y.wrapping_add(step(state >> 40));
            Some(Site { x, y, sub: from.sub })
        }
    }
}

// A swap that two numbers draw.
fn drawn(placement: &Placement, grid: &Grid, first: u64, second: u64, reach: Reach) -> Option<Swap>
    ensures { IfSome result (λ s. IsSwapOf grid.now placement.now.sites s) }
{
    let block = block_from(first, placement.blocks());
    let to = target(placement, block, second, reach)?;
    swap_to(placement, grid, block, to)
}

// The time of the draws, and of what was done for each swap that they gave.
#[derive(Clone, Copy)]
struct Timed {
    nanoseconds: u128,
    swaps: u64,
    // A sum of all that was done, so that it is done.
    sum: i64,
}

// The draws only.
fn drawing<R: Clock>(rt: &R, grid: &Grid, placement: &Placement, reach: Reach) -> io::Result<Timed>
{
    let begun = Instant::now(rt)?;
    let mut state = 1;
    let mut swaps: u64 = 0;
    let mut sum: i64 = 0;
    for _ in 0..DRAWS {
        let first = next(state);
        state = next(first);
        if let Some(swap) = drawn(placement, grid, first, state, reach) {
            swaps = swaps.wrapping_add(1);
            sum = sum.wrapping_add(i64::from(swap.to.x));
        }
    }
    let nanoseconds = begun.elapsed(rt)?.as_nanos();
    Ok(Timed { nanoseconds, swaps, sum })
}

// The draws, and the change of cost of each swap.
fn changing<R: Clock, W: WireCost>(
    rt: &R,
    wire: &W,
    design: &Design,
    grid: &Grid,
    placement: &Placement,
    reach: Reach,
) -> io::Result<Timed>
    requires stands { W.StandsFor wire.now design.now grid.now placement.now.sites }
{
    let begun = Instant::now(rt)?;
    let mut state = 1;
    let mut swaps: u64 = 0;
    let mut sum: i64 = 0;
    for _ in 0..DRAWS {
        let first = next(state);
        state = next(first);
        if let Some(swap) = drawn(placement, grid, first, state, reach) {
            swaps = swaps.wrapping_add(1);
            sum = sum.wrapping_add(wire.delta(design, grid, placement, &swap));
        }
    }
    let nanoseconds = begun.elapsed(rt)?.as_nanos();
    Ok(Timed { nanoseconds, swaps, sum })
}

// The picoseconds of one change of cost.
fn picoseconds(timed: Timed, alone: Timed) -> u128 {
    timed.nanoseconds.saturating_sub(alone.nanoseconds).saturating_mul(1000) / u128::from(timed.swaps).max(1)
}

fn compare<R: Clock + Print, B: WireCost, E: WireCost>(
    rt: &R,
    boxes: &B,
    edges: &E,
    design: &Design,
    grid: &Grid,
    placement: &Placement,
    reach: Reach,
    name: &str,
) -> anyhow::Result<()>
    requires boxes { B.StandsFor boxes.now design.now grid.now placement.now.sites }
    requires edges { E.StandsFor edges.now design.now grid.now placement.now.sites }
{
    let blocks = design.blocks();
    for _ in 0..ROUNDS {
        let alone = drawing(rt, grid, placement, reach)?;
        let whole = changing(rt, boxes, design, grid, placement, reach)?;
        let counted = changing(rt, edges, design, grid, placement, reach)?;
        println!(rt; "{blocks} {name} whole {} {} {}", picoseconds(whole, alone), whole.swaps, whole.sum)?;
        println!(rt; "{blocks} {name} counted {} {} {}", picoseconds(counted, alone), counted.swaps, counted.sum)?;
    }
    Ok(())
}

fn compare_both<R: Clock + Print, B: WireCost, E: WireCost>(
    rt: &R,
    boxes: &B,
    edges: &E,
    design: &Design,
    grid: &Grid,
    placement: &Placement,
) -> anyhow::Result<()>
    requires boxes { B.StandsFor boxes.now design.now grid.now placement.now.sites }
    requires edges { E.StandsFor edges.now design.now grid.now placement.now.sites }
{
    compare(rt, boxes, edges, design, grid, placement, Reach::Far, "far")?;
    compare(rt, boxes, edges, design, grid, placement, Reach::Near, "near")
}

fn measure<R: Clock + Print>(
    rt: &R,
    alloc: Global,
    design: &Design,
    grid: &Grid,
    placement: &Placement,
) -> anyhow::Result<()>
    requires { length design.now.kinds ≡ length placement.now.sites }
{
    let edges = EdgeBoxes::new(alloc, design, grid, placement)?;
    let boxes = Boxes::new(alloc, design, grid, placement)?;
    compare_both(rt, &boxes, &edges, design, grid, placement)
}

fn read_place_of(alloc: Global, place: &[u8], design: &Design, io_rat: u16) -> anyhow::Result<(Grid, Placement)>
{
    let (nx, ny) = place_size(alloc, place)?;
    let grid = Grid::new(nx, ny, io_rat)?;
    let placement = read_place(alloc, place, design, &grid)?;
    Ok((grid, placement))
}

fn measure_texts<R: Clock + Print>(rt: &R, alloc: Global, arch: &[u8], net: &[u8], place: &[u8]) -> anyhow::Result<()> {
    let arch = read_arch(alloc, arch)?;
    let design = read_net(alloc, net, &arch)?;
    let (grid, placement) = read_place_of(alloc, place, &design, arch.io_rat)?;
    if placement.blocks() != design.blocks() {
        return Ok(());
    }
    measure(rt, alloc, &design, &grid, &placement)
}

fn measure_files(rt: &HostRuntime, name: &str) -> anyhow::Result<()> {
    let alloc = rt.alloc();
    let arch = fs::read(rt, format!(in alloc; "{name}.arch")?.as_str())?;
    let net = fs::read(rt, format!(in alloc; "{name}.net")?.as_str())?;
    let place = fs::read(rt, format!(in alloc; "{name}.place")?.as_str())?;
    measure_texts(rt, alloc, &arch, &net, &place)
}

fn main(rt: HostRuntime) -> anyhow::Result<()> {
    for name in env::args(&rt)?.skip(1) {
        measure_files(&rt, name.as_str())?;
    }
    Ok(())
}
MAIN
enter bench_delta
rt run -- "$top/examples/c880_ble" "$top/examples/grom_ble" "$top/examples/picorv32_cl4" "$top/examples/duo_ble" "$@" 2>> "$work/log" > "$work/times" || { tail -n 40 "$work/log"; exit 1; }
sort -s -n -k 1,1 -k 4,4 "$work/times" | awk '
    { name = $1 " blocks, " $2; if (!(name in seen)) { seen[name] = 1; order[++n] = name } }
    !((name, $3) in best) { best[name, $3] = $4 / 1000 }
    sums[name] == "" { sums[name] = $6 }
    $6 != sums[name] { print name ": the sums of changes differ"; bad = 1 }
    END {
        for (i = 1; i <= n; i++) printf "%s: %.0f ns with whole boxes, %.0f with edge counts\n", order[i], best[order[i], "whole"], best[order[i], "counted"]
        exit bad
    }'
