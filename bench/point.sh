#!/bin/sh
# How long a checkpoint text of 60,000 blocks takes to read, compared with a placement text of as many: the best of nine runs of each, and
# the ratio. The placement is that of tests/large, made by the program that `make test` or `make program` built; the checkpoint text is made
# from it.
# usage: [PROGRAM=PROGRAM] bench/point.sh
set -eu
here=$(cd "$(dirname "$0")" && pwd)
program=${PROGRAM:+$(realpath "$PROGRAM")}
program=${program:-$(cd "$here/.." && pwd)/crates/vplace/out/vplace}
. "$here/scratch.sh"
scratch_with bench_point "fab_arch fab_net fab_file fab_run anyhow" <<'MAIN'
//! Reads a placement text and a checkpoint text of one design, and prints how long each took.
#![tactic(auto)]

use fab_arch::{Arch, Grid, read_arch};
use fab_file::{place_size, read_place};
use fab_net::{Design, read_net};
use fab_run::read_point;
use std::time::{Clock, Instant};
use std::{env, fs};

// The microseconds of reading a placement text.
fn place_time<R: AllocGlobal + Clock>(rt: &R, text: &[u8], design: &Design, grid: &Grid) -> anyhow::Result<u128> {
    let start = Instant::now(rt)?;
    let placement = read_place(rt.alloc(), text, design, grid)?;
    let taken = start.elapsed(rt)?.as_micros();
    drop(placement);
    Ok(taken)
}

// The microseconds of reading a checkpoint text.
fn point_time<R: AllocGlobal + Clock>(rt: &R, text: &[u8], arch: &Arch, design: &Design) -> anyhow::Result<u128> {
    let start = Instant::now(rt)?;
    let point = read_point(rt.alloc(), text, arch, design)?;
    let taken = start.elapsed(rt)?.as_micros();
    drop(point);
    Ok(taken)
}

fn main(rt: HostRuntime) -> anyhow::Result<()> {
    let alloc = rt.alloc();
    let arch = read_arch(alloc, &fs::read(&rt, "large.arch")?)?;
    let design = read_net(alloc, &fs::read(&rt, "a.net")?, &arch)?;
    let place = fs::read(&rt, "a.place")?;
    let point = fs::read(&rt, "a.point")?;
    let (nx, ny) = place_size(alloc, &place)?;
    let grid = Grid::new(nx, ny, arch.io_rat)?;
    for _ in 0..9 {
        println!(rt; "place {} point {}", place_time(&rt, &place, &design, &grid)?, point_time(&rt, &point, &arch, &design)?)?;
    }
    Ok(())
}
MAIN
large=$here/../tests/large
enter bench_point
if [ ! -x "$program" ]; then
    echo "there is no program $program: make test builds it" >&2
    exit 2
fi
cp "$large/large.arch" .
awk -v pads=2000 -v logic=58000 -f "$large/netlist.awk" > a.net
"$program" place --arch large.arch --net a.net --out a.place --nx 1000 --ny 1000 --init-t 1 --exit-t 0.9 --alpha-t 0.5 --moves 1000 --seed 7 > /dev/null
io_rat=$(awk '$1 == "io_rat" { print $2 }' large.arch)
{
    printf 'vplace point 2\nseed 7\narray 1000 x 1000 io_rat %s\nschedule 10000 9000 500 1000\nstage 1 done 0 accepted 0\ntemperature 0\nrange 1000000\ntotal 0\nfixed 0\nplaces 60000\n' "$io_rat"
    awk 'NR > 2 && NF && !/^#/ { print $1, $2, $3, $4 }' a.place
    echo end
} > a.point
rt run 2>> "$work/log" | tee "$work/times"
awk '{ if (place == "" || $2 < place) place = $2; if (point == "" || $4 < point) point = $4 }
     END { printf "60,000 blocks: a checkpoint text takes %d us, a placement text %d us, ratio %.2f\n", point, place, point / place }' "$work/times"
