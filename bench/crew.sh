#!/bin/sh
# What handing over costs: turns of a crew whose judgements take some two nanoseconds, by batch and workers. Prints nanoseconds a turn, the
# fastest tenth of segments of 40 turns and their middle, the best of some rounds. With PROTOTYPE=FOLDER, a folder with another crew of the
# same form (a crate `follow`), it is timed in turn with ours.
# usage: [PROTOTYPE=FOLDER] bench/crew.sh
set -eu
here=$(cd "$(dirname "$0")" && pwd)
. "$here/scratch.sh"
deps='fab_board logbook'
[ -z "${PROTOTYPE-}" ] || deps="follow $deps"
scratch_with bench_crew "$deps" <<'MAIN'
//! Times turns of a crew that judges next to nothing.
#![tactic(auto)]

mod ours;
mod parts;
// mod theirs;

use ours::run_ours;
use parts::Times;
use std::alloc::Global;
use std::io;
use std::rt::Clock;
use std::sync::Wait;
use std::thread::Threads;
// use theirs::run_theirs;

fn show<R: Print>(rt: &R, name: &str, batch: u64, workers: u64, times: &Times) -> io::Result<()> {
    println!(rt;
        "{name} batch {batch} workers {workers} tenth {} middle {} sum {}",
        times.tenth, times.middle, times.sum
    )
}

fn all<R: Threads + Wait + Clock + Print + Sync>(
    rt: &R,
    alloc: Global,
    batch: u64,
    turns: u64,
) -> io::Result<()>
    requires { (1 ≤ batch) × (batch ≤ 4096) }
{
    for workers in 1..4u64 {
        if let Ok(times) = run_ours(rt, alloc, workers, turns, batch) {
            show(rt, "ours", batch, workers, &times)?;
        }
        // if let Ok(times) = run_theirs(rt, alloc, workers, turns, batch) {
        //     show(rt, "prototype", batch, workers, &times)?;
        // }
    }
    Ok(())
}

fn main(rt: HostRuntime) -> io::Result<()> {
    let alloc = rt.alloc();
    for _round in 0..4u64 {
        all(&rt, alloc, 8, 20000)?;
        all(&rt, alloc, 64, 8000)?;
        all(&rt, alloc, 256, 2000)?;
    }
    Ok(())
}
MAIN
crate=$work/repo/crates/bench_crew
sed -i 's/^#!\[tactic(auto)\]$/&\n\nghost use Rattle.std.specs.Prelude.{◌≤◌};/' "$crate/src/main.rt"
cat > "$crate/src/parts.rt" <<'PARTS'
//! What both crews judge: numbers on a row of words, which posts change.
ghost use Rattle.std.specs.Prelude.{◌≡◌, ℕ, ◌<◌, ◌≤◌, All, length, IfOk};

use std::alloc::{AllocError, Global};
use std::marker::Model;
use std::rt::Clock;
use std::time::Instant;

/// 64 bytes.
#[derive(Clone, Copy)]
pub struct Answer {
    pub change: u64,
    pub rest: [u64; 7],
}

/// Swaps, and the numbers that are asked for.
#[derive(Drop)]
pub struct Swaps {
    pub pairs: Vec<(u32, u32)>,
    pub first: u64,
    pub count: u64,
}

/// What judging reads. Contracts see nothing of it.
#[derive(Drop)]
pub struct Row {
    words: Vec<u64>,
}

impl Model for Row {
    ghost Value = { ℕ };

    ghost view = { λ r. 0 };
}

impl Row {
    pub fn new(alloc: Global) -> Result<Row, AllocError>
        ensures { IfOk result (λ r. r ≡ 0) }
    {
        let mut words = Vec::new(alloc);
        for at in 0..4096u64 {
            words.push(at)?;
        }
        Ok(Row { words })
    }

    pub fn step(&mut self, pairs: &[(u32, u32)])
        ensures { self.new ≡ self.old }
    {
        swap_all(&mut self.words, pairs);
    }

    pub fn judge(&self, number: u64) -> Answer {
        let word = self
            .words
            .get((number % 4096) as usize)
            .copied()
            .unwrap_or(0);
        Answer {
            change: word.wrapping_add(number),
            rest: [word ^ number; 7],
        }
    }
}

fn swap_all(words: &mut Vec<u64>, pairs: &[(u32, u32)]) {
    for pair in pairs {
        let x = pair.0 as usize;
        let y = pair.1 as usize;
        if x < words.len() && y < words.len() {
            let word = words[x];
            words[x] = words[y];
            words[y] = word;
        }
    }
}

pub fn rows(alloc: Global, many: u64) -> Result<Vec<Row>, AllocError>
    ensures { IfOk result (λ v. (length v.items ≡ many) × All (λ r. r ≡ 0) v.items) }
{
    let mut rows = Vec::new(alloc);
    for _row in 0..many {
        rows.push(Row::new(alloc)?)?;
    }
    Ok(rows)
}

pub fn blank() -> Answer {
    Answer {
        change: 0,
        rest: [0; 7],
    }
}

/// Nanoseconds of a turn, and a sum of all answers.
#[derive(Drop)]
pub struct Times {
    pub tenth: u64,
    pub middle: u64,
    pub sum: u64,
}

pub fn summed(mut times: Vec<u64>, sum: u64) -> Result<Times, AllocError> {
    times.sort()?;
    let many = times.len();
    Ok(Times {
        tenth: times.get(many / 10).copied().unwrap_or(0),
        middle: times.get(many / 2).copied().unwrap_or(0),
        sum,
    })
}

/// The post of a turn, a quarter of whose moves are swaps.
pub fn fill(post: &mut Swaps, batch: u64, turn: u64) -> Result<(), AllocError> {
    post.pairs.clear();
    for at in 0..batch / 4 {
        let x = turn.wrapping_mul(7).wrapping_add(at.wrapping_mul(13)) % 4096;
        let y = turn.wrapping_mul(11).wrapping_add(at.wrapping_mul(5)) % 4096;
        post.pairs.push((x as u32, y as u32))?;
    }
    post.first = turn.wrapping_mul(batch);
    post.count = batch;
    Ok(())
}

pub fn empty(alloc: Global) -> Swaps {
    Swaps {
        pairs: Vec::new(alloc),
        first: 0,
        count: 0,
    }
}

pub fn nanoseconds<R: Clock>(rt: &R, start: &Instant) -> u64 {
    match start.elapsed(rt) {
        Ok(time) => (time.as_nanos() % (1 << 63)) as u64,
        Err(_) => 0,
    }
}

/// A time is of so many turns.
pub const TURNS: u64 = 40;
PARTS
mkdir -p "$crate/proofs/parts/rows"
cat > "$crate/proofs/Lib.antt" < /dev/null
cat > "$crate/proofs/parts/rows/Invariants.antt" <<'ROWS'
use Rattle.std.proofs.Common.{◌≡◌, All, length}
use Rattle.bench_crew.proofs.parts.rows.Given as goal

abbrev pub invariant-loop-row : goal.invariant-loop-row
invariant-loop-row l =
    record {
      many : length l.rows.items ≡ l._row;
      all : All (λ r. r ≡ 0) l.rows.items;
    }
ROWS
cat > "$crate/src/ours.rt" <<'OURS'
//! Turns with the crew of fab_board.
ghost use Rattle.std.specs.Prelude.{◌≡◌, ℕ, ◌+◌, ◌*◌, ◌^◌, ◌<◌, ◌≤◌, All, List, [], Some, Option, IfOk, length};
ghost use Rattle.std.specs.Thread.{IsSync};

use crate::parts::{Answer, Row, Swaps, TURNS, Times, blank, empty, fill, nanoseconds, rows, summed};
use fab_board::follow_crew::beside;
use fab_board::follow_lead::{CrewParts, Lead, new_crew};
use fab_board::{Board, Boarding, ClaimSeat, Follow, Naming, Opened, Origin, Plan, Sheet};
use std::alloc::{AllocError, Global};
use std::marker::Brand;
use std::rt::Clock;
use std::sync::Wait;
use std::thread::Threads;
use std::time::Instant;

fn judge_all(row: &Row, first: u64, count: u64, places: &mut [Answer])
    requires few { count ≤ length places.old }
    requires low { first + count < 2 ^ 63 }
    ensures { length places.new ≡ length places.old }
{
    for place in 0..count as usize {
        places[place] = row.judge(first + place as u64);
    }
}

impl Follow<Swaps, Answer> for Row {
    ghost use Rattle.std.specs.Prelude.{◌≡◌};

    ghost may = { λ r e. e ≡ e };

    ghost after = { λ r e. r };

    ghost answer = { λ r k x. x ≡ x };

    ghost ready = { λ r. r ≡ r };

    fn first(&self, post: &Swaps) -> u64 {
        post.first
    }

    fn count(&self, post: &Swaps) -> u64 {
        post.count
    }

    fn blank(&self) -> Answer {
        blank()
    }

    fn follow(&mut self, post: &Swaps) {
        self.step(post.pairs.as_slice());
    }

    fn judge(&mut self, first: u64, count: u64, places: &mut [Answer]) -> bool {
        judge_all(self, first, count, places);
        true
    }
}

/// The owner's end, and the sheet that it reads.
#[derive(Drop)]
struct OwnerEnd<J: Naming + Boarding + Origin<Row>> {
    lead: Lead<Row, Swaps, Answer, J>,
    sheet: Sheet<Row, Swaps, Answer, J>,
}

fn read_all<J: Naming + Boarding + Origin<Row>, R: Wait>(
    rt: &R,
    owner_end: &mut OwnerEnd<J>,
    first: u64,
    past: u64,
) -> u64 {
    let mut sum = 0u64;
    for number in first..past {
        owner_end.lead.seek(rt, number, &mut owner_end.sheet);
        if let Some(answer) = owner_end.lead.answer(number, &owner_end.sheet) {
            sum = sum
                .wrapping_add(answer.change)
                .wrapping_add(answer.rest[5] % 2);
        }
    }
    sum
}

fn turns_of<J: Naming + Boarding + Origin<Row>, R: Wait + Clock>(
    rt: &R,
    alloc: Global,
    owner_end: &mut OwnerEnd<J>,
    turns: u64,
    batch: u64,
) -> Result<Times, AllocError>
{
    let mut times = Vec::new(alloc);
    let mut sum = 0u64;
    let mut used: Option<Swaps> = None;
    let Ok(start) = Instant::now(rt) else {
        return Err(AllocError);
    };
    let mut last = nanoseconds(rt, &start);
    for turn in 0..turns {
        let mut post = match used.take() {
            Some(post) => post,
            None => empty(alloc),
        };
        fill(&mut post, batch, turn)?;
        let first = post.first;
        let Ok(older) = owner_end.lead.post(rt, post) else {
            return Err(AllocError);
        };
        used = older;
        if turn > 0 {
            sum = sum.wrapping_add(read_all(rt, owner_end, first.saturating_sub(batch), first));
        }
        if turn % TURNS == TURNS - 1 {
            let now = nanoseconds(rt, &start);
            times.push(now.saturating_sub(last) / TURNS)?;
            last = now;
        }
    }
    summed(times, sum)
}

fn found_for(alloc: Global, workers: u64, units: Plan) -> Result<CrewParts<Row>, AllocError>
    requires workers { (0 < workers) × (workers ≤ 64) }
    ensures claims { IfOk result (λ f. All (λ s. s.board ≡ f.board.name) f.claims.items) }
    ensures first { IfOk result (λ f. f.first ≡ 0) }
    ensures others { IfOk result (λ f. All (λ r. r ≡ 0) f.others.items) }
    ensures many { IfOk result (λ f. length f.claims.items ≡ length f.others.items) }
{
    let first = Row::new(alloc)?;
    let others = rows(alloc, workers)?;
    let (board, claims) = Board::new(alloc, 1 << 62, workers)?;
    Ok(CrewParts {
        board,
        claims,
        first,
        others,
        units,
    })
}

fn run_as<J: Naming + Boarding + Origin<Row> + Send + Sync, R: Threads + Wait + Clock + Sync>(
    rt: &R,
    alloc: Global,
    opened: Opened<Swaps>,
    founded: CrewParts<Row>,
    turns: u64,
    batch: u64,
) -> Result<Times, AllocError>
    requires book { opened ≡ J.book }
    requires board { founded.board.name ≡ J.board }
    requires claims { All (λ s. s.board ≡ J.board) founded.claims.items }
    requires start { J.start ≡ Some founded.first }
    requires starts { All (λ s. J.start ≡ Some s) founded.others.items }
    requires many { length founded.claims.items ≡ length founded.others.items }
{
    let (crew, lead) = new_crew::<Row, Swaps, Answer, J>(alloc, opened, founded)?;
    let sheet = lead.sheet(alloc)?;
    let mut owner_end = OwnerEnd { lead, sheet };
    beside(
        rt,
        &crew,
        &mut owner_end,
        &mut |d: &mut OwnerEnd<J>| -> Result<Times, AllocError> { turns_of(rt, alloc, d, turns, batch) },
    )
}

/// Turns with so many workers.
pub fn run_ours<R: Threads + Wait + Clock + Sync>(
    rt: &R,
    alloc: Global,
    workers: u64,
    turns: u64,
    batch: u64,
) -> Result<Times, AllocError>
    requires workers { (0 < workers) × (workers ≤ 64) }
{
    let founded = found_for(alloc, workers, Plan::of(batch, workers))?;
    run_as::<Brand, R>(rt, alloc, Opened::new(), founded, turns, batch)
}
OURS
mkdir -p "$crate/proofs/ours/judge_all" "$crate/proofs/ours/run_ours" "$crate/proofs/ours/found_for"
cat > "$crate/proofs/ours/judge_all/Invariants.antt" <<'ALL'
use Rattle.std.proofs.Common.{◌≡◌, length}
use Rattle.bench_crew.proofs.ours.judge_all.Given as goal

abbrev pub invariant-loop-place : goal.invariant-loop-place
invariant-loop-place l = length l.places ≡ length l.fn.places
ALL
cat > "$crate/proofs/ours/run_ours/Invariants.antt" <<'RUN'
use Rattle.std.proofs.Common.{Some}
use Rattle.bench_crew.proofs.ours.run_ours.Given as goal

abbrev pub ghosts-run_as-J-Naming : goal.ghosts-run_as-J-Naming
ghosts-run_as-J-Naming g a = record { book = a.opened }

abbrev pub ghosts-run_as-J-Boarding : goal.ghosts-run_as-J-Boarding
ghosts-run_as-J-Boarding g a = record { board = a.founded.board.name }

abbrev pub ghosts-run_as-J-Origin : goal.ghosts-run_as-J-Origin
ghosts-run_as-J-Origin g a = record { start = Some a.founded.first }
RUN
cat > "$crate/proofs/ours/found_for/Answers.antt" <<'FOUNDED'
use Rattle.bench_crew.proofs.ours.found_for.Goals as goal

pub returns-clause-claims : goal.returns-clause-claims
returns-clause-claims c k d l = (c.in_ok-board.ensures.seats.1 k d l).0
FOUNDED
if [ -n "${PROTOTYPE-}" ]; then
    cp -r "$PROTOTYPE/follow" "$work/repo/crates/follow"
    echo 'follow: logbook' >> "$work/repo/crates.txt"
    sed -i 's,// mod theirs;,mod theirs;,; s,// use theirs,use theirs,; s,^        // ,        ,' "$crate/src/main.rt"
    cat > "$crate/src/theirs.rt" <<'THEIRS'
//! Turns with the other crew.
ghost use Rattle.std.specs.Prelude.{◌≡◌, ℕ, All, Some, IfOk};

use crate::parts::{Answer, Row, Swaps, TURNS, Times, blank, empty, fill, nanoseconds, rows, summed};
use follow::crew::{Lead, Plan, found, start_all};
use follow::follow::{Follow, Origin, Sheet};
use follow::past::{Naming, Opened};
use std::alloc::{AllocError, Global};
use std::marker::Brand;
use std::rt::Clock;
use std::sync::Wait;
use std::thread;
use std::thread::Threads;
use std::time::Instant;

impl Follow<Swaps, Answer> for Row {
    ghost use Rattle.std.specs.Prelude.{◌≡◌};

    ghost may = { λ r e. e ≡ e };

    ghost after = { λ r e. r };

    ghost answer = { λ r k x. x ≡ x };

    fn first(&self, post: &Swaps) -> u64 {
        post.first
    }

    fn count(&self, post: &Swaps) -> u64 {
        post.count
    }

    fn blank(&self, _alloc: Global) -> Result<Answer, AllocError> {
        Ok(blank())
    }

    fn follow(&mut self, post: &Swaps) {
        self.step(post.pairs.as_slice());
    }

    fn judge(&mut self, number: u64, place: &mut Answer) -> bool {
        *place = Row::judge(self, number);
        true
    }
}

fn read_all<J: Naming + Origin<Row>, R: Wait>(
    rt: &R,
    lead: &mut Lead<Row, Swaps, Answer, J>,
    sheet: &mut Sheet<Row, Swaps, Answer, J>,
    first: u64,
    past: u64,
) -> u64 {
    let mut sum = 0u64;
    for number in first..past {
        if lead.seek(rt, number, sheet) {
            let answer = sheet.at(number);
            sum = sum
                .wrapping_add(answer.change)
                .wrapping_add(answer.rest[5] % 2);
        }
    }
    sum
}

fn turns_of<J: Naming + Origin<Row>, R: Wait + Clock>(
    rt: &R,
    alloc: Global,
    mut lead: Lead<Row, Swaps, Answer, J>,
    turns: u64,
    batch: u64,
) -> Result<Times, AllocError> {
    let mut sheet = lead.sheet(alloc)?;
    let mut times = Vec::new(alloc);
    let mut sum = 0u64;
    let mut used: Option<Swaps> = None;
    let Ok(start) = Instant::now(rt) else {
        return Err(AllocError);
    };
    let mut last = nanoseconds(rt, &start);
    for turn in 0..turns {
        let mut post = match used.take() {
            Some(post) => post,
            None => empty(alloc),
        };
        fill(&mut post, batch, turn)?;
        let first = post.first;
        let Ok(older) = lead.post(rt, post) else {
            return Err(AllocError);
        };
        used = older;
        if turn > 0 {
            let from = first.saturating_sub(batch);
            sum = sum.wrapping_add(read_all(rt, &mut lead, &mut sheet, from, first));
        }
        if turn % TURNS == TURNS - 1 {
            let now = nanoseconds(rt, &start);
            times.push(now.saturating_sub(last) / TURNS)?;
            last = now;
        }
    }
    summed(times, sum)
}

fn run_as<J: Naming + Origin<Row> + Send + Sync, R: Threads + Wait + Clock + Sync>(
    rt: &R,
    alloc: Global,
    opened: Opened<Swaps>,
    row: Row,
    all: Vec<Row>,
    turns: u64,
    batch: u64,
    plan: Plan,
) -> Result<Times, AllocError>
    requires book { opened ≡ J.book }
    requires start { J.start ≡ Some row }
    requires starts { All (λ s. J.start ≡ Some s) all.items }
{
    let (crew, lead) = found::<Row, Swaps, Answer, J>(alloc, opened, row, all, plan)?;
    thread::scope(thread::scope_env(), rt, move |scope| {
        start_all(rt, scope, &crew);
        turns_of(rt, alloc, lead, turns, batch)
    })
}

/// Turns with so many workers. Its units are of 8, 16 or 32 numbers, as the batch is.
pub fn run_theirs<R: Threads + Wait + Clock + Sync>(
    rt: &R,
    alloc: Global,
    workers: u64,
    turns: u64,
    batch: u64,
) -> Result<Times, AllocError> {
    let shift = if batch > 128 {
        5
    } else if batch > 8 {
        4
    } else {
        3
    };
    let plan = Plan {
        units: batch.saturating_add((1 << shift) - 1) >> shift,
        shift,
        fixed: false,
    };
    let row = Row::new(alloc)?;
    let all = rows(alloc, workers)?;
    run_as::<Brand, R>(rt, alloc, Opened::new(), row, all, turns, batch, plan)
}
THEIRS
    mkdir -p "$crate/proofs/theirs/run_theirs"
    cat > "$crate/proofs/theirs/run_theirs/Invariants.antt" <<'RUN'
use Rattle.std.proofs.Common.{Some}
use Rattle.bench_crew.proofs.theirs.run_theirs.Given as goal

abbrev pub ghosts-run_as-J-Naming : goal.ghosts-run_as-J-Naming
ghosts-run_as-J-Naming g a = record { book = a.opened }

abbrev pub ghosts-run_as-J-Origin : goal.ghosts-run_as-J-Origin
ghosts-run_as-J-Origin g a = record { start = Some 0 }
RUN
fi
enter bench_crew
rt run
