"""Writes crates/fab_commit/src/turn_tables.rt: what comes of the first designs of world_tables.rt at the ends of their
runs, by what an independent slow placer makes of each.

    python3 tests/tables/turns.py REFERENCE > crates/fab_commit/src/turn_tables.rt

REFERENCE is the folder of that placer. It shares no code with this repository, and adds up all nets for each move.
Standard error tells the constants of turn_tests.rt and shown_tests.rt, by the same placer.
"""

import contextlib
import io
import os
import sys

sys.path.insert(0, sys.argv[1])
sys.path.insert(0, os.environ.get("WORLDS", os.path.dirname(os.path.abspath(__file__))))

with contextlib.redirect_stdout(io.StringIO()), contextlib.redirect_stderr(io.StringIO()):
    from worlds import at_start, net_text, row

from random import Random

from placer.anneal import BATCH_BEFORE, redone, run_piece, shown
from placer.schedule import Schedule

ENDS = 20
BATCHES = (1, 2, 5)


def run(net, plan, seed):
    setting, standing = at_start(net, plan, seed)
    return setting, run_piece(setting, standing)


def redone_in(setting, piece, batches):
    """The moves that are redone in turns of these batches in a circle."""
    cuts, at, moves = [], 0, setting.schedule.moves
    while at < piece.end.n:
        batch = batches[len(cuts) % len(batches)]
        cuts.append((at, batch))
        at = min(at + batch, (at // moves + 1) * moves)
    return redone(setting, piece, cuts, BATCH_BEFORE)


def told(piece):
    sites = "".join(f" {x},{y},{sub}" for x, y, sub in piece.end.placement.sites)
    return f"done {piece.end.n} total {piece.end.a} cost {piece.cost} at{sites}"


HEAD = """//! What comes of the first designs of `world_tables` at the ends of their runs: written by `tests/tables/turns.py`, from
//! what an independent slow placer makes of each, which adds up all nets for each move.

/// The end of a run.
#[derive(Clone, Copy)]
pub(crate) struct End {
    /// The seed of the row whose run it is.
    pub(crate) seed: u64,
    /// How many moves are judged again in turns of 1, of 2 and of 5 moves.
    pub(crate) redone: [u64; 3],
    /// The moves made and accepted, the cost, and the sites of the blocks.
    pub(crate) wanted: &'static str,
}

pub(crate) const ENDS: [End; %d] = [
"""


def rust(seed):
    _, net, plan, *_ = row(seed)
    setting, piece = run(net, plan, seed)
    counts = ", ".join(str(len(redone_in(setting, piece, [batch]))) for batch in BATCHES)
    return (f"    End {{\n        seed: {seed},\n        redone: [{counts}],\n"
            f"        wanted: \"{told(piece)}\",\n    }},\n")


def eight_blocks():
    net = net_text(Random(8), 8, 2)
    setting, piece = run(net, Schedule(30_000, 3_000, 500, 100), 8)
    twice = redone_in(setting, piece, [16])
    print("EIGHT:", repr(net), "\nend:", told(piece), "\nredone in batches of 16:", len(twice),
          "\nnot redone:", *sorted(set(range(piece.end.n)) - set(twice)),
          "\nredone in batches of 4, 1, 3, 2:", len(redone_in(setting, piece, [4, 1, 3, 2])),
          "\nreadings in batches of 64:", shown(setting, piece, (0, 0, piece.costs[0]), 64),
          file=sys.stderr)


print(HEAD % ENDS + "".join(rust(seed) for seed in range(1, ENDS + 1)) + "];")
eight_blocks()
