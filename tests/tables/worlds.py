"""Writes crates/fab_commit/src/world_tables.rt: lists of events on random small designs, and what an independent slow
placer makes of them.

    python3 tests/tables/worlds.py REFERENCE > crates/fab_commit/src/world_tables.rt

REFERENCE is the folder of that placer. It shares no code with this repository, and adds up all nets for each move.
"""

import random
import sys

sys.path.insert(0, sys.argv[1])

from placer.anneal import Setting, first_standing
from placer.arch import fit, read_arch
from placer.net import read_net
from placer.place import Fixed, Pins, start
from placer.schedule import ADAPTIVE, Schedule
from placer.words import StreamWords
from placer.world import World

ARCH = b"io_rat 2\ninpin class: 0 left\ninpin class: 0 top\noutpin class: 1 right\n"
EVENTS = 80
ROWS = 50


def net_text(chance, blocks, pads):
    """Logic blocks that each drive a net, between input and output pads."""
    names = [f"n{i}" for i in range(blocks)] + [f"i{i}" for i in range(pads)]
    lines = [f".input p{i}\npinlist: i{i}" for i in range(pads)]
    for i in range(blocks):
        pins = " ".join(chance.choice(names + ["open"]) for _ in range(2))
        lines.append(f".clb b{i}\npinlist: {pins} n{i}")
    lines += [f".output q{i}\npinlist: {chance.choice(names)}" for i in range(pads - 1)]
    return "\n".join(lines) + "\n"


def event_list(chance, workers):
    """A letter and a worker's digit, + for a commit, = for a refresh."""
    text = ""
    for _ in range(EVENTS):
        letter = chance.choice("CCCCCCJJJJJJL+++=")
        text += letter if letter in "+=" else letter + str(chance.randrange(workers))
    return text


def happens(world, text):
    names = {"C": "Claim", "J": "Judge", "L": "Lose"}
    at = 0
    while at < len(text):
        if text[at] in names:
            world.step((names[text[at]], int(text[at + 1])))
            at += 2
        else:
            world.step(("Commit",) if text[at] == "+" else ("Refresh",))
            at += 1


def at_start(net, plan, seed):
    """What a run of this netlist is given, and where it stands before its first move; no block is fixed."""
    arch = read_arch(ARCH)
    design = read_net(net.encode(), arch)
    grid = fit(design.logic(), design.pads(), arch.io_rat)
    words = StreamWords(seed)
    pins = Pins(Fixed(), Fixed())
    setting = Setting(design, grid, pins.fixed, plan, words)
    return setting, first_standing(setting, start(design, grid, pins, words))


def row(seed):
    chance = random.Random(seed)
    net = net_text(chance, chance.randrange(3, 8), chance.randrange(1, 4))
    cooling = chance.choice([500, 800, ADAPTIVE])
    plan = Schedule(chance.choice([1, 4000, 30000]), 3000, cooling, chance.randrange(3, 10))
    setting, standing = at_start(net, plan, seed)
    world = World(setting, standing)
    text = event_list(chance, chance.randrange(2, 7))
    happens(world, text)
    ways = "".join(world.ways[k][0] for k in sorted(world.ways))
    sites = "".join(f" {x},{y},{sub}" for x, y, sub in world.live.placement.sites)
    alpha = 0 if cooling == ADAPTIVE else cooling
    wanted = f"{ways} total {world.live.a} at{sites}"
    return seed, net, plan, alpha, text, wanted


HEAD = """//! Lists of events on random small designs, with what comes of them: written by `tests/tables/worlds.py`, from what an
//! independent slow placer makes of each, which adds up all nets for each move.

/// A design with a seed of its words, a schedule, and what happens.
#[derive(Clone, Copy)]
pub(crate) struct Row {
    pub(crate) seed: u64,
    pub(crate) net: &'static [u8],
    pub(crate) init_t: u64,
    /// Thousandths, 0 where it cools by acceptance.
    pub(crate) alpha: u64,
    pub(crate) moves: u64,
    /// A letter and the digit of a worker for a claim, a judgement and a loss, + for a commit, = for a refresh.
    pub(crate) events: &'static [u8],
    /// The first letters of the ways, the accepted moves, and the sites of the blocks.
    pub(crate) wanted: &'static str,
}

pub(crate) const ROWS: [Row; %d] = [
"""


def rust(row):
    seed, net, plan, alpha, text, wanted = row
    net = net.replace("\n", "\\n")
    return (f"    Row {{\n        seed: {seed},\n        net: b\"{net}\",\n        init_t: {plan.init_t},\n"
            f"        alpha: {alpha},\n        moves: {plan.moves},\n        events: b\"{text}\",\n"
            f"        wanted: \"{wanted}\",\n    }},\n")


rows = [row(seed) for seed in range(1, ROWS + 1)]
ways = "".join(wanted.split()[0] for *_, wanted in rows)
print("taken, redone, late:", *(ways.count(letter) for letter in "TRL"), file=sys.stderr)
print(HEAD % ROWS + "".join(rust(row) for row in rows) + "];")
