#!/usr/bin/env python3
"""Takes a design of vplace to nextpnr-generic and back, for bench/peers.sh.

    peers.py circuit ARCH NET > CIRCUIT.json     the blocks as cells CLB and GENERIC_IOB, without the global nets
    peers.py array ARCH PLACE > ARRAY.py         the array of a placement as bels: a script for --pre-pack
    peers.py placement ARCH NET PLACE WRITTEN.json > OTHER.place    where nextpnr put the cells, in the array of PLACE
    peers.py timed SECONDS WORD ..    runs a command, and writes the processor seconds that it took to the file SECONDS
    peers.py length NET PLACE    the plain half perimeter: the sum, over all nets that are not global, of width and height of the box of the net
"""
import json
import re
import resource
import subprocess
import sys


def lines_of(path):
    with open(path, encoding="utf-8") as file:
        for line in re.sub(r"#.*", "", file.read()).replace("\\\n", " ").splitlines():
            if line.split():
                yield line.split()


def pads_of(arch):
    return next(int(it[1]) for it in lines_of(arch) if it[0] == "io_rat")


def drives(arch):
    """Whether each pin of a logic block drives its net."""
    return [it[0] == "outpin" for it in lines_of(arch) if it[0] in ("inpin", "outpin")]


def blocks_of(net):
    """Each block as its kind, its name and the nets on its pins, and the set of global nets."""
    blocks, unseen = [], set()
    for words in lines_of(net):
        if words[0] == ".global":
            unseen.update(words[1:])
        elif words[0] in (".input", ".output", ".clb"):
            blocks.append([words[0], words[1], []])
        elif words[0] == "pinlist:":
            blocks[-1][2] = words[1:]
    return blocks, unseen


def size_of(place):
    with open(place, encoding="utf-8") as file:
        words = file.read().splitlines()[1].split()
    return int(words[2]), int(words[4])


def circuit(arch, net):
    blocks, unseen = blocks_of(net)
    outputs, bits, cells = drives(arch), {}, {}
    for kind, name, pins in blocks:
        ways = outputs if kind == ".clb" else [kind == ".input"]
        joined = {f"P{i}": (way, it) for i, (way, it) in enumerate(zip(ways, pins)) if it != "open" and it not in unseen}
        cells[name] = {
            "hide_name": 0,
            "type": "CLB" if kind == ".clb" else "GENERIC_IOB",
            "parameters": {},
            "attributes": {},
            "port_directions": {pin: "output" if way else "input" for pin, (way, _) in joined.items()},
            "connections": {pin: [bits.setdefault(it, len(bits) + 2)] for pin, (_, it) in joined.items()},
        }
    names = {name: {"hide_name": 0, "bits": [bit], "attributes": {}} for name, bit in bits.items()}
    module = {"attributes": {"top": "1".zfill(32)}, "ports": {}, "cells": cells, "netnames": names}
    json.dump({"creator": "peers.py", "modules": {"top": module}}, sys.stdout)


def array(arch, place):
    (nx, ny), pads, pins = size_of(place), pads_of(arch), len(drives(arch))
    edge = [(x, y) for y in range(1, ny + 1) for x in (0, nx + 1)] + [(x, y) for x in range(1, nx + 1) for y in (0, ny + 1)]
    print(f"""
def bel(name, kind, x, y, z, pins):
    ctx.addBel(name=name, type=kind, loc=Loc(x, y, z), gb=False, hidden=False)
    for i in range(pins):
        ctx.addWire(name=f"{{name}}_W{{i}}", type="PIN", x=x, y=y)
        ctx.addBelInput(bel=name, name=f"P{{i}}", wire=f"{{name}}_W{{i}}")

for x in range(1, {nx} + 1):
    for y in range(1, {ny} + 1):
        bel(f"X{{x}}Y{{y}}", "CLB", x, y, 0, {pins})
for x, y in {edge!r}:
    for z in range({pads}):
        bel(f"X{{x}}Y{{y}}Z{{z}}", "GENERIC_IOB", x, y, z, 1)
""")


def placement(arch, net, place, written):
    nx, ny = size_of(place)
    blocks, _ = blocks_of(net)
    with open(written, encoding="utf-8") as file:
        cells = next(iter(json.load(file)["modules"].values()))["cells"]
    print(f"Netlist file: {net.rpartition('/')[2]}   Architecture file: {arch.rpartition('/')[2]}\nArray size: {nx} x {ny} logic blocks\n")
    for _, name, _ in blocks:
        x, y, z = re.fullmatch(r"X(\d+)Y(\d+)(?:Z(\d+))?", cells[name]["attributes"]["NEXTPNR_BEL"]).groups()
        print(name, x, y, z or 0, sep="\t")


def timed(path, *words):
    status = subprocess.run(words, check=False).returncode
    used = resource.getrusage(resource.RUSAGE_CHILDREN)
    with open(path, "w", encoding="utf-8") as file:
        print(f"{used.ru_utime + used.ru_stime:.2f}", file=file)
    sys.exit(status)


def length(net, place):
    blocks, unseen = blocks_of(net)
    at = {it[0]: (int(it[1]), int(it[2])) for it in list(lines_of(place))[2:]}
    ends = {}
    for _, name, pins in blocks:
        for it in pins:
            if it != "open" and it not in unseen:
                ends.setdefault(it, []).append(at[name])
    print(sum(max(x) - min(x) + max(y) - min(y) for x, y in (zip(*it) for it in ends.values())))


def main():
    calls = {"circuit": circuit, "array": array, "placement": placement, "timed": timed, "length": length}
    calls[sys.argv[1]](*sys.argv[2:])


main()
