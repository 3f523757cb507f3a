#!/usr/bin/env python3
"""Packs a circuit of k-input tables and flip-flops into logic blocks of one table and one flip-flop, as VPR 4.30's files show them.

The circuit is what yosys writes with `write_json` after `abc -lut K`, or a mapped circuit in BLIF, as ABC and VPR's front ends write it, which
yosys reads. A table and a flip-flop share a block where the flip-flop is all that reads the table. Any other table, and any other flip-flop,
has a block of its own. Each bit of a port is a pad. The nets of clocks are global. README.md says how names are written.
"""
import argparse
import json
import os
import re
import subprocess
import sys
import tempfile

# Words that pack.py begins names with; a name of the circuit that begins so has its colon written as %3A.
OUT, CONSTANT = "out:", "constant:"
# The kinds of flip-flops. Those of a BLIF may have a falling clock, or none.
FLOPS = ("$_DFF_P_", "$_DFF_N_", "$_FF_")
# What a word of a netlist cannot hold: `#`, blanks and line ends. The escape sign itself and backslashes are written otherwise too.
ODD = re.compile(r"[\x00-\x20\x7f#%\\]")


class Fault(Exception):
    """What is wrong with the circuit, in one line."""


def percent(letter):
    return f"%{ord(letter):02X}"


def word_of(name, index=None):
    """The word that stands for a net: `urllib.parse.unquote` gives its name back."""
    word = ODD.sub(lambda it: percent(it[0]), name)
    if word == "open" and index is None:
        word = percent("o") + "pen"
    if word.startswith((OUT, CONSTANT)):
        word = word.replace(":", percent(":"), 1)
    if index is not None:
        return f"{word}[{index}]"
    # A name of one bit that looks like a bit of a vector.
    return re.sub(r"\[(-?\d+\])$", lambda it: percent("[") + it[1], word)


def top_of(circuit):
    modules = circuit.get("modules", {})
    tops = [it for it in modules.values() if len(modules) == 1 or int(it["attributes"].get("top", "0"), 2)]
    if len(tops) != 1:
        raise Fault(f"one top module is needed, and there are {len(tops)}")
    return tops[0]


def bits_of(name, wire):
    """The bits of a port or a wire, each with its word."""
    many = len(wire["bits"]) > 1
    for place, bit in enumerate(wire["bits"]):
        at = len(wire["bits"]) - 1 - place if wire.get("upto") else place
        yield bit, word_of(name, at + wire.get("offset", 0) if many else None)


def words_by_net(module):
    """The word of each net: that of an input port, else of an output port, else of a wire of the source, else of one that yosys made."""
    ranked = {}
    ports = {name: it["direction"] for name, it in module["ports"].items()}
    for name, wire in module["netnames"].items():
        rank = {"input": 0, "output": 1}.get(ports.get(name), 2 + wire["hide_name"])
        for bit, word in bits_of(name, wire):
            if isinstance(bit, int) and (bit not in ranked or rank < ranked[bit][0]):
                ranked[bit] = (rank, word)
    words = {bit: word for bit, (_, word) in ranked.items()}
    words.update({"0": CONSTANT + "0", "1": CONSTANT + "1", "x": CONSTANT + "0", "z": CONSTANT + "0"})
    return words


def circuit_of_blif(path):
    """A circuit in BLIF, with the tables that it has."""
    with tempfile.TemporaryDirectory() as folder:
        # The name may hold what is no word of yosys.
        os.symlink(os.path.abspath(path), f"{folder}/circuit.blif")
        steps = f"read_blif {folder}/circuit.blif; hierarchy -auto-top; flatten; simplemap t:$lut %n; opt_clean; write_json {folder}/circuit.json"
        try:
            subprocess.run(["yosys", "-q", "-p", steps], check=True)
        except (OSError, subprocess.CalledProcessError) as fault:
            raise Fault("yosys is missing here, or does not read it") from fault
        return circuit_of_json(f"{folder}/circuit.json")


def circuit_of_json(path):
    # Bytes that are no UTF-8 come out as they came in.
    with open(path, encoding="utf-8", errors="surrogateescape") as file:
        return json.load(file)


def refuse_several_drivers(module, words):
    """Of several cells that drive a net only one would be kept."""
    driven = {it for port in module["ports"].values() if port["direction"] == "input" for it in port["bits"]}
    for cell in module["cells"].values():
        for bit in cell["connections"].get("Y", []) + cell["connections"].get("Q", []):
            if bit in driven:
                raise Fault(f"the net {words.get(bit, bit)} has two drivers")
            driven.add(bit)


def cells_of(module, most):
    """The inputs of each table by its output, and flip-flops as (data, clock, output)."""
    tables, flops = {}, []
    for name, cell in module["cells"].items():
        pins = cell["connections"]
        if cell["type"] == "$lut" and len(pins["A"]) <= most:
            tables[pins["Y"][0]] = pins["A"]
        elif cell["type"] in FLOPS:
            flops.append((pins["D"][0], pins.get("C", [None])[0], pins["Q"][0]))
        else:
            wide = f" of {len(pins['A'])} inputs" if cell["type"] == "$lut" else ""
            raise Fault(f"the cell {word_of(name)} is a {cell['type']}{wide}: no table of {most} inputs and no flip-flop $_DFF_P_")
    return tables, flops


def pads_of(module, words):
    """The input and the output pads, each as its name and the word of its net."""
    inputs, outputs = [], []
    for name, port in module["ports"].items():
        if port["direction"] == "inout":
            raise Fault(f"the port {word_of(name)} is both input and output, which no pad here can be")
        wire = {**module["netnames"].get(name, {}), "bits": port["bits"]}
        for bit, word in bits_of(name, wire):
            if port["direction"] == "input":
                inputs.append((word, words[bit]))
            else:
                outputs.append((OUT + word, words[bit]))
    return inputs, outputs


def packed(module, tables, flops):
    """The logic blocks: the nets of a table's inputs (those of a flip-flop's data where it has no table), clock or None, and output."""
    readers = {None: 0}
    ends = [it for port in module["ports"].values() if port["direction"] == "output" for it in port["bits"]]
    for net in [*ends, *(it for inputs in tables.values() for it in inputs), *(it for flop in flops for it in flop[:2])]:
        readers[net] = readers.get(net, 0) + 1
    joined = {data for data, _, _ in flops if data in tables and readers[data] == 1}
    blocks = [(inputs, None, output) for output, inputs in tables.items() if output not in joined]
    blocks += [(tables[data] if data in joined else [data], clock, output) for data, clock, output in flops]
    # A table without inputs makes the constant of an output pad.
    return blocks + [([], None, bit) for bit in dict.fromkeys("1" if it == "1" else "0" for it in ends if isinstance(it, str))]


def write_net(file, title, pads, blocks, words, most):
    inputs, outputs = pads
    print(f"# {title}: {len(inputs)} input pads, {len(outputs)} output pads, {len(blocks)} logic blocks", file=file)
    clocks = dict.fromkeys(words[clock] for _, clock, _ in blocks if isinstance(clock, int))
    if clocks:
        print("\n.global", *clocks, file=file)
    for kind, rows in ((".input", inputs), (".output", outputs)):
        for name, net in rows:
            print(f"\n{kind} {name}\npinlist: {net}", file=file)
    for ins, clock, output in blocks:
        # A table has the constants among its inputs inside.
        ins = [words[it] for it in ins if isinstance(it, int)]
        clock = words[clock] if isinstance(clock, int) else "open"
        filled = ["open"] * (most - len(ins))
        pins = [*range(len(ins)), *filled, most, "open" if clock == "open" else most + 1]
        print(f"\n.clb {words[output]}\npinlist:", *ins, *filled, words[output], clock, file=file)
        print("subblock:", words[output], *pins, file=file)


def write_arch(file, title, most, pads):
    print(f"# {title}: logic blocks of one {most}-input table with one flip-flop. Only what a placement reads is here.\n", file=file)
    print(f"io_rat {pads}  # pads at each position of the edge\n", file=file)
    print(f"# Pins 0 to {most - 1} are the inputs of the table, pin {most} is the output, pin {most + 1} the clock.", file=file)
    for pin in range(most):
        print("inpin class: 0", ("top bottom", "left right")[pin % 2], file=file)
    print("outpin class: 1 top bottom left right\ninpin class: 2 global left\n", file=file)
    print(f"subblocks_per_clb 1\nsubblock_lut_size {most}", file=file)


def main():
    asked = argparse.ArgumentParser(description="Packs the circuit of a JSON file of yosys or of a BLIF file, and writes NAME.net and NAME.arch.")
    asked.add_argument("circuit", metavar="CIRCUIT.json|CIRCUIT.blif")
    asked.add_argument("name", metavar="NAME")
    asked.add_argument("--inputs", type=int, default=4, metavar="K", help="the most inputs that a table has [4]")
    asked.add_argument("--pads", type=int, default=2, metavar="N", help="the pads at each position of the edge [2]")
    asked = asked.parse_args()
    bytes_kept = {"encoding": "utf-8", "errors": "surrogateescape"}
    try:
        module = top_of(circuit_of_blif(asked.circuit) if asked.circuit.endswith(".blif") else circuit_of_json(asked.circuit))
        words = words_by_net(module)
        refuse_several_drivers(module, words)
        pads = pads_of(module, words)
        blocks = packed(module, *cells_of(module, asked.inputs))
        if not pads[0] and not pads[1] and not blocks:
            raise Fault("no pad and no logic is left: is the top module a test bench? TOP=NAME of flow.sh places another")
        title = word_of(asked.name.rpartition("/")[2])
        with open(f"{asked.name}.net", "w", **bytes_kept) as file:
            write_net(file, title, pads, blocks, words, asked.inputs)
        with open(f"{asked.name}.arch", "w", **bytes_kept) as file:
            write_arch(file, title, asked.inputs, asked.pads)
    except (Fault, ValueError, OSError) as fault:
        print(f"pack.py: {asked.circuit}: {fault}", file=sys.stderr)
        return 1
    print(f"{asked.name}.net: {len(pads[0])} input pads, {len(pads[1])} output pads, {len(blocks)} logic blocks")
    return 0


sys.exit(main())
