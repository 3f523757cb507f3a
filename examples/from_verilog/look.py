#!/usr/bin/env python3
"""Says what becomes of a source before it is mapped: which module is placed, which ones are left, what its memories become.

It reads what flow.sh lets yosys write after `proc` and `flatten`: the circuit as JSON, and the lists of modules before and after `hierarchy`. A
wire with several drivers is refused, since the mapping would keep one of them; so are memories of too many bits.
"""
import argparse
import json
import re
import sys


class Fault(Exception):
    """What is wrong with the source, in one line."""


def modules_of(path):
    """The names of modules in a list of yosys, without what it adds for parameters."""
    names = []
    with open(path, encoding="utf-8", errors="surrogateescape") as file:
        for line in file.read().splitlines():
            if line.startswith("  "):
                name = line.strip().removeprefix("$abstract\\")
                made = re.match(r"\$paramod(?:\$[0-9a-f]+)?\\([^\\]+)", name)
                names.append(made[1] if made else name)
    return list(dict.fromkeys(names))


def wire_names(module):
    """The name of each bit: that of a wire of the source if there is one."""
    names = {}
    for rank in (1, 0):
        for name, wire in module["netnames"].items():
            if wire["hide_name"] != rank:
                continue
            many = len(wire["bits"]) > 1
            for place, bit in enumerate(wire["bits"]):
                at = len(wire["bits"]) - 1 - place if wire.get("upto") else place
                names[bit] = f"{name}[{at + wire.get('offset', 0)}]" if many else name
    return names


def several_drivers(module):
    """The first wire with more than one driver, and the lines of these, or nothing."""
    drivers = {}
    for name, port in module["ports"].items():
        if port["direction"] == "input":
            for bit in port["bits"]:
                drivers.setdefault(bit, []).append(f"the port {name}")
    for cell in module["cells"].values():
        for port, bits in cell["connections"].items():
            if cell.get("port_directions", {}).get(port) == "output":
                for bit in bits:
                    drivers.setdefault(bit, []).append(cell["attributes"].get("src", cell["type"]).rpartition("/")[2])
    for bit, several in drivers.items():
        if isinstance(bit, int) and len(several) > 1:
            return wire_names(module).get(bit, "without a name"), [re.sub(r"\.\d+-\d+\.\d+$", "", it) for it in several]
    return None


def memories_of(module):
    """The memories: name, words, bits of a word, whether anything writes them."""
    written = {cell["parameters"]["MEMID"].lstrip("\\") for cell in module["cells"].values() if cell["type"].startswith("$memwr")}
    for name, it in module.get("memories", {}).items():
        if not it["hide_name"]:
            yield name, it["size"], it["width"], name in written


def told(module, top, before, after, most):
    """The lines about a source."""
    drivers = several_drivers(module)
    if drivers:
        raise Fault(f"the wire {drivers[0]} has {len(drivers[1])} drivers: {', '.join(drivers[1])}")
    left = [it for it in before if it not in after]
    yield f"top module {top}" + (f"; left out: {', '.join(left)} (TOP=NAME places another)" if left else "")
    flops = 0
    for name, words, width, is_written in memories_of(module):
        if is_written:
            flops += words * width
            if flops > most:
                raise Fault(
                    f"the {words:,} x {width} memory {name} becomes {words * width:,} flip-flops, a logic block each, and at most {most:,} are taken: "
                    f"make it smaller, or take it out of the design; MEMORY=N allows N"
                )
            yield f"the {words:,} x {width} memory {name} becomes {words * width:,} flip-flops"
        else:
            yield f"the {words:,} x {width} memory {name} is only read and becomes logic"


def main():
    asked = argparse.ArgumentParser(description="Looks at a source before it is mapped.")
    asked.add_argument("source", help="its name in what is printed")
    asked.add_argument("folder", help="early.json, before and after in it are read")
    asked.add_argument("most", type=int, help="the most flip-flops that memories may become")
    asked = asked.parse_args()
    try:
        with open(f"{asked.folder}/early.json", encoding="utf-8", errors="surrogateescape") as file:
            modules = json.load(file)["modules"]
        if len(modules) != 1:
            raise Fault(f"one top module is needed, and there are {len(modules)}")
        (top, module), = modules.items()
        for line in told(module, top, modules_of(f"{asked.folder}/before"), modules_of(f"{asked.folder}/after"), asked.most):
            print(f"{asked.source}: {line}")
    except (Fault, ValueError, OSError) as fault:
        print(f"look.py: {asked.source}: {fault}", file=sys.stderr)
        return 1
    return 0


sys.exit(main())
