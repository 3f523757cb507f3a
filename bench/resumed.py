#!/usr/bin/env python3
"""How long the last stages of a run take, resumed from a checkpoint, with several programs and numbers of workers, by turns, the least of each.
Stops if two of them print or write other bytes.

  bench/resumed.py DESIGN MOVES STAGES NAME=PROGRAM .. -- WORKERS ..

DESIGN is the path of a .net and an .arch file without the ending. A stage has MOVES moves, the schedule is that of bench/place.sh, and the last
STAGES stages are resumed: 1 is the frozen stage alone. RUNS runs are made of each, 4 by default. Prints milliseconds of the whole program.
"""
import os
import subprocess
import sys
import tempfile
import time

# 11 stages, the frozen one with them.
SCHEDULE = ["--init-t", "10", "--exit-t", "0.01", "--alpha-t", "0.5"]
STAGES = 11


def main(design, moves, stages, *rest):
    programs = [it.partition("=")[::2] for it in rest[: rest.index("--")]]
    counts = rest[rest.index("--") + 1 :]
    texts = ["--arch", f"{design}.arch", "--net", f"{design}.net"]
    wanted, least = None, {}
    with tempfile.TemporaryDirectory() as room:
        point, out = f"{room}/point", f"{room}/place"
        stop = str((STAGES - int(stages)) * int(moves))
        begin = [programs[-1][1], "place", *texts, "--out", out, "--stop", stop, "--save", point, "--moves", moves, *SCHEDULE]
        subprocess.run(begin, check=True, stdout=subprocess.DEVNULL)
        for _ in range(int(os.environ.get("RUNS", "4"))):
            for count in counts:
                for name, program in programs:
                    command = [program, "resume", *texts, "--point", point, "--out", out, "--workers", count]
                    begun = time.monotonic()
                    told = subprocess.run(command, check=True, capture_output=True).stdout
                    taken = time.monotonic() - begun
                    with open(out, "rb") as it:
                        told += it.read()
                    if wanted not in (None, told):
                        sys.exit(f"{name} with {count} workers ends otherwise")
                    wanted = told
                    least[count, name] = min(taken, least.get((count, name), taken))
    print(f"{os.path.basename(design)}, the last {stages} of {STAGES} stages of {moves} moves, milliseconds")
    for count in counts:
        print(f"workers {count}:", *(f"{name} {least[count, name] * 1000:.0f}" for name, _ in programs))


main(*sys.argv[1:])
