#!/usr/bin/env python3
"""How long each stage of a run takes with several programs or numbers of workers, by turns, the least of each: told by when the lines of the
report come. Stops if two of them print different reports.

  bench/stages.py DESIGN [WORD ..] -- NAME=PROGRAM:WORKERS ..

DESIGN is the path of a .net and an .arch file without the ending; the words go to `vplace place`. RUNS runs are made of each, 3 by default.
Prints `run` and its words; for each run `time`, its name, and the seconds until each line of the report; for each stage `line`, the number of
its line, its moves, and the accepted share. After these, the range and the accepted share of each stage, and the nanoseconds of a move.
"""
import os
import subprocess
import sys
import tempfile
import time


def times_of(program, workers, design, words, out):
    """Runs a program. Returns its lines, and the seconds from each line to the next."""
    command = [program, "place", "--arch", f"{design}.arch", "--net", f"{design}.net", "--out", out, "--workers", workers, *words]
    lines, seconds, last = [], [], time.monotonic()
    with subprocess.Popen(command, stdout=subprocess.PIPE, text=True) as run:
        for line in run.stdout:
            now = time.monotonic()
            lines.append(line.split())
            seconds.append(now - last)
            last = now
    return lines, seconds


def after(words, word):
    return words[words.index(word) + 1]


def main(design, *rest):
    words, asked = rest[: rest.index("--")], [it.partition("=") for it in rest[rest.index("--") + 1 :]]
    report, least = None, {}
    print("run", os.path.basename(design), *words)
    with tempfile.TemporaryDirectory() as room:
        for _ in range(int(os.environ.get("RUNS", "3"))):
            for name, _, run in asked:
                program, _, workers = run.rpartition(":")
                lines, seconds = times_of(os.path.abspath(program), workers, design, words, f"{room}/place")
                if report not in (None, lines):
                    sys.exit(f"{name} prints another report")
                report = lines
                print("time", name, *(f"{it:.6f}" for it in seconds), flush=True)
                least[name] = [min(both) for both in zip(least.get(name, seconds), seconds)]
    stages = [(i, line, int(after(line, "moves"))) for i, line in enumerate(report) if line[0] in ("stage", "frozen")]
    for i, line, moves in stages:
        print(f"line {i} {moves} {int(after(line, 'accepted')) / moves:.4f}")
    print(f"{os.path.basename(design)}: nanoseconds of a move, {', '.join(least)}")
    for i, line, moves in stages:
        share = int(after(line, "accepted")) / moves
        title = "frozen" if line[0] == "frozen" else " ".join(line[:2])
        print(f"{title} range {after(line, 'range')} accepted {share:.3f}:", *(f"{it[i] * 1e9 / moves:.0f}" for it in least.values()))
    print("seconds in all:", *(f"{sum(it):.2f}" for it in least.values()))


main(*sys.argv[1:])
