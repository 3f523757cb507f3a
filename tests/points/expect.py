"""Makes `points` and `expected` with the independent placer whose folder is the one argument (README.md)."""

import os
import subprocess
import sys
import tempfile

PLACER = os.path.realpath(sys.argv[1])
sys.path.insert(0, PLACER)
from placer.arch import read_arch
from placer.faults import Fault, RunFault
from placer.net import read_net
from placer.point import read_point, write_point
from placer.profile import LATEST

HERE = os.path.dirname(os.path.realpath(__file__))
WANTED = 100


def stopped(folder, number):
    """A point of the run of a design: after some moves, or fewer where the run has fewer."""
    with open("words") as file:
        words = file.read().split("\n")[:-1]
    for stop in (number * 7 % 300, number * 3 % 40, number % 5, 0):
        subprocess.run(["python3", PLACER + "/vplace_reference.py", *words, "--stop", str(stop), "--save", "t.point"],
                       capture_output=True, check=True)
        if os.path.exists("t.point"):
            with open("t.point") as file:
                return file.read()
    return None


def told(text):
    with open("t.arch", "rb") as file:
        arch = read_arch(file.read())
    with open("t.net", "rb") as file:
        design = read_net(file.read(), arch)
    try:
        seed, grid, point = read_point(text.encode(), arch, design, LATEST)
    except Fault as fault:
        return RunFault("point", fault).line().decode().rstrip("\n")
    return write_point(seed, design, grid, point, LATEST).decode()


def first_version(text):
    lines = text.split("\n")
    return "\n".join(["vplace point 1"] + [line for line in lines[1:] if not line.startswith("temperature ")])


def cut_line(text, number):
    lines = text.split("\n")
    lines[number - 1:number] = [word for word in [lines[number - 1].rpartition(" ")[0]] if word]
    return "\n".join(lines)


def main():
    number = made = 0
    with open(HERE + "/points", "w") as points, open(HERE + "/expected", "w") as expected:
        while made < WANTED:
            number += 1
            if number % 5 == 0:
                continue
            with tempfile.TemporaryDirectory() as folder:
                os.chdir(folder)
                subprocess.run(["awk", "-v", f"number={number}", "-f", HERE + "/../random/design.awk"], check=True)
                text = stopped(folder, number)
                if text is None:
                    continue
                made += 1
                assert told(text) == text
                first = told(first_version(text))
                first = "same" if first == text else first.replace(" ", "_")
                line = 1 + number * 5 % text.count("\n")
                points.write(f"design {number}\n{text}")
                expected.write(f"{number} {first} {line} {told(cut_line(text, line))}\n")
                os.chdir("/")


main()
