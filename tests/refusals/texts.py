"""Texts for the five readers, and how a program is asked what it makes of one: whole texts, their beginnings, and odd ones drawn from a number.

A world is an architecture, a netlist, and texts for them. A text of one reader is asked about in the world's other texts, so that it is all
that may be at fault."""

import io
import os
import re
import subprocess
import sys
import zlib

HERE = os.path.dirname(os.path.realpath(__file__))
TOP = os.path.dirname(os.path.dirname(HERE))
SMALL = TOP + "/tests/cli/small"
OWN = HERE + "/texts"

READERS = ("arch", "net", "place", "pads", "point")
# A frozen stage of three moves: every reader's text is used by them, and they take no time.
SHORT = "--init-t 1 --exit-t 2 --moves 3 --seed 5".split()
# No run of a text takes longer than this, in seconds.
LIMIT = 20


class World:
    """The texts of a design: where each is, and the sides of its array."""

    def __init__(self, name, sides, arch, net, place=None, pads=None, points=()):
        self.name, self.sides = name, sides
        self.paths = {"arch": [arch], "net": [net], "place": [place] if place else [], "pads": [pads] if pads else [], "point": list(points)}

    def texts(self, reader):
        return [read(path) for path in self.paths[reader]]

    def words(self, reader, text):
        """The words that have the program read the file `odd`."""
        names = {"arch": "arch", "net": "net"}
        if reader in names:
            names[reader] = "odd"
        design = ["--arch", names["arch"], "--net", names["net"]]
        if reader == "place":
            return ["check", *design, "--place", "odd"]
        if reader == "point":
            return ["resume", *design, "--point", "odd", "--out", "out", "--stop", str(moves_made(text)), "--save", "save"]
        located = ["--pads", "odd", "--nx", str(self.sides[0]), "--ny", str(self.sides[1])] if reader == "pads" else []
        return ["place", *design, *located, "--out", "out", *SHORT]


WORLDS = [
    World("t", (1, 1), SMALL + "/t.arch", SMALL + "/t.net", SMALL + "/t.place", SMALL + "/t.pads", [SMALL + "/t.point", OWN + "/t1.point"]),
    World("f", (2, 2), SMALL + "/f.arch", SMALL + "/f.net", OWN + "/f.place", OWN + "/f.pads", [SMALL + "/f.point", OWN + "/fa.point"]),
    World("g", (3, 2), OWN + "/g.arch", OWN + "/g.net", OWN + "/g.place", OWN + "/g.pads", [OWN + "/g.point", OWN + "/g1.point"]),
]


def read(path):
    with open(path, "rb") as file:
        return file.read()


def write(path, text):
    with open(path, "wb") as file:
        file.write(text)


def lines_of(text):
    """The words of each line, by the rule of the readers: comments are cut, and a backslash at the end joins."""
    lines, words, joined = [], [], False
    for line in text.split(b"\n"):
        line = line.split(b"#")[0].rstrip(b" \t\r")
        goes_on = line.endswith(b"\\")
        more = re.findall(rb"[^ \t\r]+", line[:-1] if goes_on else line)
        words = words + more if joined else more
        joined = goes_on
        if not joined:
            lines.append(words)
    return [words for words in lines + [words] * joined if words]


def moves_made(text):
    """How many moves a checkpoint says were made, so that the run stops where it begins, and its text comes back; 0 if it says nothing."""
    said = {words[0]: words for words in reversed(lines_of(text))}
    numbers = said.get(b"stage", [])[1:4:2] + said.get(b"schedule", [])[4:5]
    if len(numbers) != 3 or not all(re.fullmatch(rb"[0-9]{1,30}", number) for number in numbers):
        return 0
    index, done, moves = map(int, numbers)
    return min(index * moves + done, 2**64 - 1)


def shown(status, report, said, left):
    """An answer as bytes: the status, both outputs, and what lies at the out name and at the save name."""
    return b"\n".join([b"%d" % status, report, said, *(b"none" if text is None else text for text in left)])


class Program:
    """The built program, run in a folder of its own."""

    def __init__(self, path, folder):
        self.path, self.folder = path, folder

    def answer(self, world, reader, text):
        folder = f"{self.folder}/{world.name}"
        if not os.path.isdir(folder):
            os.makedirs(folder)
            for name in ("arch", "net"):
                write(f"{folder}/{name}", world.texts(name)[0])
        write(folder + "/odd", text)
        try:
            done = subprocess.run([self.path, *world.words(reader, text)], cwd=folder, stdin=subprocess.DEVNULL, capture_output=True, timeout=LIMIT)
        except subprocess.TimeoutExpired:
            return shown(-1, b"", b"it did not end", [None, None])
        return shown(done.returncode, done.stdout, done.stderr, [taken(f"{folder}/{name}") for name in ("out", "save")])


def taken(path):
    """What a file has, or None; the file is removed."""
    if not os.path.exists(path):
        return None
    text = read(path)
    os.remove(path)
    return text


class Reference:
    """Another placer, whose Python modules are in a folder: its command line is called in this process, over files in memory."""

    def __init__(self, folder):
        sys.path.insert(0, folder)
        from placer import cli

        self.program = cli.program

    def answer(self, world, reader, text):
        self.files = {b"arch": world.texts("arch")[0], b"net": world.texts("net")[0], b"odd": text}
        report, said = io.BytesIO(), io.BytesIO()
        status = self.program([word.encode() for word in world.words(reader, text)], self, report, said)
        return shown(status, report.getvalue(), said.getvalue(), [self.files.get(name) for name in (b"out", b"save")])

    def read(self, name):
        return self.files[name]

    def write(self, name, text):
        self.files[name] = text


def code_of(answer):
    """An answer in short: the code of its fault, `-` where there is none, `?` where it has no code."""
    status = answer.split(b"\n")[0]
    if status == b"0":
        return "-"
    fault = re.search(rb"\nvplace: [a-z]+: ([A-Z][0-9]+) ", answer)
    return fault[1].decode() if fault and status == b"1" else "?"


def sum_of(answers):
    """One checksum for some answers."""
    total = 0
    for answer in answers:
        total = zlib.crc32(b"%d:" % len(answer) + answer, total)
    return "%08x" % total


class Draw:
    """Whole numbers drawn from a seed, the same everywhere: the generator of Park and Miller."""

    def __init__(self, seed):
        self.state = seed % 2147483646 + 1
        for _ in range(3):
            self.below(2)

    def below(self, count):
        self.state = self.state * 48271 % 2147483647
        return self.state // 64 % count

    def one_of(self, list_):
        return list_[self.below(len(list_))]


NUMBERS = b"0 1 2 3 5 24 25 63 64 65 00 007 999 1000 1001 65535 65536 4294967296 18446744073709551615 18446744073709551616 -1 +1 1.5 1e3 0x2".split()
BYTES = [bytes([byte]) for byte in b"\n\r\t #\\0129ax.:-+\0\v\f\x7f\x85\xa0\xff"] + [b"\\\n", b"\\\n\n", b"\r\n", b" \\ \n", b"\\\\\n", b"# \\\n", b"\xe2\x80\xa8"]
VOCABULARY = {
    "arch": b"io_rat inpin outpin class: Class: class global top bottom left right io_rat: inpin: chan_width_io".split(),
    "net": b".input .output .clb .global pinlist: subblock: open .latch .end pinlist OPEN .CLB".split(),
    "place": b"Netlist file: Architecture Array size: x logic blocks Logic block X".split(),
    "pads": b"Netlist file: Architecture Array size: x logic blocks free fixed FREE".split(),
    "point": b"vplace point seed array x io_rat schedule adaptive stage done accepted temperature range total fixed places end".split(),
}
LINES = {
    "arch": [b"io_rat 1", b"inpin class: 0 top", b"outpin class: 7 global left right", b"pins", b"inpin", b"outpin class:", b"inpin class: 1"],
    "net": [b".clb new", b".input new", b"pinlist: open", b"pinlist:", b"subblock:", b".global a b1 clk", b".output", b".global"],
    "place": [b"new 1 1 0", b"a 0 1 0", b"b1 1 1 0", b"a 0 1", b"b 1 1 0 free", b"Array size: 2 x 2 logic blocks"],
    "pads": [b"a 0 1 0 free", b"b1 1 1 0 free", b"b1 2 2 0", b"z 0 1 0", b"a 0 1 1", b"b 1 1 0"],
    "point": [b"a fixed", b"b1 fixed", b"temperature 1", b"end", b"range 1500", b"a 0 1 0", b"vplace point 1"],
}


def odd_text(reader, number):
    """The world and the odd text of this number: a text of the world with one to four changes, or now and then with none."""
    draw = Draw(number * 5 + READERS.index(reader) + 1)
    world = draw.one_of(WORLDS)
    text = draw.one_of(world.texts(reader))
    for _ in range(draw.one_of([0, 1, 1, 1, 1, 2, 2, 3, 4])):
        text = draw.one_of(CHANGES)(draw, reader, text)
    return world, text


def words_in(text):
    return list(re.finditer(rb"[^ \t\r\n]+", text))


def put(text, start, stop, new):
    return text[:start] + new + text[stop:]


def some_word(draw, text):
    """Where a word is; anything at the beginning of a text without one."""
    words = words_in(text)
    return draw.one_of(words).span() if words else (0, 0)


def other_byte(draw, _reader, text):
    at = draw.below(len(text) + 1)
    return put(text, at, at + 1, draw.one_of(BYTES))


def more_bytes(draw, _reader, text):
    at = draw.below(len(text) + 1)
    return put(text, at, at, draw.one_of(BYTES))


def fewer_bytes(draw, _reader, text):
    at = draw.below(len(text) + 1)
    return put(text, at, at + 1 + draw.below(4), b"")


def cut(draw, _reader, text):
    return text[: draw.below(len(text) + 1)]


def other_word(draw, reader, text):
    return put(text, *some_word(draw, text), draw.one_of(VOCABULARY[reader] + NUMBERS))


def other_number(draw, _reader, text):
    """A number that is one off, ten times as large, or from the list."""
    numbers = [it for it in words_in(text) if re.fullmatch(rb"[0-9]{1,20}", it[0])]
    if not numbers:
        return text
    it = draw.one_of(numbers)
    number = int(it[0])
    return put(text, *it.span(), draw.one_of([b"%d" % (number + 1), b"%d" % max(0, number - 1), it[0] + b"0", b"0" + it[0], draw.one_of(NUMBERS)]))


def no_word(draw, _reader, text):
    return put(text, *some_word(draw, text), b"")


def word_twice(draw, _reader, text):
    start, stop = some_word(draw, text)
    return put(text, stop, stop, b" " + text[start:stop])


def word_of_elsewhere(draw, _reader, text):
    start, stop = some_word(draw, text)
    return put(text, *some_word(draw, text), text[start:stop])


def no_line(draw, _reader, text):
    lines = text.split(b"\n")
    lines.pop(draw.below(len(lines)))
    return b"\n".join(lines)


def line_twice(draw, _reader, text):
    lines = text.split(b"\n")
    lines.insert(draw.below(len(lines) + 1), draw.one_of(lines))
    return b"\n".join(lines)


def lines_change_places(draw, _reader, text):
    lines = text.split(b"\n")
    one, other = draw.below(len(lines)), draw.below(len(lines))
    lines[one], lines[other] = lines[other], lines[one]
    return b"\n".join(lines)


def another_line(draw, reader, text):
    lines = text.split(b"\n")
    lines.insert(draw.below(len(lines) + 1), draw.one_of(LINES[reader]))
    return b"\n".join(lines)


def line_broken(draw, _reader, text):
    """A blank becomes a backslash and a line feed: the text means what it meant."""
    blanks = [it.span() for it in re.finditer(rb" +", text)]
    return put(text, *draw.one_of(blanks), b" \\\n ") if blanks else text


def ends_of_another_system(_draw, _reader, text):
    return text.replace(b"\n", b"\r\n")


CHANGES = [
    other_byte, other_byte, more_bytes, more_bytes, fewer_bytes, cut, other_word, other_word, other_number, other_number, no_word,
    word_twice, word_of_elsewhere, no_line, line_twice, lines_change_places, another_line, line_broken, ends_of_another_system,
]
