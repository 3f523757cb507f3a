#!/usr/bin/env -S python3 -B
"""Prints the manual pages of vplace, made from its help and from the user's guide:

    packaging/manual.py PROGRAM GUIDE > vplace.1
    packaging/manual.py --formats PROGRAM GUIDE > vplace-formats.5
"""
import re
import sys

from guide_text import faults, paragraphs, section
from help_text import helps, version


def roff(text):
    """Text as it stands, in the language of manual pages."""
    for sign, written in (("\\", r"\e"), ("-", r"\-"), ("`", r"\(ga"), ("'", r"\(aq")):
        text = text.replace(sign, written)
    return "\n".join("\\&" + line if line.startswith(".") else line for line in text.split("\n"))


def entry(head, text):
    return f".TP\n.B {roff(head)}\n{roff(text)}"


def flags_of(option):
    return ", ".join(it for it in (option.short, option.long) if it) + (f" <{option.value}>" if option.value else "")


def example(line):
    return f".PP\n.nf\n.RS\n{roff(line)}\n.RE\n.fi"


def body(described):
    """What the help of vplace and of a subcommand both have: options, texts, examples."""
    yield from (entry(flags_of(it), it.text) for it in described.options)
    yield from (f".PP\n{roff(it)}" for it in described.texts)
    if described.examples:
        yield ".PP\nExamples:" if len(described.examples) > 1 else ".PP\nExample:"
        yield from (example(it) for it in described.examples)


def words(text):
    """A paragraph of the guide: its code and its links as plain words, its strong words strong."""
    text = roff(re.sub(r"\[([^]]*)\]\([^)]*\)", r"\1", text))
    text = re.sub(r"\\\(ga(.*?)\\\(ga", r"\\fB\1\\fR", text)
    return re.sub(r"\*\*(.*?)\*\*", r"\\fB\1\\fR", text)


FILES = (
    ("NAME.arch, NAME.net", "The architecture and the netlist, in the forms of VPR 4.30."),
    ("NAME.pads", "The location file (--pads)."),
    ("NAME.place", "The placement (--out, or --place of check)."),
    ("NAME.point", "The checkpoint of a run that stopped (--save, --point)."),
    ("NAME.place.vplace-part", "The placement while it is written; it is renamed when it is whole."),
    ("PREFIX/share/vplace", "The user's guide, and scripts: schedules, seeds, long runs, pictures, tables, from Verilog."),
)


def page(program, guide):
    top, commands = helps(program)
    yield '.\\" Made by packaging/manual.py from the help of the program and from the user\'s guide.'
    yield f'.TH VPLACE 1 "" "{roff(version(program))}" "User Commands"'
    yield f".SH NAME\nvplace \\- {roff(top.about)}"
    yield ".SH SYNOPSIS"
    yield "\n.br\n".join(f".B {roff(it.usage)}" for it in (top, *commands))
    yield ".SH DESCRIPTION"
    yield from body(top)
    yield ".SH COMMANDS"
    yield from (entry(name, text) for name, text in top.commands)
    for command in commands:
        yield f".SS vplace {roff(command.name)}\n{roff(command.about)}"
        yield from body(command)
    yield ".SH FILES"
    yield from (entry(name, roff(text)) for name, text in FILES)
    yield ".SH EXIT STATUS"
    yield from (entry(number, text) for number, text in top.statuses)
    yield ".SH DIAGNOSTICS"
    yield words("A fault is one line on standard error: `vplace: ROLE: CODE NAME`, mostly with a line, a block (from 0), a field or a name.")
    yield from (f".TP\n.B {roff(head)}\n{words(text)}" for head, text in faults(guide))
    yield ".SH SEE ALSO\n.BR vplace-formats (5)"


def formats(program, guide):
    yield '.\\" Made by packaging/manual.py from the user\'s guide.'
    yield f'.TH VPLACE-FORMATS 5 "" "{roff(version(program))}" "File Formats"'
    yield ".SH NAME\nvplace-formats \\- the files of vplace: architecture, netlist, locations, placement, checkpoint"
    yield ".SH DESCRIPTION"
    for is_example, text in paragraphs(section(guide, "The files")):
        yield example(text) if is_example else f".PP\n{words(text)}"
    yield ".SH LIMITS"
    yield from (f".PP\n{words(text)}" for _, text in paragraphs(section(guide, "Limits")))
    yield ".SH SEE ALSO\n.BR vplace (1)"


def main():
    asked = sys.argv[1:]
    made = formats if asked[:1] == ["--formats"] else page
    if made == formats:
        asked = asked[1:]
    if len(asked) != 2:
        print("usage: packaging/manual.py [--formats] PROGRAM GUIDE", file=sys.stderr)
        return 2
    with open(asked[1], encoding="utf-8") as file:
        guide = file.read()
    print("\n".join(made(asked[0], guide)))
    return 0


sys.exit(main())
