"""The help texts of vplace, taken apart. The manual page and the completions are made from them, so none says something else."""
import re
import subprocess
from dataclasses import dataclass, field

ROW = re.compile(r"  +(.+?)(?:  +(.*))?$")
OPTION = re.compile(r"(?:(-\w), )?(--[\w-]+)(?: <(\w+)>)?$")


@dataclass
class Option:
    short: str | None
    long: str
    value: str | None
    text: str

    @property
    def words(self):
        """The words that are offered as its value, beside a number."""
        return re.findall(r", or `(\w+)`", self.text) if self.value == "NUMBER" else []


@dataclass
class Help:
    """The help of vplace, or of a subcommand."""

    name: str
    about: str
    usage: str = ""
    commands: list = field(default_factory=list)
    options: list = field(default_factory=list)
    # Paragraphs of plain text.
    texts: list = field(default_factory=list)
    statuses: list = field(default_factory=list)
    examples: list = field(default_factory=list)


def option_of(flags, text):
    short, long, value = OPTION.match(flags).groups()
    return Option(short, long, value, text)


def help_of_text(name, text):
    """Each paragraph of a help text begins with its title, or is plain text. A paragraph of an unknown form ends the program."""
    about, *paragraphs = re.split(r"\n\n+", text.strip("\n"))
    found = Help(name, about)
    for paragraph in paragraphs:
        title, *lines = paragraph.split("\n")
        rows = [ROW.match(line).groups() if ROW.match(line) else (line, None) for line in lines]
        if title.startswith("Usage: "):
            found.usage = " ".join(paragraph.removeprefix("Usage: ").split())
        elif title == "Commands:":
            found.commands = rows
        elif title == "Options:":
            found.options = [option_of(*row) for row in rows]
        elif title == "Exit status:":
            found.statuses = rows
        elif title in ("Example:", "Examples:"):
            # A line that ends in a backslash goes on in the next one.
            found.examples = re.split(r"(?<!\\)\n", "\n".join(line.removeprefix("  ") for line in lines))
        elif re.match(r"[A-Z][a-z ]*:$", title):
            raise SystemExit(f"help_text.py: the help of {name} has a part that is not known here: {title}")
        else:
            found.texts.append(paragraph)
    return found


def printed(program, *words):
    return subprocess.run([program, *words], stdout=subprocess.PIPE, text=True, check=True).stdout


def version(program):
    """As `vplace 0.1.0`."""
    return printed(program, "--version").strip()


def helps(program):
    """The help of vplace, and those of its subcommands."""
    top = help_of_text("vplace", printed(program, "--help"))
    names = [name for name, _ in top.commands if name != "help"]
    return top, [help_of_text(name, printed(program, name, "--help")) for name in names]
