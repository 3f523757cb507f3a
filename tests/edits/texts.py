"""The texts of edits: which there are, what they change, and how a file reads with them."""
import os
import re
import shutil

ROOT = os.path.dirname(os.path.dirname(os.path.dirname(os.path.realpath(__file__))))
MUST_FAIL = "must-fail"
FURTHER = "further-edits"
FOLDERS = (MUST_FAIL, FURTHER)


def read(path):
    with open(path, encoding="utf-8") as it:
        return it.read()


def without_comments(path):
    """Returns the text of a source without its comments and without the blanks at the ends of lines."""
    text = read(path)
    if path.endswith(".rt"):
        text = TOKEN.sub(lambda it: "" if it[0].startswith(("//", "/*")) else it[0], text)
    else:
        text = re.sub(r"(?m)^\s*--.*$", "", text)
    return "\n".join(it.rstrip() for it in text.splitlines() if it.strip())


def without_layout(path):
    """Returns the text of a source without its comments and without its layout: blanks, ends of lines, a proof's last semicolon."""
    text = without_comments(path)
    if path.endswith(".antt"):
        return " ".join(text.split()).replace("; }", " }")
    parts, at = [], 0
    for it in TOKEN.finditer(text):
        parts += [" ".join(text[at : it.start()].split()), it[0]]
        at = it.end()
    return "\0".join(parts + [" ".join(text[at:].split())])


def blank(it):
    """Returns spaces for what a pattern found."""
    return re.sub(r"[^\n]", " ", it[0])


COMMENT = r"//[^\n]*|/\*.*?\*/"
TOKEN = re.compile(COMMENT + r'|b?r(#*)".*?"\1|b?"(?:\\.|[^"\\])*"|b?\'(?:\\[^\']+|[^\'\\\n])\'', re.S)
CLAUSE = re.compile(r"\b(?:(?:requires|ensures)(?:\s+\w+)?|ghost[^;{]*)\s*(\{)")


def code_of(text):
    """Returns the text with comments, texts, characters, clauses and ghost items blanked, at its length."""
    text = re.sub(r"\bghost use\b[^;]*;", blank, TOKEN.sub(blank, text))
    parts, at = [], 0
    while it := CLAUSE.search(text, at):
        end = closing(text, it.start(1)) or len(text)
        parts += [text[at : it.start()], re.sub(r"[^\n]", " ", text[it.start() : end])]
        at = end
    return "".join(parts) + text[at:]


def closing(text, start):
    """Returns the place after the bracket that closes the one at `start`; None if there is none."""
    open_ones = []
    for it in re.compile(r"[][(){}]").finditer(text, start):
        if it[0] in "([{":
            open_ones.append(it[0])
        elif not open_ones or open_ones.pop() + it[0] not in ("()", "[]", "{}"):
            return None
        if not open_ones:
            return it.end()
    return None


def is_balanced(code):
    return closing(f"({code})", 0) == len(code) + 2


def functions(code):
    """Returns where each function begins and ends, and where its body begins."""
    found = []
    for it in re.finditer(r"\bfn \w+", code):
        at = it.end()
        while at is not None and (sign := re.compile(r"[(\[{;]").search(code, at)) and sign[0] in "([":
            at = closing(code, sign.start())
        if at is not None and sign and sign[0] == "{":
            found.append((it.start(), closing(code, sign.start()) or len(code), sign.start()))
    return found


def edits_of(crate, folder):
    path = f"{ROOT}/crates/{crate}/{folder}"
    return [f"{path}/{it}" for it in sorted(os.listdir(path)) if it.endswith(".edit")] if os.path.isdir(path) else []


class Unfit(Exception):
    """Why an edit cannot be applied."""


def pairs_of(edit):
    """Returns the file that an edit names, and the old texts with the new ones."""
    file, pairs, old = None, [], None
    for line in read(edit).splitlines():
        word, _, rest = line.partition(": ")
        if word == "file":
            file = rest.strip()
        elif word == "old":
            old = rest
        elif line.startswith("new:") and old is not None:
            pairs.append((old, rest))
            old = None
    if file is None or not pairs:
        raise Unfit("it names no file or no text")
    if old is not None:
        raise Unfit("its last old text has no new one")
    return file, pairs


def applied(text, pairs):
    """Returns the text with the new texts, and where these stand in it."""
    places = []
    for old, new in pairs:
        if text.count(old) != 1:
            raise Unfit(f"its old text is there {text.count(old)} times: {old.strip()}")
        at = text.index(old)
        more = len(new) - len(old)
        text = text[:at] + new + text[at + len(old) :]
        places = [(a + more, b + more) if a > at else (a, max(b, b + more) if b > at else b) for a, b in places]
        places.append((at, at + len(new)))
    return text, places


def around(parts, place):
    """Returns the innermost function around a place."""
    holding = [it for it in parts if it[0] <= place[0] and place[1] <= it[1]]
    return max(holding, default=None)


def shown(edit):
    """Returns the path of an edit below the top of the repository."""
    return os.path.relpath(edit, ROOT)


def copy_to(copy):
    """Copies the crates as they are, without their edits and their out/ folders, which take gigabytes."""
    shutil.copytree(f"{ROOT}/crates", f"{copy}/crates", symlinks=True, ignore=shutil.ignore_patterns("out", *FOLDERS))
    for name in ("crates.txt", "HANDLES"):
        shutil.copy2(f"{ROOT}/{name}", copy)
