"""The record of edits that were tried. A later call goes on where an earlier one ended, on another machine too.

tests/edits_record says by what each edit was refused, under a checksum; git keeps it. out/edits/record.jsonl says why, and is of this machine.
"""
import datetime
import hashlib
import json
import os
import re
import subprocess
import threading

from edits.texts import ROOT, read, without_layout

FILE = f"{ROOT}/out/edits/record.jsonl"
LANDED = f"{ROOT}/tests/edits_record"
HEAD = "# Edits that the prover refused: a checksum, by what, and the file. tests/further_edits writes this.\n"
# What says that an edit is refused. The others are to be mended, so they are tried again.
REFUSED = ("goal", "proof")


def lines_of_crates():
    """Returns the crates in the order of crates.txt, each with its line and those of its libraries that are crates here."""
    lines = {}
    for line in read(f"{ROOT}/crates.txt").splitlines():
        name, found, libraries = line.partition(":")
        if found and not line.startswith("#"):
            lines[name.split()[0]] = (line, libraries.split())
    return {name: (line, [it for it in libraries if it in lines]) for name, (line, libraries) in lines.items()}


def below(crate, lines):
    """Returns a crate with all crates below it."""
    found = {crate}
    for it in lines[crate][1]:
        found |= below(it, lines)
    return found


def sources_of(crate):
    """Returns the files that the proofs of a crate are made from. No function rests on a test."""
    for part in ("src", "specs", "proofs"):
        for folder, folders, files in os.walk(f"{ROOT}/crates/{crate}/{part}"):
            folders[:] = sorted(it for it in folders if not it.endswith("tests"))
            yield from (f"{folder}/{it}" for it in sorted(files) if re.search(r"(?<!tests)\.(rt|antt)$", it))


class Record:
    """What was tried, under a checksum of the edit, of the sources of its crate and of those below without comments and layout, and of the kit's line."""

    def __init__(self):
        self.lines = lines_of_crates()
        self.kit = subprocess.run(["rt", "version"], check=True, stdout=subprocess.PIPE).stdout.decode().strip()
        self.own_sums = {}
        self.sums = {}
        self.guard = threading.Lock()
        self.kept = {}
        if os.path.isfile(LANDED):
            for line in read(LANDED).splitlines():
                if not line.startswith("#"):
                    key, outcome, _ = line.split(" ", 2)
                    self.kept[key] = {"outcome": outcome, "why": "as tests/edits_record says", "seconds": 0}
        if os.path.isfile(FILE):
            for line in read(FILE).splitlines():
                try:
                    entry = json.loads(line)
                    self.kept[entry["key"]] = entry
                except (ValueError, KeyError, TypeError):
                    pass  # A line that was cut off.

    def own_sum(self, crate):
        if crate not in self.own_sums:
            sum_of = hashlib.sha256(self.lines[crate][0].encode())
            for path in sources_of(crate):
                sum_of.update(f"\0{os.path.relpath(path, ROOT)}\0{without_layout(path)}".encode())
            self.own_sums[crate] = sum_of.hexdigest()
        return self.own_sums[crate]

    def sum_of(self, crate):
        if crate not in self.sums:
            parts = [self.kit] + [self.own_sum(it) for it in sorted(below(crate, self.lines))]
            self.sums[crate] = hashlib.sha256("\0".join(parts).encode()).hexdigest()
        return self.sums[crate]

    def key_of(self, crate, edit):
        return hashlib.sha256(f"{self.sum_of(crate)}\0{crate}\0{read(edit)}".encode()).hexdigest()[:24]

    def find(self, crate, edit):
        """Returns the entry of an edit that was tried on these sources; None if there is none."""
        return self.kept.get(self.key_of(crate, edit))

    def is_refused(self, crate, edit):
        entry = self.find(crate, edit)
        return entry is not None and entry["outcome"] in REFUSED

    def keep(self, crate, edit, entry):
        entry = dict(entry, key=self.key_of(crate, edit), date=datetime.date.today().isoformat())
        with self.guard:
            os.makedirs(os.path.dirname(FILE), exist_ok=True)
            with open(FILE, "a", encoding="utf-8") as it:
                it.write(json.dumps(entry, ensure_ascii=False) + "\n")
            self.kept[entry["key"]] = entry

    def land(self, plan):
        """Writes for git which of these edits are refused, as far as they were tried on these sources."""
        lines = []
        for crate, edits in plan.items():
            for edit in edits:
                if self.is_refused(crate, edit):
                    outcome = self.find(crate, edit)["outcome"]
                    lines.append(f"{self.key_of(crate, edit)} {outcome} {os.path.relpath(edit, ROOT)}\n")
        with open(LANDED, "w", encoding="utf-8") as it:
            it.write(HEAD + "".join(lines))
