"""What the words of a call ask for: which edits are looked at or tried, and in which order."""
import argparse
import datetime
import os
import subprocess
import sys
import time

from edits.looking import look, look_closely
from edits.reading import compile_edits
from edits.record import Record, lines_of_crates
from edits.texts import FOLDERS, FURTHER, ROOT, edits_of
from edits.trying import counts_of, try_edits


def all_edits():
    """Returns the edits of each crate, in the order of crates.txt."""
    return {crate: [it for folder in FOLDERS for it in edits_of(crate, folder)] for crate in lines_of_crates()}


def chosen(names):
    """Returns the edits of the named crates, and the named edits."""
    plan = all_edits()
    if not names:
        return plan
    found = {crate: [it for it in edits if crate in names or stem(it) in names] for crate, edits in plan.items()}
    known = set(plan) | {stem(it) for edits in plan.values() for it in edits}
    for name in names:
        if name not in known:
            raise SystemExit(f"there is no crate and no edit named {name}")
    return found


def stem(edit):
    return os.path.basename(edit)[: -len(".edit")]


def plan_of_changes(record):
    """Returns the further edits that are not known to be refused on the sources as they are, beginning at another one each day."""
    plan, day = {}, datetime.date.today().toordinal()
    for crate in lines_of_crates():
        rest = [it for it in edits_of(crate, FURTHER) if not record.is_refused(crate, it)]
        begin = day * 37 % len(rest) if rest else 0
        plan[crate] = rest[begin:] + rest[:begin]
    return plan


def jobs_of_machine():
    return int(subprocess.run(["sh", f"{ROOT}/tests/tools/lanes"], check=True, stdout=subprocess.PIPE).stdout)


def attempt(words):
    """Has the prover try edits."""
    parser = argparse.ArgumentParser(prog="tests/further_edits", add_help=False)
    parser.add_argument("--changed", action="store_true")
    parser.add_argument("--jobs", type=int)
    parser.add_argument("--minutes", type=float)
    parser.add_argument("names", nargs="*")
    wish = parser.parse_args(words)
    end = time.time() + 60 * wish.minutes if wish.minutes is not None else None
    record = Record()
    plan = plan_of_changes(record) if wish.changed else chosen(set(wish.names))
    wanted = sum(map(len, plan.values()))
    try:
        entries, kept = try_edits(record, plan, max(1, wish.jobs or jobs_of_machine()), end)
    finally:
        # A call that is ended early lands what it tried.
        if not wish.changed:
            record.land(all_edits())
    left = wanted - len(entries)
    print(counts_of(entries, kept, left))
    faults = ("stays",) if wish.changed else ("stays", "bad", "name", "type")
    failed = any(it["outcome"] in faults for it in entries)
    return failed or bool(left) and not wish.changed


def main(words):
    """Does what the words ask for."""
    way = {"--look": look, "--notes": look_closely, "--compile": compile_edits}.get(words[0] if words else "")
    if way is None:
        return attempt(words)
    crates = sorted(it for it, edits in all_edits().items() if edits)
    unknown = [it for it in words[1:] if it not in crates]
    if unknown:
        print(f"there are no edits of {unknown[0]}", file=sys.stderr)
        return 2
    return way(words[1:] or crates)
