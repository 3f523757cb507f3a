"""Has the prover try edits: many in one check, in copies of the checkout side by side."""
import collections
import heapq
import itertools
import os
import signal
import subprocess
import sys
import tempfile
import threading
import time

from edits.outcomes import Outcome
from edits.places import Place, groups_of
from edits.record import REFUSED
from edits.texts import ROOT, Unfit, applied, copy_to, pairs_of, read, shown

# At most this many edits are in one check: a check that is cut off loses what it found.
MOST = 16


class Trial:
    """The work on a number of edits: crates to be looked at first, and groups of edits to be tried."""

    def __init__(self, record, plan, room, jobs, end):
        self.record = record
        self.plan = plan
        self.room = room
        self.jobs = jobs
        self.end = end
        self.unseen = [it for it in record.lines if plan.get(it)]
        self.groups = []
        self.numbers = itertools.count()
        self.looking = set()
        self.at_work = 0
        self.turn = threading.Condition()
        self.checks = {}
        self.stopped = False
        self.told = []

    def run(self):
        """Tries everything, or as much as there is time for. Returns the entries of the edits that were tried."""
        lanes = [threading.Thread(target=self.lane, args=(f"{self.room}/{it}",)) for it in range(self.jobs)]
        for it in lanes:
            it.start()
        try:
            for it in lanes:
                while it.is_alive():
                    it.join(1)
                    if self.end and time.time() > self.end:
                        self.stop()
        finally:
            self.stop()
            for it in lanes:
                it.join()
        return self.told

    def stop(self):
        """Ends the checks that run, and begins no other."""
        with self.turn:
            self.stopped = True
            for check in self.checks.values():
                if check.poll() is None:
                    os.killpg(check.pid, signal.SIGTERM)
            self.turn.notify_all()

    def lane(self, copy):
        copy_to(copy)
        while (task := self.take()) is not None:
            crate, group = task
            try:
                if group is None:
                    self.look_at(copy, crate)
                else:
                    self.try_group(copy, crate, group)
            except OSError as why:
                print(f"tests/further_edits: {crate}: {why}", file=sys.stderr)
            finally:
                with self.turn:
                    self.at_work -= 1
                    if group is None:
                        self.looking.discard(crate)
                    self.turn.notify_all()

    def take(self):
        """Returns the next group with its crate, or a crate to be looked at; None at the end."""
        with self.turn:
            while not self.stopped:
                # A crate is proved in one lane only, before those that stand on it: the others then begin with what that check kept.
                blocked = set(self.unseen) | self.looking
                free = [it for it in self.unseen if not blocked & set(self.record.lines[it][1])]
                if free and (not self.groups or 2 * len(self.looking) < self.jobs):
                    self.unseen.remove(free[0])
                    self.looking.add(free[0])
                    self.at_work += 1
                    return free[0], None
                if self.groups:
                    self.at_work += 1
                    return heapq.heappop(self.groups)[2:]
                if not self.at_work:
                    return None
                self.turn.wait()
        return None

    def add(self, crate, groups, turn):
        """Notes groups to be tried. The first ones of all crates come before the second ones, so that each crate gets its turn."""
        with self.turn:
            for place, group in enumerate(it for it in groups if it):
                heapq.heappush(self.groups, (turn + place, next(self.numbers), crate, group))

    def check(self, copy, crate, words):
        """Runs a check. Returns what it printed; None if it was ended."""
        with self.turn:
            if self.stopped:
                return None
            place = f"{copy}/crates/{crate}"
            # A group of its own, to be ended whole, but no session: Linux shares processors out by sessions, and `nice` counts only within one.
            run = subprocess.Popen(words, cwd=place, stdout=subprocess.PIPE, stderr=subprocess.STDOUT, process_group=0)
            self.checks[copy] = run
        lines = run.communicate()[0].decode("utf-8", "replace").splitlines()
        return None if self.stopped else Outcome(run.returncode, lines)

    def tell(self, crate, edit, kind, why, seconds):
        entry = {"edit": shown(edit), "outcome": kind, "why": why, "seconds": round(seconds, 1)}
        if kind in (*REFUSED, "stays"):
            self.record.keep(crate, edit, entry)
        with self.turn:
            self.told.append(entry)
            print(line_of(entry), flush=True)

    def look_at(self, copy, crate):
        """Proves a crate as it is, for the names of its functions, and groups its edits."""
        # The crates above wait for it, so it has all processors first.
        outcome = self.check(copy, crate, ["rt", "check", "--jobs", str(self.jobs)])
        if outcome is None:
            return
        places = []
        for edit in self.plan[crate]:
            try:
                if outcome.status:
                    raise Unfit(f"{crate} is not proved without it: {outcome.last}")
                places.append(Place(crate, edit, ROOT, outcome.named()))
            except (Unfit, OSError) as why:
                self.tell(crate, edit, "bad", str(why), 0)
        # Small enough that all lanes end together.
        size = max(2, min(MOST, -(-len(places) // self.jobs)))
        self.add(crate, groups_of(places, size), 0)

    def again(self, crate, *groups):
        self.add(crate, groups, -len(groups))

    def try_group(self, copy, crate, group):
        begun = time.time()
        texts, group = self.texts_with(crate, group)
        if not group:
            return
        for file, text in texts.items():
            write(f"{copy}/crates/{crate}/{file}", text)
        outcome = self.check(copy, crate, ["nice", "-n", "5", "rt", "check", "--jobs", "1"])
        for file in texts:
            write(f"{copy}/crates/{crate}/{file}", read(f"{ROOT}/crates/{crate}/{file}"))
        if outcome is not None:
            self.judge(crate, group, outcome, (time.time() - begun) / len(group))

    def texts_with(self, crate, group):
        """Returns the files with a group's edits, and the edits that could be applied together; the others are tried alone."""
        texts, fit = {}, []
        for place in group:
            try:
                text = texts.get(place.file) or read(f"{ROOT}/crates/{crate}/{place.file}")
                texts[place.file] = applied(text, pairs_of(place.edit)[1])[0]
                fit.append(place)
            except Unfit:
                self.again(crate, [place])
        return texts, fit

    def judge(self, crate, group, outcome, seconds):
        """Says of each edit of a group why it is refused. Those of which the check did not tell are tried again."""
        if outcome.types:
            self.judge_types(crate, group, outcome, seconds)
        elif len(group) == 1:
            self.judge_alone(crate, group[0], outcome, seconds)
        elif not outcome.named():
            # One of them stopped the check.
            half = len(group) // 2
            self.again(crate, group[:half], group[half:])
        else:
            for place in group:
                refusal = outcome.refusal_of(place.functions)
                if refusal:
                    self.tell(crate, place.edit, refusal.kind, refusal.why, seconds)
                else:
                    # Proved, or not judged: a caller may refuse it.
                    self.again(crate, [place])

    def judge_types(self, crate, group, outcome, seconds):
        """Says which edits do not compile, and tries the others again."""
        wrong = {}
        for file, line, text in outcome.types:
            for place in group:
                if len(group) == 1 or place.file == file and line in place.lines:
                    wrong.setdefault(place, text)
        for place, text in wrong.items():
            self.tell(crate, place.edit, "type", text, seconds)
        rest = [it for it in group if it not in wrong]
        if wrong:
            self.again(crate, rest)
        else:
            half = len(rest) // 2
            self.again(crate, rest[:half], rest[half:])

    def judge_alone(self, crate, place, outcome, seconds):
        refusal = outcome.refusal_of(place.functions) or outcome.refusal_of_all()
        if outcome.status == 0:
            self.tell(crate, place.edit, "stays", "everything is still proved", seconds)
        elif refusal:
            self.tell(crate, place.edit, refusal.kind, refusal.why, seconds)
        else:
            self.tell(crate, place.edit, "bad", f"its check ended with {outcome.status}: {outcome.last}", seconds)


def write(path, text):
    with open(path, "w", encoding="utf-8") as it:
        it.write(text)


def line_of(entry):
    """Returns the line that is printed for an edit."""
    ways = {"goal": "refused by the goal", "proof": "refused by the proof", "stays": "NOT REFUSED:", "bad": "BAD EDIT:"}
    ways.update(type="REFUSED BY A TYPE:", name="REFUSED FOR A NAME ALONE, in the proof")
    return f"{entry['edit']}: {ways[entry['outcome']]} {entry['why'][:240]}"


def counts_of(entries, kept, left):
    """Returns the last line."""
    count = collections.Counter(it["outcome"] for it in entries)
    refused = count["goal"] + count["proof"] + count["type"]
    parts = [f"{len(entries)} tried ({kept} from the record)"]
    parts.append(f"{refused} refused ({count['goal']} by a goal, {count['proof']} by a proof, {count['type']} by a type)")
    parts.append(f"{count['name']} refused for a name alone, {count['stays']} not refused, {count['bad']} bad")
    return "edits: " + ", ".join(parts) + (f", {left} not tried" if left else "")


def try_edits(record, plan, jobs, end=None):
    """Tries the edits of each crate. Returns the entries, and how many come from the record."""
    entries, rest = [], {}
    for crate, edits in plan.items():
        for edit in edits:
            entry = record.find(crate, edit)
            if entry:
                entry = dict(entry, edit=shown(edit))
                print(line_of(entry), flush=True)
                entries.append(entry)
            else:
                rest.setdefault(crate, []).append(edit)
    kept = len(entries)
    if rest:
        with tempfile.TemporaryDirectory(prefix="vplace-edits-", ignore_cleanup_errors=True) as room:
            entries += Trial(record, rest, room, jobs, end).run()
    return entries, kept
