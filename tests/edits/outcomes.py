"""Reads what a check printed: which functions it refused, and why."""
import re

from edits.places import belongs, segments

ERROR = re.compile(r"(?:\./)?((?:proofs|specs|src)/\S+?):(\d+):\d+: error(\[\S*\])?:? ?(.*)")
OPEN = re.compile(r"note: .*it is not proved that .*\(`([^`]+)`\)(.*)")
ITEM = re.compile(r"(fn|struct|enum|impl|trait|type|const|static) (\S+): (.*)")
# Errors that say no more than that a goal or a call which a proof file names is gone.
OF_NAMES = re.compile(r"can be named from here|is not in scope|unknown name|not found|has no `[^`]+`|no field")

OF_OTHERS = re.compile(r"(no proof: |not proved$)?(it (calls|waits) .*)?$")
GONE_GOAL = ".Goals` has no"


class Refusal:
    """Why a function is refused: `goal`, `proof` (what is written of its proof fails) or `name` (it names what is gone)."""

    RANK = {"goal": 0, "proof": 1, "name": 2}

    def __init__(self, kind, why):
        self.kind = kind
        self.why = why

    def rank(self):
        return self.RANK[self.kind]


class Outcome:
    """What a check printed."""

    def __init__(self, status, lines):
        self.status = status
        self.last = lines[-1] if lines else "it printed nothing"
        self.types = []
        self.errors = []
        self.states = {}
        self.goals = {}
        open_goals = []
        for line in lines:
            if line.startswith("so far: "):
                continue
            if error := ERROR.match(line):
                self.types.append((error[1], int(error[2]), line)) if error[3] else self.errors.append((error[1], error[4]))
            elif goal := OPEN.match(line):
                open_goals.append((goal[1], "at which this goal is false" in goal[2]))
            elif item := ITEM.match(line):
                self.states[item[1], item[2]] = item[3]
                if item[1] == "fn":
                    self.goals[item[2]], open_goals = open_goals, []

    def named(self):
        """Returns the functions that were judged."""
        return {name for kind, name in self.states if kind == "fn"}

    def errors_in(self, name):
        """Returns the errors in a function's proof files."""
        found = []
        for path, text in self.errors:
            parts = path.split("/")
            if parts[0] == "proofs" and belongs([name.split("::")[0]] + segments("::".join(parts[1:-1])), name):
                found.append(text)
        return found

    def refusal_of_item(self, kind, name):
        """Returns why an item is refused for what stands in itself; None if it is proved, or waits for others alone."""
        state = self.states[kind, name]
        if state.startswith("proved"):
            return None
        goals = self.goals.get(name, []) if kind == "fn" else []
        errors = self.errors_in(name) if kind == "fn" else []
        meant = [it for it in errors if not OF_NAMES.search(it)]
        false = [goal for goal, is_false in goals if is_false]
        # Where a proof file names a goal that is gone, another may be open only because the answer has the old name.
        if goals and (false or not any(GONE_GOAL in it for it in errors)):
            return Refusal("goal", f"`{(false or [goals[0][0]])[0]}` of {name}")
        if errors:
            return Refusal("proof" if meant else "name", f"of {name}: {(meant or errors)[0]}")
        rest = [it for it in re.split(r"; (?=it |`search`)", state) if not OF_OTHERS.match(it)]
        if not rest or kind != "fn" and "waits for" in state:
            return None
        goal = re.search(r"did not prove `([^`]+)`", state)
        return Refusal("goal", f"`{goal[1]}` of {name}") if goal else Refusal("proof", f"of {kind} {name}: {state}")

    def refusal_of(self, names):
        """Returns why one of these functions is refused; None if they are proved, or were not judged."""
        found = []
        for name in names:
            own = [it for it in self.named() if belongs(segments(it), name)]
            found += [self.refusal_of_item("fn", it) for it in own]
            if errors := not own and self.errors_in(name):
                meant = [it for it in errors if not OF_NAMES.search(it)]
                found.append(Refusal("proof" if meant else "name", f"of {name}: {(meant or errors)[0]}"))
        return min((it for it in found if it), key=Refusal.rank, default=None)

    def refusal_of_all(self):
        """Returns why anything is refused."""
        found = [self.refusal_of_item(*item) for item in self.states]
        found += [Refusal("name" if OF_NAMES.search(text) else "proof", f"in {path}: {text}") for path, text in self.errors]
        return min((it for it in found if it), key=Refusal.rank, default=None)
