"""Which functions an edit changes, by the names that a check prints, and groups of edits that one check can try."""
import os
import re

from edits.texts import applied, around, closing, code_of, functions, pairs_of, read


def head_without_generics(head):
    """Returns what follows `impl`, without its type parameters."""
    head = head.strip()
    if not head.startswith("<"):
        return head
    depth = 0
    for place, sign in enumerate(head.replace("->", "  ")):
        depth += (sign == "<") - (sign == ">")
        if depth == 0:
            return head[place + 1 :].strip()
    return head


def last_word(path):
    """Returns the name that a path of a type or trait ends in: OutFile of fab_text::OutFile<'_, F>."""
    found = re.match(r"(?:&\s*(?:'\w+\s*)?(?:mut\s+)?)?(?:\w+\s*::\s*)*(\w+)", path.strip())
    return found[1] if found else ""


def owner_of(code, place):
    """Returns what the names of the functions around a place begin with: `Lines` in its impl, `CountedSink` in that of a trait."""
    for it in re.finditer(r"^(?:pub(?:\([^)]*\))?\s+)?(?:unsafe\s+)?(impl|trait)\b([^{;]*)\{", code, re.M):
        end = closing(code, it.end() - 1) or len(code)
        if it.start() <= place < end:
            head = it[2] if it[1] == "trait" else head_without_generics(it[2])
            head = re.split(r"\bwhere\b", head)[0]
            of_trait, found, of_type = head.partition(" for ")
            return last_word(of_type) + last_word(of_trait) if found else last_word(head)
    return ""


def segments(name):
    """Returns the parts of a function's full name; a closure's begin with those of its function."""
    return [it for it in name.split("+")[0].split("::") if it != "fn"]


def belongs(parts, function):
    """Whether the parts of a name are those of a function, or of a closure in it."""
    own = segments(function)
    return parts[: len(own)] == own


def full_names(crate, file, code, function, known):
    """Returns the names, of those that a check printed, which a function in a file can have."""
    name = re.match(r"fn (\w+)", code[function[0] :])[1]
    module = os.path.splitext(file)[0].split("/")[1:]
    module = [crate] + ([] if module in (["lib"], ["main"]) else module)
    owner = owner_of(code, function[0])
    exact = "::".join(module + [it for it in (owner, name) if it])
    if exact in known:
        return {exact}
    found = set()
    for it in known:
        parts = segments(it)
        if parts[: len(module)] == module and parts[-1] == name and (not owner or parts[-2].startswith(owner)):
            found.add("::".join(parts))
    return found


def narrowed(place, pair):
    """Returns the part of a new text's place that differs from the old text at its beginning and its end."""
    old, new = pair
    first = len(os.path.commonprefix([old, new]))
    last = len(os.path.commonprefix([old[first:][::-1], new[first:][::-1]]))
    return place[0] + first, max(place[0] + first, place[1] - last)


class Place:
    """What an edit changes: the names of its functions, or none where it changes anything but bodies of functions that a check names."""

    def __init__(self, crate, edit, root, known):
        self.edit = edit
        self.file, pairs = pairs_of(edit)
        text = read(f"{root}/crates/{crate}/{self.file}")
        new_text, places = applied(text, pairs)
        self.functions = set()
        self.lines = set()
        if not self.file.endswith(".rt"):
            return
        code, new_code = code_of(text), code_of(new_text)
        parts, new_parts = functions(code), functions(new_code)
        names, inside = set(), len(parts) == len(new_parts)
        for place in (narrowed(place, pair) for place, pair in zip(places, pairs)):
            function = around(new_parts, place) if inside else None
            if function is None or place[0] <= function[2]:
                return
            # A function within a function is named as a closure is: what holds both is the outermost.
            holding = [it for it in new_parts if it[0] <= place[0] and place[1] <= it[1]]
            function = min(holding)
            found = full_names(crate, self.file, new_code, function, known)
            if not found:
                return
            names |= found
            first, last = (new_text.count("\n", 0, at) + 1 for at in function[:2])
            self.lines |= set(range(first, last + 1))
        self.functions = names


def groups_of(places, size):
    """Returns groups of edits, in each of which no two change one function. Those that change anything else stand alone."""
    groups, alone = [], []
    for place in places:
        if not place.functions:
            alone.append([place])
            continue
        for names, group in groups:
            if len(group) < size and not names & place.functions:
                names |= place.functions
                group.append(place)
                break
        else:
            groups.append((set(place.functions), [place]))
    return [group for _, group in groups] + alone
