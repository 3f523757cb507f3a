"""Looks through the texts of edits for what shows that they cannot be applied or cannot compile."""
import os
import re

from edits.texts import COMMENT, FOLDERS, ROOT, Unfit, applied, around, code_of, edits_of, functions, is_balanced, pairs_of, read, shown

# Words of the language, and names that are in scope in each file.
WORDS = set(
    """as box break const continue crate dyn else enum extern false fn for ghost if impl in let loop match mod move mut pub ref return self
    static struct super trait true type unsafe use where while bool char f32 f64 i8 i16 i32 i64 i128 isize str u8 u16 u32 u64 u128 usize
    requires ensures std core _""".split()
)
EVERYWHERE = set("Box Clone Copy Default Drop Err From Into None Ok Option Result Self Send Some String Sync Vec".split())
# Methods and paths of std that edits alone use.
OF_STD = set("or reverse simd_le to_be_bytes unwrap wrapping_neg".split())


def arms(code):
    """Returns the patterns of matches, each with the lines that it takes."""
    for it in re.finditer("=>", code):
        start = code.rfind("\n", 0, it.start())
        while start > 0 and len(re.findall(r"[)}]", code[start : it.start()])) > len(re.findall(r"[({]", code[start : it.start()])):
            start = code.rfind("\n", 0, start)
        yield code[max(0, start) : it.start()]


def items_in(code):
    """Returns the functions of a file, and what it brings in."""
    brought = [name for it in re.findall(r"\buse\b([^;]*;)", code) for name in re.findall(r"(\w+)\s*[,;}]", it)]
    return set(brought + re.findall(r"\bfn (\w+)", code))


def bound_in(code, body):
    """Returns the names that a function binds: its parameters, and what its patterns name."""
    patterns = re.findall(r"(\w+)\s*:(?!:)", code[:body])
    patterns += re.findall(r"\blet\b([^=;]*)", code)
    patterns += re.findall(r"\bfor\b([^{;]*?)\bin\b", code)
    patterns += re.findall(r"\|([^|\n]*)\|", code)
    patterns += arms(code)
    return {name for pattern in patterns for name in re.findall(r"[a-z_]\w*", pattern)}


def free_names(code):
    """Returns the names that stand free in code, each with what is before it and behind it."""
    for it in re.finditer(r"(?<![\w'])[A-Za-z_]\w*", code):
        yield it[0], code[max(0, it.start() - 40) : it.start()].rstrip()[-2:], code[it.end() : it.end() + 40].lstrip()[:2]


def is_member(before):
    return before.endswith("::") or before.endswith(".") and before != ".."


def used_in(code):
    """Returns the variables that a function uses."""
    return {
        name
        for name, before, behind in free_names(code)
        if not is_member(before) and name not in WORDS and not name[0].isupper() and not behind.startswith(("(", "!", ":"))
    }


def names_of_sources():
    """Returns the names in all sources."""
    names = set(OF_STD)
    for folder, _, files in os.walk(f"{ROOT}/crates"):
        # What a build leaves in out/ has the sources of the libraries too.
        if "/src" in folder and "/out/" not in folder:
            for file in files:
                if file.endswith(".rt"):
                    names.update(re.findall(r"\w+", code_of(read(f"{folder}/{file}"))))
    return names


def faults_of(crate, edit, sources):
    """Returns what is wrong with the text of an edit."""
    try:
        file, pairs = pairs_of(edit)
        path = f"{ROOT}/crates/{crate}/{file}"
        if not os.path.isfile(path):
            raise Unfit(f"there is no file {file}")
        text = read(path)
        new_text, places = applied(text, pairs)
    except Unfit as why:
        return [str(why)]
    if re.sub(COMMENT, "", text).split() == re.sub(COMMENT, "", new_text).split():
        return ["it changes no code"]
    if not file.endswith(".rt"):
        return []
    code, new_code = code_of(text), code_of(new_text)
    if not is_balanced(new_code):
        return ["a bracket is left open, or is closed twice"]
    parts, new_parts = functions(code), functions(new_code)
    if len(parts) != len(new_parts):
        return []
    faults = set()
    in_file = set(re.findall(r"\w+", code)) | EVERYWHERE | WORDS
    for place in places:
        now = around(new_parts, place)
        now_code = new_code[now[0] : now[1]] if now else ""
        bound = bound_in(now_code, now[2] - now[0]) if now else set()
        for name, before, behind in free_names(new_code[place[0] : place[1]]):
            if is_member(before):
                if name not in sources | WORDS:
                    faults.add(f"no source has {name}")
            elif name not in in_file | bound and not behind.startswith(("!", ":")):
                faults.add(f"its file has no {name}")
        if now:
            was = parts[new_parts.index(now)]
            was_code = code[was[0] : was[1]]
            missing = used_in(now_code) - bound - (used_in(was_code) - bound_in(was_code, was[2] - was[0]))
            faults.update(f"its function does not bind {name}" for name in missing - items_in(code))
    return sorted(faults)


def uncited(crate, edit):
    """Returns the calls that an edit takes away, of those that a proof file of their function cites."""
    file, pairs = pairs_of(edit)
    text = read(f"{ROOT}/crates/{crate}/{file}")
    if not file.endswith(".rt"):
        return []
    new_text, places = applied(text, pairs)
    code, new_code = code_of(text), code_of(new_text)
    parts, new_parts = functions(code), functions(new_code)
    found = set()
    for now in {around(new_parts, place) for place in places} - {None}:
        was_code = code[slice(*parts[new_parts.index(now)][:2])] if len(parts) == len(new_parts) else ""
        gone = calls_in(was_code) - calls_in(new_code[now[0] : now[1]])
        found |= gone and gone & cited_calls(crate, file, re.match(r"fn (\w+)", was_code)[1])
    return sorted(found)


def calls_in(code):
    return set(re.findall(r"\b([a-z_]\w*)\s*(?:::<[^(]*>)?\(", code))


def cited_calls(crate, file, name):
    """Returns the calls of a function that its proof files name."""
    cited = set()
    for folder, _, files in os.walk(f"{ROOT}/crates/{crate}/proofs/{file[len('src/') : -len('.rt')]}"):
        if os.path.basename(folder) == name:
            for it in files:
                cited.update(re.findall(r"\bc\.([a-z_]\w*)", read(f"{folder}/{it}")))
    return cited


def look_closely(crates):
    return look(crates, notes=True)


def look(crates, notes=False):
    """Looks through the texts of the edits of both folders."""
    sources = names_of_sources()
    count = bad = 0
    for crate in crates:
        for folder in FOLDERS:
            for edit in edits_of(crate, folder):
                count += 1
                faults = faults_of(crate, edit, sources)
                bad += bool(faults)
                for fault in faults:
                    print(f"{shown(edit)}: {fault}")
                if notes and not faults and (gone := uncited(crate, edit)):
                    print(f"{shown(edit)}: a proof file cites what is gone: {', '.join(gone)}")
    print(f"edits: {count} looked through, {bad} bad")
    return bad != 0
