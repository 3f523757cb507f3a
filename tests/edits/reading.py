"""Has rt read the sources with edits in them, many at once: it proves nothing."""
import re
import shutil
import subprocess
import tempfile

from edits.texts import FOLDERS, ROOT, Unfit, applied, copy_to, edits_of, pairs_of, read, shown


def errors_of(copy, crate, edits):
    """Has rt read a crate's sources with these edits, and returns its errors; the sources are as they were afterwards."""
    texts = {}
    try:
        for edit in edits:
            file, pairs = pairs_of(edit)
            texts[file] = applied(texts.get(file) or read(f"{ROOT}/crates/{crate}/{file}"), pairs)[0]
    except Unfit as why:
        return [str(why)]
    for file, text in texts.items():
        with open(f"{copy}/crates/{crate}/{file}", "w", encoding="utf-8") as it:
            it.write(text)
    done = subprocess.run(["rt", "check", "--only", ""], cwd=f"{copy}/crates/{crate}", stdout=subprocess.PIPE, stderr=subprocess.STDOUT)
    for file in texts:
        shutil.copy2(f"{ROOT}/crates/{crate}/{file}", f"{copy}/crates/{crate}/{file}")
    lines = done.stdout.decode().splitlines()
    found = [it for it in lines if re.match(r"\S+:\d+:\d+: error\[", it)]
    return found or (lines[-1:] if done.returncode else [])


def unread(copy, crate, edits):
    """Returns the edits that rt cannot read, each with the first error."""
    errors = errors_of(copy, crate, edits)
    if not errors:
        return []
    if len(edits) == 1:
        return [(edits[0], errors[0])]
    half = len(edits) // 2
    return unread(copy, crate, edits[:half]) + unread(copy, crate, edits[half:])


def rounds_of(crate, edits):
    """Returns the edits in groups, in each of which no two change the same line."""
    rounds = []
    for edit in edits:
        file, pairs = pairs_of(edit)
        lines = read(f"{ROOT}/crates/{crate}/{file}").split("\n")
        own = {(file, number) for number, line in enumerate(lines) for old, _ in pairs if old in line}
        for taken, group in rounds:
            if not taken & own:
                taken |= own
                group.append(edit)
                break
        else:
            rounds.append((own, [edit]))
    return [group for _, group in rounds]


def compile_edits(crates):
    """Has rt read the sources with the edits of both folders, many at once."""
    count = bad = 0
    with tempfile.TemporaryDirectory() as room:
        copy_to(f"{room}/copy")
        for crate in crates:
            edits = [it for folder in FOLDERS for it in edits_of(crate, folder)]
            count += len(edits)
            for group in rounds_of(crate, edits):
                for edit, error in unread(f"{room}/copy", crate, group):
                    bad += 1
                    print(f"{shown(edit)}: {error}", flush=True)
    print(f"edits: {count} compiled, {bad} bad")
    return bad != 0
