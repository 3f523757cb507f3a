#!/usr/bin/env -S python3 -B
"""Prints the user's guide as it is installed: its commands are typed in its own folder, its links to examples/ lead to where the scripts lie
then, and those to pages that are not installed become their words.

    packaging/guide_page.py GUIDE > USER-GUIDE.md
"""
import re
import sys


def link(found):
    """A link as it is installed."""
    picture, label, target = found.groups()
    if picture or target.startswith(("#", "http")):
        return found[0]
    if target.startswith("../examples/"):
        return f"[{label}]({target.removeprefix('../examples/')})"
    return label


if len(sys.argv) != 2:
    sys.exit(__doc__)
with open(sys.argv[1], encoding="utf-8") as it:
    guide = it.read()
PLACE = "Type the commands in the folder `examples`, if the text names no other."
if PLACE not in guide:
    sys.exit("guide_page.py: the guide does not say where its commands are typed")
guide = guide.replace(PLACE, "Type the commands in a copy of this folder. The larger designs are not installed.")
print(re.sub(r"(!?)\[([^]]*)\]\(([^)\s]*)\)", link, guide), end="")
