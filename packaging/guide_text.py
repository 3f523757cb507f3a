"""The user's guide, taken apart. The tables of faults and of formats in the manual pages are made from it, so none says something else."""
import re


def section(guide, title):
    """The text below a title of the guide."""
    found = re.search(rf"(?ms)^## {re.escape(title)}\n(.*?)(?=^## |\Z)", guide)
    if not found:
        raise SystemExit(f"guide_text.py: the guide has no chapter {title}")
    return found.group(1).strip("\n")


def faults(guide):
    """Each fault as its code and name, and its line."""
    found = re.findall(r"(?ms)^- ([A-Z]\d+ \w+): (.*?)(?=\n- |\n\n)", section(guide, "What goes wrong"))
    return [(head, " ".join(text.split())) for head, text in found]


def paragraphs(text):
    """The paragraphs of a text, each with whether it is an example, which is set off by four blanks."""
    for paragraph in re.split(r"\n\n+", text):
        lines = paragraph.split("\n")
        if all(it.startswith("    ") or not it for it in lines):
            yield True, "\n".join(it[4:] for it in lines)
        else:
            yield False, " ".join(lines)
