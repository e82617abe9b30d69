#!/usr/bin/env python3
"""Looks whether the pages name only what exists: files of the repository, files of definitions, and functions.

    page_references.py

What is looked at: paths in code on every page, the files of definitions that docs/inside/DEFINITIONS.md lists, how many lines it says that
tools/definitions.py prints, and the functions of the table of docs/inside/PROOFS.md. The last line is `N passed, M failed`, a page
a test.
"""
import re
import subprocess
import sys

from count_words import ROOT, pages

FOLDERS = "docs|tests|tools|crates|clients|packaging"
PATH = re.compile(rf"`((?:{FOLDERS})/[\w./@-]*)")
# What only a build makes, and what a reader fills in.
MADE = re.compile(r"/out(/|$)|CRATE|NAME|what_is_wrong")


def crates():
    return {path.name for path in (ROOT / "crates").iterdir()}


def rows_of(text):
    """The rows of the tables, each a list of cells, with the heading above it."""
    heading = ""
    for line in text.splitlines():
        if line.startswith("## "):
            heading = line[3:]
        elif line.startswith("|") and not re.match(r"\|[-|]+$", line):
            yield heading, [cell.strip() for cell in line.strip("|").split("|")]


def paths(text):
    for named in sorted(set(PATH.findall(text))):
        if not MADE.search(named) and not (ROOT / named).exists():
            yield f"there is no {named}"


def definition(crate, file):
    return (ROOT / "crates" / crate / "specs" / f"{file}.antt").exists()


def definitions(text):
    """The files of definitions that a list item or a row names, of the crate before them; names in parentheses are definitions."""
    for line in text.splitlines():
        known = None
        for file, word in re.findall(r"`([A-Z]\w*)`|\b(\w+)\b", re.sub(r"\([^)]*\)", "", line)):
            known = word if word in crates() else known
            if file and line.startswith(("- ", "|")) and not definition(known, file):
                yield f"there is no file of definitions {file} of {known}"


def counted(text):
    """The sentences that say how many lines of definitions a contract rests on, if they are others."""
    for words, said in re.findall(r"`tools/definitions\.py ([\w:]+[^`]*)` prints ([\d,]+) lines", text):
        script = [sys.executable, ROOT / "tools" / "definitions.py", *words.split(), "--count"]
        lines = subprocess.run(script, stdout=subprocess.PIPE, text=True, check=True).stdout.split("\n")[-2]
        if lines.split()[0] != said.replace(",", ""):
            yield f"definitions.py {words}: {lines}"


def declared():
    """The names of functions, types and modules in the code."""
    sources = "\n".join(path.read_text(encoding="utf-8") for path in (ROOT / "crates").glob("*/src/**/*.rt"))
    return set(re.findall(r"\b(?:fn|struct|enum|trait|mod) (\w+)", sources)) | crates()


def proofs(text):
    names, rows = declared(), 0
    for heading, cells in rows_of(text):
        if heading != "The rows" or len(cells) != 3 or cells[0] == "Family":
            continue
        rows += 1
        for call in re.findall(r"`([\w:]+)`", cells[2]):
            for name in call.split("::"):
                if name not in names:
                    yield f"{call}: there is no {name} in the code"
    if not rows:
        yield "there is no table of claims"


def main():
    special, failed = {"DEFINITIONS.md": definitions, "PROOFS.md": proofs}, 0
    looked_at = pages()
    for page in looked_at:
        text = page.read_text(encoding="utf-8")
        faults = [*paths(text), *counted(text), *special.get(page.name, lambda _: [])(text)]
        print("".join(f"{page.name}: {fault}\n" for fault in faults), end="")
        failed += bool(faults)
    print(f"{len(looked_at) - failed} passed, {failed} failed")
    return 1 if failed else 0


if __name__ == "__main__":
    sys.exit(main())
