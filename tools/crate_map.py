#!/usr/bin/env python3
"""Draws the map of the crates from crates.txt: the picture docs/inside/crates.svg, and the floors in crates/README.md and in
crates.txt itself, which it puts in their order.

    crate_map.py [--check]

A crate's floor is one above the highest crate that it uses. graphviz (Debian's package of that name) draws the picture. With
--check nothing is written and graphviz isn't needed: it says whether the picture has the crates and links of crates.txt, the
page their floors and a row for each, and crates.txt their floors. Its last line is `N passed, M failed`.
"""
import functools
import pathlib
import re
import shutil
import subprocess
import sys

ROOT = pathlib.Path(__file__).resolve().parent.parent
LIST = ROOT / "crates.txt"
PICTURE = ROOT / "docs" / "inside" / "crates.svg"
PAGE = ROOT / "crates" / "README.md"
BLOCK = re.compile(r"(?<=<!-- floors: made by tools/crate_map.py -->\n```text\n).*?(?=```\n)", re.S)

LOOK = 'node [shape=box style="rounded,filled" fillcolor="#eef4fb" color="#334455" fontname="sans-serif" fontsize=12 height=0.3]\n'
LOOK += 'edge [color="#888888" arrowsize=0.6]\nranksep=0.35 nodesep=0.25'


class Crates:
    """The crates of crates.txt, each with those of this repository that it uses."""

    def __init__(self, text):
        lines = [line.split("#")[0].strip() for line in text.splitlines()]
        rows = dict(line.split(":", 1) for line in lines if line)
        self.uses = {name: [used for used in named.split() if used in rows] for name, named in rows.items()}

    @functools.lru_cache(None)
    def floor(self, name):
        return 1 + max(map(self.floor, self.uses[name]), default=0)

    @functools.lru_cache(None)
    def below(self, name):
        """All that a crate uses, itself or through others."""
        return frozenset(self.uses[name]).union(*map(self.below, self.uses[name]))

    def next_below(self, name):
        """What it uses, without what it reaches through another of them anyway."""
        used = self.uses[name]
        return [each for each in used if not any(each in self.below(other) for other in used)]

    def floors(self):
        """The names by floor, the highest floor first."""
        names = sorted(self.uses, key=lambda name: (-self.floor(name), name))
        highest = self.floor(names[0])
        return [(floor, [name for name in names if self.floor(name) == floor]) for floor in range(highest, 0, -1)]


def links(crates):
    return {(name, used) for name in crates.uses for used in crates.next_below(name)}


def graph(crates):
    """The crates for graphviz, each floor a row."""
    rows = "".join(f"{{ rank=same; {'; '.join(names)} }}\n" for _, names in crates.floors())
    arrows = "".join(f"{name} -> {used}\n" for name, used in sorted(links(crates)))
    return f"digraph crates {{\n{LOOK}\n{rows}{arrows}}}\n"


def drawn_links(picture):
    """The links that a picture made by graphviz has: it names each in a title."""
    titles = re.findall(r"<title>(\w+)&#45;&gt;(\w+)</title>", picture)
    return set(titles), set(re.findall(r"<title>(\w+)</title>", picture)) - {"crates"}


def ordered(crates, text):
    """The list with the crates of each floor together, the lowest floor first."""
    head = text[: text.index("\n") + 1]
    rows = {line.partition(":")[0]: line + "\n" for line in text.splitlines() if not line.startswith("#")}
    floors = [f"# floor {floor}\n" + "".join(rows[name] for name in names) for floor, names in reversed(crates.floors())]
    return head + "".join(floors)


def floor_lines(crates):
    return "".join(f"{floor:2}  {'  '.join(names)}\n" for floor, names in crates.floors())


def untold(crates, page):
    """The crates that have no row in the tables of the page."""
    rows = set(re.findall(r"`(\w+)`", "\n".join(re.findall(r"^\|([^|]*)\|", page, re.M))))
    return sorted(set(crates.uses) - rows)


def main():
    text = LIST.read_text(encoding="utf-8")
    crates = Crates(text)
    page = PAGE.read_text(encoding="utf-8")
    written = BLOCK.sub(floor_lines(crates), page)
    if "--check" not in sys.argv[1:]:
        if not shutil.which("dot"):
            print("dot is missing, which draws the picture: apt-get install graphviz", file=sys.stderr)
            return 1
        subprocess.run(["dot", "-Tsvg", "-o", PICTURE], input=graph(crates), text=True, check=True)
        PAGE.write_text(written, encoding="utf-8")
        LIST.write_text(ordered(crates, text), encoding="utf-8")
        return 0
    faults = []
    if drawn_links(PICTURE.read_text(encoding="utf-8")) != (links(crates), set(crates.uses)):
        faults.append("docs/inside/crates.svg isn't the picture of crates.txt: run tools/crate_map.py")
    if not BLOCK.search(page) or written != page:
        faults.append("crates/README.md hasn't the floors of crates.txt: run tools/crate_map.py")
    if untold(crates, page):
        faults.append("crates/README.md has no row for " + ", ".join(untold(crates, page)))
    if ordered(crates, text) != text:
        faults.append("crates.txt isn't in the order of its floors: run tools/crate_map.py")
    print("".join(fault + "\n" for fault in faults), end="")
    print(f"{4 - len(faults)} passed, {len(faults)} failed")
    return 1 if faults else 0


if __name__ == "__main__":
    sys.exit(main())
