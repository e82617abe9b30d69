#!/usr/bin/env python3
"""Lists where a public contract says that there is some device, disk, store or held value that the call doesn't hand out.

    witnesses.py [--check | --calls]

Such a value may be made up: a value of the logic is as good as one that the code had. So each has a wrong body that would pass
if a made-up one served, and that the prover refuses. The list is tests/wrong_bodies/witnesses.txt: a definition, the names of its values,
and the wrong body, as CRATE/NAME. A value is one that a clause or a definition binds by `(x : T) ×`, a field of a record that
is a statement, or one that a way to make a proof takes. With --check nothing is written: it says whether the list has just the
definitions on which a public contract rests, and each wrong body is there. With --calls each is shown with the clauses that
rest on it. Else the list is written, with `?` for a wrong body that it doesn't have. The last line is `N passed, M failed`.
"""
import argparse
import collections
import re
import sys

sys.dont_write_bytecode = True
from definitions import ROOT, files, head_of, imports_of, in_order, words_in
from inner_definitions import contracts_in, handed_out

LIST = ROOT / "tests" / "wrong_bodies" / "witnesses.txt"
HEAD = """# Where a public contract says that there is some device, disk, store or held value that the call doesn't hand out: the
# definition, the names of its values, and the wrong body that a made-up one doesn't help. Written by tools/witnesses.py.
"""

# A device or what stands on one; `D` is the device of a generic call.
KIND = r"(?:FileDevice|MemDisk|Fuse|FailOnce|Disk|History|Held|D|(?:Snapshot|StoreView|RecordedView|View|Store|Journal) [^()×→]+)"
NAMES = r"\(((?:[^\s():]+ )+): "
BOUND = re.compile(rf"{NAMES}{KIND}\) ×")
TAKEN = re.compile(rf"{NAMES}{KIND}\)")
FIELD = re.compile(rf"^  pub ((?:[^\s:]+ )+): {KIND}$")
STATEMENT = re.compile(r": Type 0( where)?$")
# Records that are no statements: a store, alone or with its history, a journal and a run of sectors as a clause sees them.
VALUES = {"JournalView", "Known", "Recorded", "RecordedView", "StoreView", "View"}
CLAUSE = re.compile(r"^ *ensures (\w+)? ?\{")


def names_in(pattern, text):
    return [name for names in pattern.findall(text) for name in names.split()]


def witnesses_of(block):
    """The names of the values in a definition that may be made up."""
    lines = [line for line in block if not line.startswith("--")]
    text, head = "\n".join(lines), lines[0].removeprefix("pub ")
    if head.startswith("data "):
        return names_in(TAKEN, "\n".join(lines[1:]))
    fields = [name for line in lines[1:] for name in names_in(FIELD, line)] if head.startswith("record ") else []
    return fields + names_in(BOUND, text)


def name_of(block):
    """The name that a definition gives."""
    words = [word for word in head_of(block).split() if word not in ("pub", "abbrev", "record", "data")]
    return words[0]


def clauses_in(contract):
    """The clauses of a contract, each with its name."""
    name, lines = "", []
    for line in contract.splitlines():
        begun = CLAUSE.match(line)
        if begun or re.match(r" *(requires|//|\{$)", line):
            if lines:
                yield name, "\n".join(lines)
            name, lines = (begun[1] or "", [line]) if begun else ("", [])
        elif lines:
            lines.append(line)
    if lines:
        yield name, "\n".join(lines)


def functions_in(contract):
    """The functions of a public text, each with what it ensures."""
    heads = [*re.finditer(r"^ *(?:pub )?fn (\w+)", contract, re.M)]
    ends = [head.start() for head in heads[1:]] + [len(contract)]
    return [(head[1], contract[head.start() : end]) for head, end in zip(heads, ends)]


def public_clauses():
    """Each public clause: its crate, its function, its name, its text, and what its file imports."""
    for folder in sorted((ROOT / "crates").iterdir()):
        src, out = folder / "src", handed_out(folder.name)
        for path in sorted(src.rglob("*.rt")):
            everywhere = imports_of(path.read_text(encoding="utf-8"))
            for contract in contracts_in(path, src, out):
                imports = {**everywhere, **imports_of(contract)}
                for function, text in functions_in(contract):
                    for clause, said in clauses_in(text):
                        yield folder.name, function, clause, said, imports


def found():
    """Each place with values that may be made up: the names of the values, and the clauses that rest on it."""
    everything, values, calls = files(), {}, collections.defaultdict(list)
    for crate, function, clause, said, imports in public_clauses():
        call = f"{crate}::{function} {clause}".strip()
        if names_in(BOUND, said):
            values[call] = names_in(BOUND, said)
            calls[call].append(call)
        names = [imports[word] for word in sorted(words_in(said)) if word in imports]
        for file, block in in_order(names, everything):
            if name_of(block) not in VALUES and witnesses_of(block):
                place = f"{file.crate} {name_of(block)}"
                values[place] = witnesses_of(block)
                calls[place].append(call)
    return {place: list(dict.fromkeys(names)) for place, names in values.items()}, calls


def listed():
    """The list, by place: the names of the values, and the wrong body."""
    rows = {}
    for line in LIST.read_text(encoding="utf-8").splitlines() if LIST.is_file() else ():
        if not line.startswith("#"):
            place, names, wrong = (part.strip() for part in line.split("|"))
            rows[place] = (names, wrong)
    return rows


def faults_of(values, rows):
    """What of the list is not so, by place."""
    faults = {}
    for place, names in values.items():
        if place not in rows or rows[place][0] != " ".join(names):
            faults[place] = f"{place}: {' '.join(names)} may be made up, and the list doesn't have it so"
        elif not (ROOT / "tests" / "wrong_bodies" / f"{rows[place][1]}.edit").is_file():
            faults[place] = f"{place}: there is no wrong body {rows[place][1]}"
    return {**faults, **{place: f"{place}: no public contract rests on it now" for place in rows if place not in values}}


def main():
    parser = argparse.ArgumentParser(description=__doc__, formatter_class=argparse.RawDescriptionHelpFormatter)
    parser.add_argument("--check", action="store_true")
    parser.add_argument("--calls", action="store_true")
    asked = parser.parse_args()
    sys.setrecursionlimit(10_000)
    values, calls = found()
    rows = listed()
    if asked.calls:
        for place in sorted(values):
            print(f"{place}: {' '.join(values[place])}\n" + "".join(f"    {call}\n" for call in dict.fromkeys(calls[place])), end="")
    elif not asked.check:
        lines = [f"{place} | {' '.join(values[place])} | {rows.get(place, ('', '?'))[1]}\n" for place in sorted(values)]
        LIST.write_text(HEAD + "".join(lines), encoding="utf-8")
        rows = listed()
    faults = faults_of(values, rows)
    print("".join(f"{fault}\n" for fault in faults.values()), end="")
    print(f"{len(values.keys() | rows.keys()) - len(faults)} passed, {len(faults)} failed")
    return 1 if faults else 0


if __name__ == "__main__":
    sys.exit(main())
