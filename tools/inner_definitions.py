#!/usr/bin/env python3
"""Looks whether each file of definitions that no contract of a public call rests on says so, and no other does.

    inner_definitions.py [--list]

Such a file is for the clauses within its crate: its first line begins with these words, and who calls the crate can leave it
shut. A public call is a function, a method or a trait that the crate hands out by its lib.rt; of a program each that is `pub`.
How a type is seen (its model's Value and view) counts as a contract, what always holds of it (the invariant) doesn't. With
--list the inner files are shown. The last line is `N passed, M failed`, a crate a test.
"""
import argparse
import collections
import re
import sys

sys.dont_write_bytecode = True
from definitions import ROOT, files, imports_of, in_order, words_in

SAYS_SO = "-- For the clauses within the crate"
# Says so no longer rightly: `find_for` is handed out. Its head is mended with the next change of its crate, as all crates above are then proved anew.
STALE = {"schema_levels/specs/EachInSet.antt"}
ITEM = re.compile(r"^(pub |pub\(crate\) )?(?:(impl|trait)\b.*?^\}|fn .*?(?:^\}|\{\}$))", re.M | re.S)
HEAD = re.compile(r"^(?:pub )?(?:impl|trait|fn)(?:<[^{]*?>)? (?:([\w:]+)(?:<.*?>)? for )?(\w+)", re.S)
METHOD = re.compile(r"^    (pub |pub\(crate\) )?fn ")
INVARIANT = re.compile(r"^    ghost (?:invariant|coherent) =.*$", re.M)
IMPORT = re.compile(r"^ *ghost use .*?;$", re.M | re.S)


def handed_out(crate):
    """The modules and the names that a crate hands out, or None of a program."""
    lib = ROOT / "crates" / crate / "src" / "lib.rt"
    if not lib.is_file():
        return None
    text = lib.read_text(encoding="utf-8")
    names = set()
    for used in re.findall(r"^pub use ([^;]*);", text, re.M):
        names |= set(re.findall(r"\w+", used.partition("{")[2] or used.rpartition("::")[2]))
    return set(re.findall(r"^pub mod (\w+);", text, re.M)), names


def parts_of(text):
    """What an impl block or a trait says of its type, and then each of its methods, with whether it is `pub`."""
    parts, shown, has_body = [[]], [True], True
    for line in text.splitlines():
        method = METHOD.match(line)
        if method:
            parts, shown, has_body = [*parts, []], [*shown, method[1] == "pub "], False
        parts[-1].append(line)
        has_body = has_body or line == "    {" or bool(method and line.endswith("{"))
        if len(parts) > 1 and (line == "    }" or line.endswith("{}") or not has_body and line.endswith(";")):
            parts, shown = [*parts, []], [*shown, True]
    return [("\n".join(part), is_shown) for part, is_shown in zip(parts, shown)]


def contracts_in(path, src, out):
    """The texts of the public contracts of a source file."""
    text = path.read_text(encoding="utf-8")
    module = path.relative_to(src).with_suffix("").parts[0]
    for item in ITEM.finditer(text):
        head = HEAD.match(item.group())
        if not head or not (out is None or module in out[0] or head[2] in out[1]):
            continue
        if item[2]:
            every = item[2] == "trait" or bool(head[1])
            yield INVARIANT.sub("", "\n".join(part for part, is_shown in parts_of(item.group()) if every or is_shown))
        elif item[1] == "pub ":
            yield item.group()


def reached(everything):
    """The files of definitions on which public contracts rest."""
    found = set()
    for crate in sorted({name for name, _ in everything}):
        src, out = ROOT / "crates" / crate / "src", handed_out(crate)
        for path in src.rglob("*.rt"):
            everywhere = imports_of(path.read_text(encoding="utf-8"))
            for contract in contracts_in(path, src, out):
                imports = {**everywhere, **imports_of(contract)}
                names = [imports[word] for word in sorted(words_in(IMPORT.sub("", contract))) if word in imports]
                found |= {file.path for file, _ in in_order(names, everything)}
    return found


def main():
    parser = argparse.ArgumentParser(description=__doc__, formatter_class=argparse.RawDescriptionHelpFormatter)
    parser.add_argument("--list", action="store_true", help="show the inner files")
    asked = parser.parse_args()
    sys.setrecursionlimit(10_000)
    everything, faults = files(), collections.defaultdict(list)
    shown = reached(everything)
    # A file without a definition hands on those of others.
    own = {file.path: crate for (crate, place), file in everything.items() if file.crate == crate and place != "Lib" and file.blocks}
    for path, crate in sorted(own.items()):
        says_so = path.read_text(encoding="utf-8").startswith(SAYS_SO) and not path.as_posix().endswith(tuple(STALE))
        if asked.list and path not in shown:
            print(f"{crate} {path.stem}")
        if says_so and path in shown:
            faults[crate].append(f"{crate} {path.stem} is not for the crate alone: a public contract rests on it")
        elif not says_so and path not in shown:
            faults[crate].append(f"{crate} {path.stem}: no public contract rests on it, so its first line begins with: {SAYS_SO}")
    print("".join(f"{fault}\n" for each in faults.values() for fault in each), end="")
    crates = set(own.values())
    print(f"{len(crates) - len(faults)} passed, {len(faults)} failed")
    return 1 if faults else 0


if __name__ == "__main__":
    sys.exit(main())
