#!/usr/bin/env python3
"""Shows the contract of a public call, and the definitions on which it rests in an order in which they can be read.

    definitions.py CRATE::FUNCTION [--clause NAME] [--own] [--count]
    definitions.py --index | --check

A definition comes after those that it cites. They are taken from the folders specs/ of the crates: what the kit defines is
left out, and of the code the constants and fields come last. With --clause only what that clause of the contract rests on is shown. With --own what
the file serve_lines `Apart` names is left out: the public standards, with all on which they rest, and which image holds which
state. With --count only the number of lines of each file is shown, blank lines apart; the last line has the sum. FUNCTION is a
function or a method, such as serve_lines::serve or doc_store::lives. With --index each file is shown with the line that it
begins with, which says what it has. With --check nothing is shown but whether each name in `Apart` is a definition on which a
promise rests (of serve, of lives, of serve_file), whether no crate has definitions of both sorts for these, and whether the
counts that docs/inside/DEFINITIONS.md gives are true; the last line is `N passed, M failed`.
"""
import argparse
import collections
import pathlib
import re
import signal
import sys

ROOT = pathlib.Path(__file__).resolve().parent.parent
NAME = r"[^\s(){}\[\],.;λ→×≡]+"
USE = re.compile(r"^ *(?:pub )?(?:ghost )?(?:pub )?use Rattle\.(\w+)\.specs\.([\w.]+?)\.\{([^}]*)\}", re.M)
USE_AS = re.compile(r"^ *(?:ghost )?use Rattle\.(\w+)\.specs\.([\w.]+) as (\w+)", re.M)
HANDED_ON = re.compile(r"^pub use Rattle\.(\w+)\.specs\.([\w.]+)$", re.M)

MUTUAL = re.compile(r"(?:[a-z]+ )?mutual$")
DECLARED = re.compile(rf"^  (?:pub )?(?:data |record )?({NAME})(?: [({{].*)? :")

# The file that says what is apart, and of it what is no standard: the names alone are left out there, and not all on which they rest.
APART = ("serve_lines", "Apart")
IMAGES = ("store_commits", "Images")
# The calls that promise something.
CALLS = ("serve_lines::serve", "doc_store::lives", "jpstore::serve_file")
# What the page says that a call prints.
PRINTS = re.compile(r"`tools/definitions\.py ([\w:]+) --clause (\w+) --own` prints ([\d,]+) lines")


class File:
    """A file of definitions: the block of each name, and where the names come from that it uses."""

    def __init__(self, crate, place, path):
        self.crate, self.place, self.path = crate, place, path
        text = path.read_text(encoding="utf-8")
        self.blocks, self.owner = [], {}
        self.imports = imports_of(text)
        self.modules = {name: (crate, place) for crate, place, name in USE_AS.findall(text)}
        comment, block = [], None
        for line in text.splitlines():
            if line.startswith("--"):
                comment, block = comment + [line], None
            elif not line.strip():
                # Definitions that cite one another are one block, whatever lines are between them.
                comment, block = [], block if block and MUTUAL.match(head_of(block)) else None
            elif line.startswith(" ") and block is not None:
                block.append(line)
                for name in set(DECLARED.findall(line)) if MUTUAL.match(head_of(block)) else ():
                    self.owner.setdefault(name, block)
            elif not line.startswith(("use ", "pub use ", "module ")):
                names = names_begun(line)
                if block is None or not names & {name for name, owner in self.owner.items() if owner is block}:
                    block = comment + [line]
                    self.blocks.append(block)
                else:
                    block.append(line)
                comment = []
                for name in names:
                    self.owner.setdefault(name, block)
        # A way to make a value is cited by its own name, a field only with a value of the record, whose type is cited beside it.
        for block in self.blocks:
            if any(re.match(r"(pub )?data ", line) for line in block):
                for name in parts_of(block):
                    self.owner.setdefault(name, block)


def head_of(block):
    """The first line of a block that is no comment."""
    return next(line for line in block if not line.startswith("--"))


def parts_of(block):
    """The names of the fields of a record, or of the ways to make a value."""
    return {name for line in block for name in re.findall(rf"^ +(?:pub )?({NAME}) :", line)}


def names_begun(line):
    """The name that a top-level line defines or goes on defining."""
    words = [word for word in line.split() if word not in ("pub", "abbrev", "unfoldable", "record", "data", "mutual", "rec")]
    return {words[0].strip("(")} if words else set()


def imports_of(text):
    found = {}
    for crate, place, names in USE.findall(text):
        for name in names.split(","):
            _, _, alias = name.strip().partition(" as ")
            found[alias or name.strip()] = (crate, place, name.strip().split(" as ")[0])
    return found


def files():
    found = {}
    for folder in (ROOT / "crates").iterdir():
        for path in (folder / "specs").rglob("*.antt"):
            place = ".".join(path.relative_to(folder / "specs").with_suffix("").parts)
            found[folder.name, place] = File(folder.name, place, path)
    # A crate hands on whole files of the crates below it; these are in the file Lib.
    handed = {(crate, place): HANDED_ON.findall(file.path.read_text()) for (crate, place), file in found.items() if place == "Lib"}
    for _ in handed:
        for (crate, _), others in handed.items():
            for other, place in others:
                if (other, place) in found:
                    found.setdefault((crate, place), found[other, place])
    return found


def contract_of(crate, function):
    """The text of a function's contract, with what its file imports."""
    for path in sorted((ROOT / "crates" / crate / "src").rglob("*.rt")):
        text = path.read_text(encoding="utf-8")
        found = re.search(rf"^ *pub fn {re.escape(function)}\b.*?^ *\{{$", text, re.M | re.S)
        if found:
            return found.group(), imports_of(text)
    return None


def clauses_of(contract, name):
    """The text of the clauses of that name, with the comment before each."""
    clause = rf"(?:^ *// .*\n)*^ *ensures {re.escape(name)} \{{.*?(?=^ *(?:requires|ensures|//|\{{)|\Z)"
    return "\n".join(re.findall(clause, contract, re.M | re.S))


def from_code(order):
    """The constants and the fields in the code that definitions name."""
    found = {}
    for file, block in order:
        for word in words_in("\n".join(block)) & file.imports.keys():
            crate, place, name = file.imports[word]
            if place.startswith("declared."):
                found[crate, name] = shown_in_code(crate, name)
    return [f"{crate}: {said}" for (crate, _), said in sorted(found.items()) if said]


def shown_in_code(crate, name):
    """A constant with its value, or a struct with its fields; nothing of anything else."""
    for path in sorted((ROOT / "crates" / crate / "src").rglob("*.rt")):
        text = path.read_text(encoding="utf-8")
        constant = re.search(rf"^pub const {name}: \w+ = (.*);$", text, re.M)
        if constant:
            return f"{name} is {constant[1]}"
        struct = re.search(rf"^pub struct {name}(?:<[^{{]*>)? \{{\n(.*?)^\}}", text, re.M | re.S)
        if struct:
            fields = re.findall(r"^    (?:pub )?(\w+: .*),$", struct[1], re.M)
            return f"{name} has {', '.join(fields)}"
    return None


def words_in(text):
    text = re.sub(r"--.*", "", text)
    return set(re.findall(NAME, text)) | {word.strip("◌") for word in re.findall(NAME, text)}


def found_at(crate, place, name, everything):
    """The file that has a definition, which others may hand on, and its block."""
    file = everything.get((crate, place))
    block = file and file.owner.get(name)
    if file and block is None and name in file.imports:
        return found_at(*file.imports[name], everything)
    return file, block


def in_order(wanted, everything, shut=frozenset()):
    """The blocks that are reached from these names, each after those that it cites, and not by way of those that are shut."""
    order, seen = [], set(shut)

    def visit(crate, place, name):
        file, block = found_at(crate, place, name, everything)
        if block is None or id(block) in seen:
            return
        seen.add(id(block))
        text = "\n".join(block)
        for word in sorted(words_in(text) - parts_of(block)):
            if word in file.owner:
                visit(file.crate, file.place, word)
            elif word in file.imports:
                visit(*file.imports[word])
        for module, word in sorted(set(re.findall(rf"\b(\w+)\.({NAME})", re.sub(r"--.*", "", text)))):
            if module in file.modules:
                visit(*file.modules[module], word)
        order.append((file, block))

    for crate, place, name in wanted:
        visit(crate, place, name)
    return order


def apart(everything):
    """The blocks that are apart: of standards, with all on which they rest, and of images."""
    names = sorted(everything[APART].imports.values())
    standards = in_order([name for name in names if name[:2] != IMAGES], everything)
    images = [found_at(*name, everything) for name in names if name[:2] == IMAGES]
    return standards, images


def shut_by(everything):
    """What a reader of the store's own definitions leaves shut."""
    return {id(block) for blocks in apart(everything) for _, block in blocks}


def contract_names(call, clause):
    """The contract of a public call, or its clauses of that name, with the definitions that it cites itself."""
    crate, _, function = call.partition("::")
    found = contract_of(crate, function.rpartition("::")[2])
    if not found:
        return None, []
    contract, imports = found
    contract = clauses_of(contract, clause) if clause else contract
    return contract, [imports[word] for word in sorted(words_in(re.sub("//.*", "", contract))) if word in imports]


def faults_of_apart(everything):
    """What is wrong with the file Apart."""
    named = {name: found_at(*name, everything)[1] for name in everything[APART].imports.values()}
    names = [name for call in CALLS for name in contract_names(call, None)[1]]
    reached = {id(block) for _, block in in_order(names, everything)}
    for name, block in named.items():
        if block is None or id(block) not in reached:
            yield f"Apart names {name[2]}, on which no promise rests"
    standards, _ = apart(everything)
    own = {file.crate for file, _ in in_order(names, everything, shut_by(everything))}
    for crate in sorted({file.crate for file, _ in standards} & own):
        yield f"{crate} has definitions of a standard and of the store's own"


def faults_of_page(everything):
    """Which counts of the page are not true."""
    page = (ROOT / "docs/inside/DEFINITIONS.md").read_text(encoding="utf-8")
    for call, clause, told in PRINTS.findall(page):
        _, names = contract_names(call, clause)
        lines = sum(len(block) for _, block in in_order(names, everything, shut_by(everything)))
        if lines != int(told.replace(",", "")):
            yield f"{call} --clause {clause} --own prints {lines} lines, and the page says {told}"


def check(everything):
    """Says whether all is well with the file Apart, and with the counts of the page."""
    looks = [list(faults_of_apart(everything)), list(faults_of_page(everything))]
    failed = sum(map(bool, looks))
    print("".join(f"{fault}\n" for faults in looks for fault in faults) + f"{len(looks) - failed} passed, {failed} failed")
    return 1 if failed else 0


def index():
    """Each file of definitions with what its first comment says."""
    for path in sorted((ROOT / "crates").glob("*/specs/**/*.antt")):
        said = []
        for line in path.read_text(encoding="utf-8").splitlines():
            if not line.startswith("--"):
                break
            said.append(line.strip("- "))
        if said:
            print(f"{path.parent.parent.name} {path.stem}: {' '.join(said)}")


def main():
    # What is shown may go to `head`.
    signal.signal(signal.SIGPIPE, signal.SIG_DFL)
    parser = argparse.ArgumentParser(description=__doc__, formatter_class=argparse.RawDescriptionHelpFormatter)
    parser.add_argument("call", metavar="CRATE::FUNCTION", nargs="?")
    parser.add_argument("--clause", metavar="NAME")
    parser.add_argument("--own", action="store_true")
    parser.add_argument("--count", action="store_true")
    parser.add_argument("--index", action="store_true")
    parser.add_argument("--check", action="store_true")
    given = parser.parse_args()
    sys.setrecursionlimit(10_000)
    if given.index:
        index()
        return 0
    everything = files()
    if given.check:
        return check(everything)
    if not given.call:
        parser.error("name a call, or say --index or --check")
    contract, names = contract_names(given.call, given.clause)
    if not contract:
        parser.error(f"no public function {given.call}" if contract is None else f"{given.call} has no clause {given.clause}")
    order = in_order(names, everything, shut_by(everything) if given.own else frozenset())
    if not given.count:
        print(f"{given.call}\n{contract.strip()}\n")
    lines = collections.Counter()
    for file, block in order:
        lines[file.crate, file.path.stem] += len(block)
        if not given.count:
            print(f"{file.crate} {file.path.stem}\n" + "\n".join(block) + "\n")
    if not given.count:
        print("In the code:\n" + "".join(f"{said}\n" for said in from_code(order)))
    for (name, stem), number in sorted(lines.items()):
        print(f"{name} {stem}: {number} lines")
    print(f"{sum(lines.values())} lines of {len(order)} definitions in {len(lines)} files")
    return 0


if __name__ == "__main__":
    sys.exit(main())
