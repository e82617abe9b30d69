"""The crates of the repository, as crates.txt has them, and copies of some of them."""
import pathlib
import shutil

ROOT = pathlib.Path(__file__).resolve().parent.parent

# What the proof of a crate reads, and the files beside it that its program is run on.
PARTS = ("src", "specs", "proofs")


def lines_of():
    """The line of each crate in crates.txt."""
    lines = {}
    for line in (ROOT / "crates.txt").read_text(encoding="utf-8").splitlines():
        head, colon, _ = line.partition("#")[0].partition(":")
        if colon:
            lines[head.split()[0]] = line
    return lines


def libraries_of():
    """The libraries of each crate, of the repository and of the kit."""
    return {name: line.partition("#")[0].partition(":")[2].split() for name, line in lines_of().items()}


def below(names):
    """The crates of the repository that these use."""
    libraries, found, left = libraries_of(), set(), list(names)
    while left:
        for library in libraries[left.pop()]:
            if library in libraries and library not in found:
                found.add(library)
                left.append(library)
    return found


def copy_with_below(crate, folder):
    """Makes a repository of a crate and those that it uses, without what was built of them."""
    names = {crate} | below([crate])
    (folder / "crates.txt").write_text("".join(f"{line}\n" for name, line in lines_of().items() if name in names), encoding="utf-8")
    shutil.copy(ROOT / "HANDLES", folder)
    for name in sorted(names):
        shutil.copytree(ROOT / "crates" / name, folder / "crates" / name, ignore=shutil.ignore_patterns("out"))
