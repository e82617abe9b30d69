"""Which wrong bodies the prover refused, each by a checksum of all on which that rests.

The record is a file of the repository, which the gate believes: a wrong body whose checksum is there isn't tried again.
The checksum is of the edit; of the crate's code, definitions and proofs; of the crates below it all that is left without the bodies
and the proofs of their functions; of the lines of these crates in crates.txt; of the kit's version and logic, whatever the letter of its
edition; and of the scripts that try it.
Whatever of these changes, the checksum is another, and the wrong body is tried.

What a run of the gate saw refused is noted in a file of this clone, which is believed too; `--record` writes the record from both.
"""
import functools
import hashlib
import pathlib
import re
import shutil
import subprocess
import sys
import tempfile

sys.path.insert(0, str(pathlib.Path(__file__).resolve().parents[2] / "tools"))
from contracts_alone import leave_contracts
from crates import PARTS, ROOT, below, lines_of

RECORD = ROOT / "tests" / "wrong_bodies" / "refused.txt"
NOTED = ROOT / "out" / "refused.txt"
SCRIPTS = [pathlib.Path(__file__).parent / f"{name}.py" for name in ("contracts_alone", "refused", "try_wrong_bodies", "wrong_body")]
SCRIPTS.append(ROOT / "tools" / "crates.py")
HEAD = """# Wrong bodies that the prover refused: the checksum of all on which that rests, and the edit. Written by
# tests/gate/try_wrong_bodies.py --record, after a gate that tried them.
"""


def sum_of(*parts):
    """The checksum of texts and bytes, each apart from the next."""
    return hashlib.sha256(repr(parts).encode()).hexdigest()


def sum_of_folder(folder):
    """The checksum of what the check of a crate reads of its folder."""
    files = [file for part in PARTS for file in sorted((folder / part).rglob("*")) if file.is_file()]
    return sum_of([(str(file.relative_to(folder)), file.read_bytes()) for file in files])


@functools.lru_cache(maxsize=None)
def sum_of_crate(crate):
    """The checksum of a crate as it is."""
    return sum_of(lines_of()[crate], sum_of_folder(ROOT / "crates" / crate))


@functools.lru_cache(maxsize=None)
def sum_of_contracts(crate):
    """The checksum of what a crate gives to those above it: all but the bodies of its functions, and their proofs."""
    with tempfile.TemporaryDirectory(prefix="contracts-") as name:
        room = pathlib.Path(name)
        for part in PARTS:
            if (ROOT / "crates" / crate / part).is_dir():
                shutil.copytree(ROOT / "crates" / crate / part, room / part)
        leave_contracts(room, crate, set())
        return sum_of(lines_of()[crate], sum_of_folder(room))


@functools.lru_cache(maxsize=None)
def sum_of_tools():
    """The checksum of the kit's version and of the scripts that try wrong bodies."""
    said = subprocess.run(["rt", "version"], check=True, stdout=subprocess.PIPE, text=True).stdout
    kit = re.sub(r"(?<=-kit-)(\d+)[a-z]", r"\1", said)
    return sum_of(kit, [file.read_bytes() for file in SCRIPTS])


def checksum_of(wrong):
    """The checksum of all on which it rests whether a wrong body is refused."""
    contracts = [(name, sum_of_contracts(name)) for name in sorted(below([wrong.crate]))]
    return sum_of(sum_of_tools(), wrong.crate, wrong.file.name, wrong.file.read_bytes(), sum_of_crate(wrong.crate), contracts)


def forget():
    """Has the files read anew for the next checksum."""
    for each in (sum_of_crate, sum_of_contracts, sum_of_tools):
        each.cache_clear()


def known():
    """The checksums of what was refused."""
    lines = [line for file in (RECORD, NOTED) if file.is_file() for line in file.read_text(encoding="utf-8").splitlines()]
    return {line.split()[0] for line in lines if not line.startswith("#")}


def line_of(wrong):
    return f"{checksum_of(wrong)} {wrong.crate}/{wrong.file.stem}\n"


def note(wrongs):
    """Notes in this clone that these were refused."""
    NOTED.parent.mkdir(exist_ok=True)
    with open(NOTED, "a", encoding="utf-8") as noted:
        noted.writelines(line_of(wrong) for wrong in wrongs)


def write_record(wrongs):
    """Writes the record of those whose checksums are known, and answers them."""
    every = known()
    refused = [wrong for wrong in wrongs if checksum_of(wrong) in every]
    RECORD.write_text(HEAD + "".join(sorted(map(line_of, refused), key=lambda line: line.split()[1])), encoding="utf-8")
    return refused
