"""The object of a proved program, which libjpstore is made of.

`rt ci` leaves it only if it proved the program in the same run: of one that an earlier run proved it has the linked program
alone. So the object is kept under the program's checksum; and one that no run kept is made again from the libraries that
`rt ci` gave: the program's crate alone is proved once more and compiled.
"""
import hashlib
import os
import pathlib
import shutil
import subprocess
import sys
import tempfile

from crates import ROOT
from unproved import Failed, link

sys.path.insert(0, str(ROOT / "tests" / "gate"))
from try_wrong_bodies import words_of

KEPT = ROOT / "out" / "objects"


def place_of(program):
    """Where the object of this program is kept."""
    return KEPT / f"{hashlib.sha256(program.read_bytes()).hexdigest()}.o"


def keep_or_give(program, made):
    """Keeps the object of a program just proved, or, if it isn't there, puts the kept one in its place. Whether it is there then."""
    kept = place_of(program)
    if made.is_file():
        shutil.rmtree(KEPT, ignore_errors=True)
        KEPT.mkdir(parents=True)
        shutil.copy(made, kept)
    elif kept.is_file():
        shutil.copy(kept, made)
    return made.is_file()


def _run(words, crate):
    """Runs a command of the kit in the folder of a crate."""
    done = subprocess.run(words, cwd=ROOT / "crates" / crate, stdin=subprocess.DEVNULL, stdout=subprocess.PIPE, stderr=subprocess.STDOUT, text=True, errors="replace", check=False)
    if done.returncode:
        raise Failed(f"the object of {crate} isn't made:\n{done.stdout[-2000:]}")


def make(crate, program, made):
    """Makes the object `made` of a program of this crate that an earlier run proved: it is there only if the program that is
    linked of it is the same, byte for byte. Failed if the crate isn't proved over the libraries in the folders out/, or if it is another."""
    kit = pathlib.Path(subprocess.run(["rt", "doc"], check=True, stdout=subprocess.PIPE, text=True).stdout.strip()).parent
    common, jobs = words_of(crate, kit)[2:-4], str(len(os.sched_getaffinity(0)))
    with tempfile.TemporaryDirectory(prefix="jpstore-object-") as name:
        room = pathlib.Path(name)
        _run([kit / "bin" / "rattle", "check", *common, "--logic-built", kit / "logic_built", "--links", f"{crate}=", "--jobs", jobs, "-o", room / "checked"], crate)
        _run([kit / "bin" / "rattle", "build", *common, "--links", f"{crate}=", "--crate-checked", room / "checked",
              "--toolchain", kit / "toolchain", "--backend", "llvm", "-o", room / "made.o"], crate)
        link(kit, room / "made.o", room / "program")
        if (room / "program").read_bytes() != program.read_bytes():
            raise Failed(f"{program} isn't the program of the object that was made")
        shutil.copy(room / "made.o", made)
