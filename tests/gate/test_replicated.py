#!/usr/bin/env python3
"""Runs nodes of a replicated store over three members of etcd: single cases, a chaos of kills, and wrong nodes.

    test_replicated.py PROGRAM [--rounds N] [--seed S] [PART..]

The parts, all of them if none is named:

  cases   What one node does: faults, files, versions, room, weight, lost answers, an etcd without space or majority, TLS,
          and how it ends at SIGTERM, whatever etcd does.
  chaos   30 rounds, in each of which programs, nodes, members or machines are killed or stopped while six clients read and
          write. Then the log is played by one program alone. All nodes must have what it has, all replies must be its, and
          the whole store must be linearizable.
  wrong   Nodes with one fault each, which the cases or the chaos must find.

It needs Debian's etcd-server, pytest and openssl. As root it installs what is missing, else it names that. It makes its
stores in the folder that TMPDIR names. The last line is `N passed, M failed`.
"""
import argparse
import concurrent.futures
import os
import random
import shutil
import subprocess
import sys
import tempfile
import time
import traceback

TOP = os.path.join(os.path.dirname(os.path.abspath(__file__)), "..", "..")
TESTS = os.path.join(TOP, "clients", "python", "tests")
sys.path[:0] = [os.path.dirname(TESTS), TESTS, os.path.join(TESTS, "replica"), os.path.join(TOP, "tools")]
sys.dont_write_bytecode = True

from debian_packages import install  # noqa: E402
from server import use_server  # noqa: E402

DEBIAN_PYTHON = "/usr/bin/python3"
# What is needed, and the Debian packages that have it.
NEEDED = {"etcd": "etcd-server", "openssl": "openssl"}


def has_pytest(python):
    """Whether this interpreter has pytest, whose helpers are shared."""
    probe = "import importlib.util, sys; sys.exit(importlib.util.find_spec('pytest') is None)"
    return os.path.exists(python) and subprocess.call([python, "-c", probe]) == 0


def missing():
    """The Debian packages of what isn't there."""
    packages = [package for program, package in NEEDED.items() if shutil.which(program) is None]
    return packages + ([] if has_pytest(sys.executable) or has_pytest(DEBIAN_PYTHON) else ["python3-pytest"])


def prepare():
    """Installs what is missing, or names it; goes on with an interpreter that has pytest."""
    install(missing())
    if missing():
        print("these Debian packages are missing: " + " ".join(missing()))
        print("0 passed, 1 failed")
        sys.exit(1)
    if not has_pytest(sys.executable):
        os.execv(DEBIAN_PYTHON, [DEBIAN_PYTHON, *sys.argv])


def tests_of(parts, program, rounds, seed):
    """The tests of these parts: what each is called, and a function of a folder."""
    import replica_cases
    import replica_kept
    import replica_reach
    import replica_space
    import replica_stops
    import replica_wrong
    tests = []
    if "chaos" in parts:
        tests.append((f"chaos of {rounds} rounds", lambda folder: run_chaos(folder, program, rounds, seed)))
    if "cases" in parts:
        modules = [replica_cases, replica_kept, replica_reach, replica_space, replica_stops]
        cases = [case for module in modules for case in module.CASES]
        tests += [(what, lambda folder, case=case: case(folder, program)) for what, case in cases]
    if "wrong" in parts:
        tests += [(f"found: {wrong.what}", lambda folder, wrong=wrong: wrong.is_found(folder, program)) for wrong in replica_wrong.WRONG]
    return tests


def run_chaos(folder, program, rounds, seed):
    """So many rounds, of which nothing may be wrong."""
    from replica_chaos import Chaos
    problems, counts = Chaos(folder, program, rounds, seed).run()
    assert not problems, "\n".join(problems[:10])
    return str(counts)


def tried(what, test):
    """Runs a test in a folder of its own, says how it went, and returns whether it passed."""
    begin = time.monotonic()
    with tempfile.TemporaryDirectory(prefix="jpstore-") as folder:
        try:
            told = test(folder)
            passed = True
        except Exception:  # Whatever a test raises, it is shown.
            told, passed = "\n" + traceback.format_exc(), False
    print(f"{'passed' if passed else 'FAILED'}: {what} ({time.monotonic() - begin:.0f} s){': ' + told if told else ''}", flush=True)
    return passed


def in_a_process(words, number):
    """Runs a test in a process of its own, which ends with this one; says what it says, and returns whether it passed."""
    words = ["setpriv", "--pdeathsig", "KILL", *words, "--only", str(number)]
    done = subprocess.run(words, stdout=subprocess.PIPE, stderr=subprocess.STDOUT, text=True, check=False)
    print(done.stdout, end="", flush=True)
    return done.returncode == 0


def main():
    parser = argparse.ArgumentParser(description=__doc__, formatter_class=argparse.RawDescriptionHelpFormatter)
    parser.add_argument("program")
    parser.add_argument("parts", nargs="*", metavar="PART", help="cases, chaos, wrong")
    parser.add_argument("--rounds", type=int, default=30)
    parser.add_argument("--seed", type=int, default=random.randrange(1 << 32))
    parser.add_argument("--lanes", type=int, default=3, help="how many tests run side by side")
    parser.add_argument("--only", type=int, help="only the test of this number")
    words = parser.parse_args()
    prepare()
    use_server()
    parts = words.parts or ["cases", "chaos", "wrong"]
    tests = tests_of(parts, os.path.abspath(words.program), words.rounds, words.seed)
    if words.only is not None:
        return int(not tried(*tests[words.only]))
    print(f"seed {words.seed}", flush=True)
    again = [sys.executable, os.path.abspath(__file__), words.program, *parts, "--rounds", str(words.rounds), "--seed", str(words.seed)]
    with concurrent.futures.ThreadPoolExecutor(words.lanes) as lanes:
        passed = list(lanes.map(lambda number: in_a_process(again, number), range(len(tests))))
    print(f"{passed.count(True)} passed, {passed.count(False)} failed")
    return 1 if passed.count(False) else 0


if __name__ == "__main__":
    sys.exit(main())
