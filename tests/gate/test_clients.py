#!/usr/bin/env python3
"""Runs the tests of the Python package and of the server over the built program by pytest, and judges the package by mypy and flake8.

    test_clients.py PROGRAM [OPTION..]

Further words are handed to pytest, such as `-k hub`. It uses an interpreter that has the tools: this one, or Debian's. If
tools are missing, it installs Debian's packages, or names them if this user may not do that. The last line is
`N passed, M failed`.
"""
import os
import re
import subprocess
import sys

sys.path.insert(0, os.path.join(os.path.dirname(os.path.abspath(__file__)), "..", "..", "tools"))
from debian_packages import install
from server import use_server

CLIENTS = os.path.normpath(os.path.join(os.path.dirname(os.path.abspath(__file__)), "..", "..", "clients", "python"))
# The modules that are needed, and the Debian packages that have them.
TOOLS = {
    "aiohttp": "python3-aiohttp", "argcomplete": "python3-argcomplete", "flake8": "flake8",
    "jsonpatch": "python3-jsonpatch", "jsonschema": "python3-jsonschema", "mypy": "mypy", "pip": "python3-pip",
    "pytest": "python3-pytest", "requests": "python3-requests", "setuptools": "python3-setuptools",
    "venv": "python3-venv", "wheel": "python3-wheel", "xdist": "python3-pytest-xdist",
}
DEBIAN_PYTHON = "/usr/bin/python3"
# The number of files of tests that run side by side: they mostly wait.
AT_ONCE = 2
# What `Schema.adapt` makes is judged by these tests too.
SUITE, SUITE_PACKAGE = "/usr/share/json-schema-test-suite", "json-schema-test-suite"


def has_tools(python):
    """Whether this interpreter has all tools."""
    probe = "import importlib.util, sys; sys.exit(any(importlib.util.find_spec(tool) is None for tool in sys.argv[1:]))"
    return os.path.exists(python) and subprocess.call([python, "-c", probe, *TOOLS]) == 0


def python_with_tools():
    """An interpreter that has the tools; None if they are missing and can't be installed."""
    for python in (sys.executable, DEBIAN_PYTHON):
        if has_tools(python):
            install([] if os.path.isdir(SUITE) else [SUITE_PACKAGE])
            return python
    install([*TOOLS.values(), SUITE_PACKAGE])
    return DEBIAN_PYTHON if has_tools(DEBIAN_PYTHON) else None


def judged(words):
    """Whether a judge of the code has nothing to say; what it says is shown."""
    print("$ " + " ".join(words[1:]), flush=True)
    return subprocess.call(words, cwd=CLIENTS) == 0


def tested(python, program, options):
    """Runs pytest, shows what it says, and returns how many tests passed and failed."""
    words = [python, "-m", "pytest", CLIENTS, "-q", "-rs", "-n", str(AT_ONCE), "--dist", "loadfile", "--program", program, *options]
    last = ""
    with subprocess.Popen(words, stdout=subprocess.PIPE, stderr=subprocess.STDOUT, text=True, errors="replace") as tests:
        for line in tests.stdout:
            print(line, end="", flush=True)
            last = line
    counts = {what: int(count) for count, what in re.findall(r"(\d+) (\w+)", last.partition(" in ")[0])}
    passed, failed = counts.pop("passed", 0), sum(counts.get(what, 0) for what in ("failed", "error", "errors"))
    return passed, failed or int(tests.returncode != 0)


def main():
    if len(sys.argv) < 2:
        print(__doc__, file=sys.stderr)
        return 2
    os.environ["PYTHONDONTWRITEBYTECODE"] = "1"
    python = python_with_tools()
    if python is None:
        print("these Debian packages are missing: " + " ".join(TOOLS.values()))
        print("0 passed, 1 failed")
        return 1
    use_server()
    judges = [[python, "-m", "mypy", "--cache-dir", os.devnull], [python, "-m", "flake8"]]
    verdicts = [judged(words) for words in judges]
    passed, failed = tested(python, os.path.abspath(sys.argv[1]), sys.argv[2:])
    passed, failed = passed + sum(verdicts), failed + verdicts.count(False)
    print(f"{passed} passed, {failed} failed")
    return 1 if failed else 0


if __name__ == "__main__":
    sys.exit(main())
