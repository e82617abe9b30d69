#!/usr/bin/env python3
"""Builds the server by Debian's cargo and rustc, the oldest that it is for, and runs its own tests and clippy.

    test_server.py

Its crates are Debian's packages, taken by its lock file without a network. What it does for clients is tried by test_clients.py,
fuzz_http.py, load_http.py and test_browser.py. As root it installs the packages that are missing. The last line is `N passed, M failed`.
"""
import glob
import os
import sys
import tempfile

sys.path.insert(0, os.path.join(os.path.dirname(os.path.abspath(__file__)), "..", "..", "tools"))
import server

# Debian's rustc, whatever comes before it on PATH.
RUST = {"RUSTC": "/usr/bin/rustc", "RUSTDOC": "/usr/bin/rustdoc", "PATH": "/usr/bin:/bin"}
WANTED = {"/usr/bin/cargo": "cargo", "/usr/bin/rustc": "rustc", "/usr/bin/cargo-clippy": "rust-clippy"}
COMMANDS = [["build"], ["test"], ["clippy", "--all-targets", "--", "-D", "warnings"]]


def missing():
    return server.missing() + [package for path, package in WANTED.items() if not glob.glob(path)]


def tried(words, home):
    """Whether a command of cargo does well; what it says is shown."""
    print("$ cargo " + " ".join(words), flush=True)
    where = {**RUST, "CARGO_HOME": home, "CARGO_TARGET_DIR": os.path.join(home, "target")}
    return server.cargo(*words, environment=where) == 0


def main():
    server.install(missing())
    if missing():
        print("these Debian packages are missing: " + " ".join(missing()) + "\n0 passed, 1 failed")
        return 1
    with tempfile.TemporaryDirectory(prefix="jpstore-") as home:
        # Its clippy takes crates from no other place than this file names.
        with open(os.path.join(home, "config.toml"), "w", encoding="ascii") as config:
            config.write(f'[source.crates-io]\nreplace-with = "debian"\n[source.debian]\ndirectory = "{server.CRATES}"\n')
        verdicts = [tried(words, home) for words in COMMANDS]
    print(f"{sum(verdicts)} passed, {verdicts.count(False)} failed")
    return 1 if verdicts.count(False) else 0


if __name__ == "__main__":
    sys.exit(main())
