#!/usr/bin/env python3
"""Builds the server jpstored by cargo, from Debian's packages of crates and the lock file, without a network.

    server.py [--out FOLDER]

It is built in clients/server/target, and put into FOLDER if one is named. As root it installs the packages that are
missing, else it names them.
"""
import argparse
import glob
import os
import pathlib
import shutil
import subprocess
import sys

from debian_packages import install

ROOT = pathlib.Path(__file__).resolve().parent.parent
CRATE = ROOT / "clients" / "server"
NAME = "jpstored"
CRATES = "/usr/share/cargo/registry"
# What is needed, and the package that has it.
WANTED = {f"{CRATES}/{crate}-{version}*": f"librust-{crate.replace('_', '-')}-dev" for crate, version in (
    ("bytes", 1), ("httparse", 1), ("libc", 0.2), ("memchr", 2), ("serde_json", 1), ("sha2", 0.10), ("tokio", 1))}
SOURCE = ["source.crates-io.replace-with='debian'", f"source.debian.directory='{CRATES}'"]


class Failed(Exception):
    """The server can't be built."""


def missing():
    """Debian's packages of what is not there."""
    packages = [package for path, package in WANTED.items() if not glob.glob(path)]
    return packages + ([] if shutil.which("cargo") else ["cargo"])


def cargo(command, *words, environment=None, **how):
    """Runs a command of cargo over the crate, and answers its exit status."""
    options = ["--offline", "--locked", *(word for line in SOURCE for word in ("--config", line))]
    environment = {**os.environ, **(environment or {})}
    found = shutil.which("cargo", path=environment["PATH"])
    return subprocess.call([found, command, "-q", *options, *words], cwd=CRATE, env=environment, stdin=subprocess.DEVNULL, **how)


def build():
    """The path of the server, as its sources are now."""
    install(missing())
    if missing():
        raise Failed("these Debian packages are missing: " + " ".join(missing()))
    if cargo("build", "--release", stdout=sys.stderr):
        raise Failed("cargo could not build the server")
    target = os.environ.get("CARGO_TARGET_DIR", "target")
    return CRATE / target / "release" / NAME


def put(server, folder):
    """Puts the server into a folder, under its name there at once."""
    folder.mkdir(parents=True, exist_ok=True)
    new = folder / f"{NAME}.new"
    shutil.copy(server, new)
    os.replace(new, folder / NAME)


def use_server():
    """Has a test start the server of these sources, unless JPSTORE_SERVER names another. Without a server the test fails."""
    try:
        os.environ["JPSTORE_SERVER"] = os.path.abspath(os.environ.get("JPSTORE_SERVER") or build())
    except Failed as failed:
        sys.exit(f"{failed}\n0 passed, 1 failed")


def main():
    parser = argparse.ArgumentParser(description=__doc__, formatter_class=argparse.RawDescriptionHelpFormatter)
    parser.add_argument("--out", metavar="FOLDER", type=pathlib.Path, help="where the server is put")
    folder = parser.parse_args().out
    try:
        server = build()
        if folder:
            put(server, folder)
    except Failed as failed:
        sys.exit(f"server: {failed}")
    print(os.path.relpath(folder / NAME if folder else server))


if __name__ == "__main__":
    main()
