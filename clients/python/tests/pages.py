"""The blocks that a page shows, and how they are run: in order, as they stand, each followed by what it writes."""
import os
import re
import sys

from support import PACKAGE


def page(*names):
    """The text of a page of `docs`."""
    with open(os.path.join(PACKAGE, "..", "..", "docs", *names), encoding="utf-8") as opened:
        return opened.read()


def blocks_of(text):
    """Each block of a page with its kind; a block without a kind is what the one before it writes."""
    return re.findall(r"^```(\w*)\n(.*?)^```$", text, re.M | re.S)


def without_names(text):
    """What is written, without the names of histories and the identities of stores, which no two have in common."""
    return re.sub(r"\b([0-9a-f]{16}\.\d+\.[0-9a-f]{16}|[0-9a-f]{32})\b", "NAME", text)


def how_to_run(kind, text, store):
    """The words that run a block of a kind, and what they are given; the shell is that of a store."""
    if kind == "sh":
        return ["sh", "-e", "-c", text], b""
    if kind == "python":
        return [sys.executable, "-c", text], b""
    return [sys.executable, "-m", "jpstore", store], text.encode()


def clone(place):
    """The environment in a folder in which the program, the server and the package are as in a clone after a build."""
    out = place.path("crates/jpstore/out")
    os.makedirs(out)
    os.symlink(place.program, os.path.join(out, "jpstore"))
    os.symlink(os.environ["JPSTORE_SERVER"], os.path.join(out, "jpstored"))
    os.makedirs(place.path("clients"))
    os.symlink(PACKAGE, place.path("clients/python"))
    path = os.pathsep.join([out, os.path.dirname(sys.executable), os.environ["PATH"]])
    return {**place.environment(), "PATH": path}
