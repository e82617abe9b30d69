"""The words of `python3 -m jpstore replica`, and what each does."""
import argparse
import contextlib
import json
import re
import time
from typing import TYPE_CHECKING, Any, Awaitable, Callable, Dict, List, Optional, Tuple, TypeVar

from ..errors import JpstoreError
from ..sizes import sectors_of_size

if TYPE_CHECKING:
    # What needs asyncio is loaded when it is used, since that takes as long as all the rest.
    from .engine import Member
    from .log import Log

__all__ = ["add_replica"]

T = TypeVar("T")

_NODE = re.compile(r"[A-Za-z0-9_.-]{1,64}")


def _members(words: argparse.Namespace) -> "List[Member]":
    from .engine import members_in
    return members_in(words.etcd, words.cacert, words.cert, words.key)


def _said(words: argparse.Namespace, value: Any, text: str) -> None:
    print(json.dumps(value, sort_keys=True) if getattr(words, "json", False) else text)


def _with_log(words: argparse.Namespace, do: "Callable[[Log], Awaitable[T]]") -> T:
    """What is done with the log, after it was found to exist."""
    import asyncio

    from .log import Log

    async def with_log() -> T:
        with contextlib.closing(Log(_members(words), words.log)) as log:
            await log.agreed()
            return await do(log)
    return asyncio.run(with_log())


def _check_node(node: str) -> None:
    if not _NODE.fullmatch(node):
        raise JpstoreError(f"`{node}` is no name of a node: it has 1 to 64 letters, digits, `-`, `_` and `.`")


def _init(words: argparse.Namespace) -> None:
    import asyncio

    from .init_join import init
    agreed = asyncio.run(init(words.file, _members(words), words.log, words.capacity, getattr(words, "program", None),
                              getattr(words, "wait", 0.0)))
    _said(words, agreed._asdict(), f"{words.log} is the log {agreed.log}; {words.file} is its first state\n"
          f"each node's file needs halves of {agreed.capacity:,} bytes at least")


def _serve(words: argparse.Namespace) -> int:
    from .node import Settings
    from .reach import Reach
    from .running import run_node
    _check_node(words.node)
    members = _members(words)
    return run_node(Settings(
        words.node, words.file, members, words.log, words.socket, words.local, getattr(words, "program", None),
        words.pump, getattr(words, "wait", 20.0), words.first, words.patience, words.compare,
        Reach([member.name for member in members], True)))


def _join(words: argparse.Namespace) -> None:
    from .init_join import join
    _check_node(words.node)
    made = join(words.new, words.node, words.source, _members(words), words.log, words.sectors,
                getattr(words, "program", None))
    _said(words, made, f"{words.new} is made for node {words.node}, and goes on after entry {made['entry']}")


def _status(words: argparse.Namespace) -> None:
    from .certificates import warning_of
    from .comparing import unlike
    from .engine import end_of_certificates
    from .log import DIGESTS, PLACES

    async def read(log: "Log") -> Dict[str, Any]:
        agreed, head, nodes = await log.agreed(), await log.head(), await log.told(PLACES)
        entry, groups = unlike(await log.told(DIGESTS))
        return {"capacity": agreed.capacity, "certificate": end_of_certificates(_members(words)), "compared": entry,
                "head": head.n, "log": agreed.log, "nodes": nodes, "unlike": groups}
    told = _with_log(words, read)
    rows = [f"log {told['log']}, {told['head']:,} entries, capacity {told['capacity']:,}"]
    for node, place in sorted(told["nodes"].items()):
        if "time" not in place:
            rows.append(f"{node}: is being made, and keeps the log")
            continue
        rows.append(f"{node}: entry {place['n']:,} ({told['head'] - place['n']:,} to do), change {place['seq']:,}, "
                    f"{place['documents']:,} documents, {place['used']:,} of {place['capacity']:,} bytes, "
                    f"told {max(0, int(time.time()) - place['time'])} s ago, {place['version']}")
        rows += warning_of(node, place.get("certificate"))
    rows += warning_of("here", told["certificate"])
    if told["unlike"]:
        groups = " differ from those of ".join(" and ".join(group) for group in told["unlike"])
        rows.append(f"at entry {told['compared']:,} the documents of {groups}: docs/use/REPLICATED.md tells which are "
                    "right")
    _said(words, told, "\n".join(rows))


def _trim(words: argparse.Namespace) -> None:
    until = _with_log(words, lambda log: log.trim())
    _said(words, {"revision": until}, "nothing can be dropped" if until is None
          else f"dropped what all nodes have, up to revision {until}")


def _forget(words: argparse.Namespace) -> None:
    if not _with_log(words, lambda log: log.forget(words.node)):
        raise JpstoreError(f"no node {words.node} has told its place")
    _said(words, {"forgotten": words.node}, f"the log is not kept for {words.node} any more: if it comes back, make "
          "its file anew by `replica join`")


_Row = Tuple[Callable[[argparse.Namespace], Optional[int]], str, str, List[Tuple[str, Dict[str, Any]]]]
_NODE_WORD = ("--node", {"metavar": "NODE", "required": True, "help": "the node, named as its machine perhaps"})
_FILE = ("file", {"metavar": "FILE", "help": "the file of a store"})

# Each command: what it does, its help, an example, and its words.
_COMMANDS: Dict[str, _Row] = {
    "init": (_init, "makes a log, with the store in a file as its first state", "init /var/lib/jpstore/shop/store", [
        _FILE, ("--capacity", {"metavar": "BYTES", "type": int,
                               "help": "what each node's file has at least; else what FILE has"})]),
    "serve": (_serve, "runs a node", "serve /var/lib/jpstore/shop/store --node a --socket /run/jpstore/shop/socket", [
        _FILE, _NODE_WORD,
        ("--socket", {"metavar": "PATH", "required": True, "help": "where clients connect, and see all that is done"}),
        ("--local", {"metavar": "PATH", "help": "where questions are answered at once, as this node has it"}),
        ("--pump", {"metavar": "N", "type": int, "default": 0, "help": "copy snapshots in steps of N sectors"}),
        ("--patience", {"metavar": "SECONDS", "type": float, "default": 10.0,
                        "help": "how long clients wait for a majority (10)"}),
        ("--compare", {"metavar": "SECONDS", "type": float, "default": 60.0,
                       "help": "how often the nodes compare what they have (60)"}),
        ("--first", {"metavar": "N", "type": int, "default": 0, "help": "begin with member N of the list, from 0"})]),
    "join": (_join, "makes the file of a new node from that of another node",
             "join /var/lib/jpstore/shop/store --node b --from a.socket", [
                 ("new", {"metavar": "NEW", "help": "the new file"}), _NODE_WORD,
                 ("--from", {"metavar": "SOCKET", "required": True, "dest": "source",
                             "help": "the socket of another node, perhaps by ssh -L"}),
                 ("--size", {"metavar": "SIZE", "type": sectors_of_size, "dest": "sectors",
                             "help": "the size of NEW, as 16M; else as there"}),
                 ("--sectors", {"metavar": "N", "type": int, "help": "its size in sectors of 512 bytes"})]),
    "status": (_status, "shows how far each node is", "status", []),
    "trim": (_trim, "drops the entries that all nodes have", "trim", []),
    "forget": (_forget, "keeps the log no longer for a node that is gone for good", "forget b", [
        ("node", {"metavar": "NODE", "help": "the name of the node"})]),
}


def add_replica(commands: Any, shared: argparse.ArgumentParser, prog: str) -> None:
    """Adds the words to those of the command line."""
    raw = argparse.RawDescriptionHelpFormatter
    told = "runs the nodes of a replicated store, whose log etcd keeps"
    replica = commands.add_parser("replica", help=told, description=f"replica: {told}", formatter_class=raw,
                                  parents=[shared], epilog="docs/use/REPLICATED.md tells how to run nodes.")
    words = replica.add_subparsers(metavar="COMMAND", required=True)
    for name, (do, about, example, arguments) in _COMMANDS.items():
        command = words.add_parser(name, help=about, description=f"replica {name}: {about}", parents=[shared],
                                   formatter_class=raw,
                                   epilog=f"example:\n  {prog} replica {example} --etcd https://a:2379,https://b:2379 "
                                          "--log shop")
        for word, how in arguments:
            command.add_argument(word, **how)
        command.add_argument("--etcd", metavar="MEMBERS", required=True, help="the members of etcd, HOST:PORT or URLs")
        command.add_argument("--log", metavar="NAME", required=True, help="the name of the log in etcd")
        for word, what in (("--cacert", "the authority of etcd's members"), ("--cert", "a certificate for this client"),
                           ("--key", "the key of the certificate")):
            command.add_argument(word, metavar="FILE", help=f"a file with {what}")
        command.set_defaults(do=do)
