"""The sub-commands of the command line, and their words."""
import argparse
import os
import sys
from typing import Any, Dict, List, Optional, Sequence, Tuple

from ..client import Store
from ..dump import GROUP_LINES, dump, load
from ..edits import patched, put, remove, set_schemas
from ..errors import JpstoreError
from ..server import run_server
from ..watch import Watch
from .display import members_of, shown, shown_node, shown_status
from .file_commands import FILE_COMMANDS
from .opening import Row, Word, opened, program_of, value_in, value_of_word, wait_for
from .printing import accepted, print_changes, print_record, said
from .shell import run_shell

__all__ = ["COMMANDS", "OTHER_NAMES", "VARIANTS", "show_completion"]


def _get(words: argparse.Namespace) -> None:
    with opened(words) as store:
        value = store.get(words.name, words.pointer)
    said(words, value, shown(value))


def _set(words: argparse.Namespace) -> None:
    if not words.pointer and not words.whole:
        words.parser.error("POINTER is empty, which is the place of the whole document: to replace that, use `put`, or "
                           "add `--whole`")
    value = value_of_word(words.value)
    with opened(words) as store:
        accepted(words, put(store, words.name, words.pointer, value))


def _new(words: argparse.Namespace) -> None:
    doc, schema = value_of_word(words.doc), value_in(words.schema) if words.schema else True
    with opened(words) as store:
        accepted(words, store.create(words.name, doc, schema))


def _put(words: argparse.Namespace) -> None:
    doc, schema = value_of_word(words.doc), value_in(words.schema) if words.schema else None
    with opened(words) as store:
        accepted(words, store.put(words.name, doc, schema, words.if_rev))


def _rm(words: argparse.Namespace) -> None:
    with opened(words) as store:
        accepted(words, remove(store, words.name, words.pointer, words.if_rev))


def _transaction(words: argparse.Namespace) -> None:
    changes = value_of_word(words.changes)
    if not isinstance(changes, list):
        raise JpstoreError("the changes are a list of JSON objects")
    if words.once is None and words.by is not None:
        raise JpstoreError("`--by` is for `--once`, which is missing")
    with opened(words) as store:
        if words.once is None:
            accepted(words, store.transaction(changes))
        else:
            accepted(words, store.once(words.once, changes, by=words.by))


def _ls(words: argparse.Namespace) -> None:
    with opened(words) as store:
        names = store.names(words.prefix)
    said(words, names, *names)


def _find(words: argparse.Namespace) -> None:
    with opened(words) as store:
        nodes = store.query(words.name, words.query)
    said(words, list(map(vars, nodes)), *map(shown_node, nodes))


def _find_all(words: argparse.Namespace) -> None:
    with opened(words) as store:
        found = store.query_all(words.query, words.prefix)
    for name, nodes in found.items():
        for node in nodes:
            print_record({"name": name, "path": node.path, "value": node.value})


def _patch(words: argparse.Namespace) -> None:
    patch = value_of_word(words.patch)
    with opened(words) as store:
        if words.merge:
            accepted(words, store.merge_patch(words.name, patch, words.if_rev))
        else:
            accepted(words, patched(store, words.name, patch, words.if_rev))


def _schema(words: argparse.Namespace) -> None:
    if words.to is not None:
        _set_schema(words)
        return
    if len(words.name) > 1:
        raise JpstoreError("several names are for `--to FILE`, which puts these documents under one schema")
    with opened(words) as store:
        schema = store.schema(words.name[0])
    said(words, schema, shown(schema))


def _set_schema(words: argparse.Namespace) -> None:
    schema = value_in(words.to)
    with opened(words) as store:
        if len(words.name) == 1:
            accepted(words, store.set_schema(words.name[0], schema, words.if_rev))
        elif words.if_rev is not None:
            raise JpstoreError("`--if-rev` is for one document: its revision is no other's")
        else:
            _set_schemas(words, store, words.name, schema)


def _schemas(words: argparse.Namespace) -> None:
    schema = value_in(words.to)
    with opened(words) as store:
        names = store.names(words.prefix)
        if not names:
            raise JpstoreError(f"no document has a name that begins with `{words.prefix}`")
        _set_schemas(words, store, names, schema)


def _set_schemas(words: argparse.Namespace, store: Store, names: Sequence[str], schema: Any) -> None:
    accepted(words, set_schemas(store, names, schema), len(names))


def _rev(words: argparse.Namespace) -> None:
    with opened(words) as store:
        rev = store.rev(words.name)
    said(words, rev, str(rev))


def _status(words: argparse.Namespace) -> None:
    with opened(words) as store:
        status = store.status()
    said(words, members_of(status), shown_status(status))


def _snapshot(words: argparse.Namespace) -> None:
    with opened(words) as store:
        used = store.snapshot()
    said(words, {"used": used}, f"{used:,} bytes used")


def _dump(words: argparse.Namespace) -> None:
    with opened(words) as store:
        dump(store, sys.stdout.buffer.write)
        sys.stdout.buffer.flush()


def _load(words: argparse.Namespace) -> None:
    with opened(words, GROUP_LINES) as store:
        made = load(store, sys.stdin.buffer, words.partial)
    said(words, {"changes": made}, f"{made:,} changes made")


def _hub(words: argparse.Namespace) -> None:
    _serve(words, [("--socket", words.socket), ("--pump", str(words.pump))])


def _http(words: argparse.Namespace) -> None:
    _serve(words, [("--listen", words.listen), ("--token-file", words.token_file), ("--socket", words.socket),
                   *(("--origin", origin) for origin in words.origin)])


def _serve(words: argparse.Namespace, options: List[Tuple[str, Optional[str]]]) -> None:
    wait = str(words.wait) if hasattr(words, "wait") else None
    given = [word for option, value in [*options, ("--wait", wait)] if value is not None for word in (option, value)]
    run_server(words.store, given, program_of(words))


def _changes(words: argparse.Namespace) -> None:
    with opened(words) as store:
        print_changes(store, words.since)


def _watch(words: argparse.Namespace) -> None:
    if words.history is not None and words.since is None:
        raise JpstoreError("`--history` is for `--since`, which is missing")
    wait = getattr(words, "wait", None)
    with Watch(words.store, words.since, history=words.history, follow=not words.past, wait=wait) as changes:
        gone = f"{words.store}: the hub is gone, and is waited for"
        changes.tell_lost(lambda: print(gone, file=sys.stderr, flush=True))
        for change in changes:
            if words.name in (None, change.command.get("name")):
                print_record(change.record())


def _follow(words: argparse.Namespace) -> None:
    # A file, or nothing, is refused as `watch` does it.
    with Store.connect(words.store, wait=wait_for(words), timeout=getattr(words, "timeout", None)) as store:
        for latest in store.follow(words.name, words.pointer):
            print_record({"rev": None} if latest is None else vars(latest))


def _shell(words: argparse.Namespace) -> int:
    return run_shell(lambda: opened(words), os.path.basename(words.store))


def show_completion(_: argparse.Namespace) -> None:
    try:
        import argcomplete
    except ImportError:
        raise JpstoreError("completion needs argcomplete: pip install argcomplete, or "
                           "apt-get install python3-argcomplete") from None
    print(argcomplete.shellcode(["jpstore-cli"]))


_NAME: Word = ("name", {"metavar": "NAME", "help": "the name of the document"})
_POINTER: Word = ("pointer", {"metavar": "POINTER", "nargs": "?", "default": "",
                              "help": "a JSON Pointer, such as /bolts"})
_QUERY: Word = ("query", {"metavar": "QUERY", "help": "a JSONPath query (RFC 9535)"})
_IF_REV: Word = ("--if-rev", {"metavar": "N", "type": int, "help": "only if the document has this revision"})
_PATCH_FORM = "a JSON Patch (RFC 6902), or `-` for standard input"
_CHANGES_FORM = "a list of the objects of the lines create, patch, schema and delete, or `-` for standard input"

#: Each command: what it does, its help, an example, and its words after STORE.
COMMANDS: Dict[str, Row] = {
    "get": (_get, "shows a document, or the value at a place of it", "get inventory shelf-1 /bolts", [_NAME, _POINTER]),
    "set": (_set, "puts a value at a place of a document", "set inventory shelf-1 /bolts 39", [
        _NAME, ("pointer", {"metavar": "POINTER", "help": "a JSON Pointer; /list/- is the place after a list's last"}),
        ("value", {"metavar": "VALUE", "help": "a JSON value, or `-` for standard input"}),
        ("--whole", {"action": "store_true", "help": "POINTER may be empty: it is the whole document then"})]),
    "new": (_new, "makes a document, or with STORE alone the file of a new store",
            "new inventory shelf-1 '{\"bolts\": 40}' --schema counts.json", [
                _NAME, ("doc", {"metavar": "DOC", "help": "a JSON value, or `-` for standard input"}),
                ("--schema", {"metavar": "FILE", "help": "a file with the JSON Schema of the document"})]),
    "put": (_put, "makes a document, or replaces the whole of it", "put inventory shelf-1 '{\"bolts\": 40}'", [
        _NAME, ("doc", {"metavar": "DOC", "help": "a JSON value, or `-` for standard input"}),
        ("--schema", {"metavar": "FILE", "help": "a file with the JSON Schema; else it keeps its own"}), _IF_REV]),
    "rm": (_rm, "deletes a document, or removes the value at a place of it", "rm inventory shelf-1 /bolts", [
        _NAME, ("pointer", {"metavar": "POINTER", "nargs": "?", "help": "a JSON Pointer; else all is deleted"}),
        _IF_REV]),
    "ls": (_ls, "lists the names, in the order of creation", "ls inventory --prefix shelf-", [
        ("--prefix", {"metavar": "PREFIX", "default": "", "help": "only those that begin with this"})]),
    "find": (_find, "shows what a JSONPath query selects", "find inventory shelf-1 '$[?@ < 20]'", [
        _NAME, _QUERY,
        ("--all", {"action": "store_true", "help": "in place of NAME: in all documents, each node as a line of JSON "
                                                   "with the document's name; also with --prefix PREFIX"})]),
    "patch": (_patch, "patches a document", "patch inventory shelf-1 --merge '{\"bolts\": 39, \"nuts\": null}'", [
        _NAME, ("patch", {"metavar": "PATCH", "help": _PATCH_FORM}),
        ("--merge", {"action": "store_true", "help": "PATCH is a JSON Merge Patch (RFC 7396)"}), _IF_REV]),
    "schema": (_schema, "shows the schema of a document, or puts documents under another, all or none; `schema adapt "
                        "FILE` makes a schema of other people one that the store reads",
               "schema inventory shelf-1 shelf-2 --to counts.json", [
                   ("name", {**_NAME[1], "nargs": "+"}),
                   ("--to", {"metavar": "FILE", "help": "a file with the new schema; `-` is standard input"}), _IF_REV,
                   ("--prefix", {"metavar": "PREFIX", "help": "in place of NAME: all documents whose names begin with "
                                                              "this"})]),
    "transaction": (_transaction, "makes several changes, all or none", "transaction inventory - < changes.json", [
        ("changes", {"metavar": "CHANGES", "help": _CHANGES_FORM}),
        ("--once", {"metavar": "KEY", "help": "only if no call with this key has made them before, in format 3"}),
        ("--by", {"metavar": "NAME", "help": "the client whose last key alone is known, however many it used"})]),
    "rev": (_rev, "shows the revision of a document: the number of its last change", "rev inventory shelf-1", [_NAME]),
    "status": (_status, "shows how many documents there are, and how full the store is", "status inventory --json", []),
    "changes": (_changes, "shows the transactions that the store still knows, each as a line of JSON",
                "changes inventory --since 41", [
                    ("--since", {"metavar": "N", "type": int, "default": 0,
                                 "help": "those after change N, the last one of a transaction; else from the first"})]),
    "snapshot": (_snapshot, "drops the history, which makes room", "snapshot inventory", []),
    "dump": (_dump, "writes each document as the line that makes it", "dump inventory > inventory.lines", []),
    "load": (_load, "makes the documents of a dump, from standard input", "load restored < inventory.lines", [
        ("--partial", {"action": "store_true", "help": "also if its last line, which counts the others, is missing"})]),
    **FILE_COMMANDS,
    "hub": (_hub, "serves the store to several clients", "hub inventory --socket inventory.socket", [
        ("--socket", {"metavar": "PATH", "required": True, "help": "where clients connect"}),
        ("--pump", {"metavar": "N", "type": int, "default": 0, "help": "copy snapshots in steps of N sectors"})]),
    "http": (_http, "serves the store over HTTP, with a page at /", "http inventory --listen 127.0.0.1:8080", [
        ("--listen", {"metavar": "HOST:PORT", "default": "127.0.0.1:8080",
                      "help": "where it is asked (127.0.0.1:8080)"}),
        ("--token-file", {"metavar": "FILE", "help": "a file with the token that each request needs"}),
        ("--socket", {"metavar": "PATH", "help": "where clients of the hub connect, if STORE is a file"}),
        ("--origin", {"metavar": "ORIGIN", "action": "append", "default": [],
                      "help": "let pages of this origin in, such as https://example.org"})]),
    "watch": (_watch, "shows each change that a hub accepts, as a line of JSON", "watch inventory.socket --since 41", [
        ("--since", {"metavar": "N", "type": int, "help": "begin after change N; else with the next change"}),
        ("--history", {"metavar": "TEXT", "help": "only if change N came with this `history`"}),
        ("--past", {"action": "store_true", "help": "end with the last change that is already made"}),
        ("--name", {"metavar": "NAME", "help": "only the changes of this document"})]),
    "follow": (_follow, "shows a document of a hub now, and its newest state after changes of it, as a line of JSON; "
                        "`watch` shows each change",
               "follow inventory.socket shelf-1", [_NAME, _POINTER]),
    "shell": (_shell, "opens a shell, or does the lines of standard input", "shell inventory", []),
}

#: The words by which a command takes others than it else does: the command, the word, and how it is a command then.
VARIANTS: Dict[Tuple[str, str], Row] = {
    ("find", "--all"): (_find_all, "shows what a JSONPath query selects in all documents, each node as a line of JSON",
                        "find inventory --all '$[?@ < 20]'", [
                            ("--all", {"action": "store_true", "help": "in all documents"}), _QUERY,
                            ("--prefix", {"metavar": "PREFIX", "default": "",
                                          "help": "only in those whose names begin with this"})]),
    ("schema", "--prefix"): (_schemas, "puts documents under another schema, all or none",
                             "schema inventory --prefix shelf- --to counts.json", [
                                 ("--prefix", {"metavar": "PREFIX", "required": True,
                                               "help": "all documents whose names begin with this"}),
                                 ("--to", {"metavar": "FILE", "required": True,
                                           "help": "a file with the new schema; `-` is standard input"})]),
}

#: Other names of commands, by which the shell and other programs call them.
OTHER_NAMES = {"get": ["cat"]}
