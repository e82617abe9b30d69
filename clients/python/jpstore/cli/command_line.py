"""The command line: a sub-command for each thing that one does with a store, and a shell."""
import argparse
import contextlib
import errno
import json
import os
import sys
import warnings
from typing import Any, Callable, Dict, List, NoReturn, Optional, Sequence, Tuple, Type

from ..client import Store
from ..dump import LoadStopped
from ..errors import (
    Broken, Conflict, Ended, Full, Invalid, JpstoreError, JpstoreWarning, Malformed, NoMemory, NotFound, Refused,
    TooLarge, Unsendable,
)
from ..explain import first_reason
from ..replica.cli import add_replica
from ..replica.errors import MustBeMadeAnew
from ..version import __version__
from .adapting import ADAPT
from .commands import COMMANDS, OTHER_NAMES, VARIANTS, show_completion
from .completion import places
from .display import printable, shown_error
from .file_commands import NEW_STORE, SIZE_WORDS
from .nearest import no_command
from .opening import Row, opened

__all__ = ["exit_status", "main"]

_ABOUT = """\
Keeps named JSON documents in a crash-safe store. STORE is a file, or the socket of a hub.

  %(prog)s STORE                opens a shell over the store
  %(prog)s COMMAND STORE ..     does one thing

A store whose name is that of a command is given as ./NAME to the shell."""

_STATUSES = """\
exit status:
  0   done
  1   anything else, such as a file that is no store, or a line of the shell that was refused
  2   wrong usage
  3   not found: no such document, or no value at this place
  4   conflict: the name is taken, a test failed, or the document has another revision
  5   not valid under the schema
  6   malformed: wrong name, pointer, patch, schema or query, or a value that is not JSON
  7   too large: a limit is passed
  8   full: the store has no room
  9   broken: the device failed
  10  out of memory
  11  the answer was lost: the change may or may not be stored
  12  the store of a node can't go on with its log, and must be made anew
  13  busy: another program has the file of the store open
  14  missing: no such file, or no hub at the socket
  15  the file exists already
  130 interrupted"""

# What STORE may be; most commands take either.
_A_STORE = "a file, or the socket of a hub"
_A_FILE = "the file of a store"
_STORES = {"format": "the new file", "check": _A_FILE, "copy": _A_FILE, "upgrade": _A_FILE, "hub": _A_FILE,
           "watch": "the socket of a hub", "follow": "the socket of a hub"}

# The form of `new` that makes a store.
_NEW_STORE = "new store"
_STORES[_NEW_STORE] = "the new file"

# A command of two words, whose FILE is no store.
_ADAPT = "schema adapt"
_STORES[_ADAPT] = "the file of a schema, or `-` for standard input"

_OTHERS = [name for names in OTHER_NAMES.values() for name in names]
_ALL_COMMANDS = [*COMMANDS, "replica", "completion", *_OTHERS, "help"]

_EXIT: List[Tuple[Type[JpstoreError], int]] = [
    (NotFound, 3), (Conflict, 4), (Invalid, 5), (Malformed, 6), (Unsendable, 6), (TooLarge, 7), (Full, 8), (Broken, 9),
    (NoMemory, 10), (MustBeMadeAnew, 12),
]


_BUSY = 13

# Those of the system's numbers. Nobody listens at the socket that an ended hub left.
_EXIT_OF_SYSTEM = {errno.ENOENT: 14, errno.ECONNREFUSED: 14, errno.EEXIST: 15}


class _Parser(argparse.ArgumentParser):
    """A parser whose complaints are JSON too if that is asked for."""

    #: Whether it is.
    as_json = False

    def error(self, message: str) -> NoReturn:
        if message == _NO_QUERY:
            message += f".{_hint_of(self)}"
        if _Parser.as_json:
            print(json.dumps({"error": "Usage", "message": f"{self.prog}: {message}"}, ensure_ascii=False),
                  file=sys.stderr)
            sys.exit(2)
        super().error(message)


# What argparse says of `find STORE QUERY`, whose query is taken for NAME.
_NO_QUERY = "the following arguments are required: QUERY"

# What is perhaps meant by words that a command does not take.
_HINTS = {
    "find": "`--all` in place of NAME asks all documents, and `--prefix PREFIX` goes with it",
    "load": "it reads standard input: `load STORE < FILE`",
    "ls": "`--prefix PREFIX` lists the names that begin with it",
    "new": "a schema is given by `--schema FILE`",
    "put": "a schema is given by `--schema FILE`",
}


def _refuse_words(options: argparse.Namespace, words: Sequence[str]) -> None:
    """Ends with the usage of the command whose words these are not."""
    parser: argparse.ArgumentParser = options.parser
    parser.error(f"what is `{' '.join(words)}` for?{_hint_of(parser)}")


def _hint_of(parser: argparse.ArgumentParser) -> str:
    """What is perhaps meant by words that this command does not take, as a sentence."""
    hint = _HINTS.get(parser.prog.split()[-1])
    return f" {hint[0].upper()}{hint[1:]}." if hint else ""


def _parser() -> argparse.ArgumentParser:
    prog = "python3 -m jpstore" if os.path.basename(sys.argv[0]) == "__main__.py" else None
    raw = argparse.RawDescriptionHelpFormatter
    shared = _Parser(add_help=False, argument_default=argparse.SUPPRESS)
    shared.add_argument("--program", metavar="PATH", help="the program `jpstore`, if it is not on PATH")
    shared.add_argument("--wait", metavar="SECONDS", type=float,
                        help="how long to wait for a file that is in use, or for a hub (0; 5 for `hub` and `http`)")
    shared.add_argument("--timeout", metavar="SECONDS", type=float, help="how long to wait for a reply")
    shared.add_argument("--json", action="store_true", help="print results and errors as one line of JSON")
    parser = _Parser(prog=prog, description=_ABOUT, epilog=_STATUSES, formatter_class=raw, parents=[shared])
    parser.set_defaults(parser=parser)
    parser.add_argument("--version", action="version", version=f"jpstore {__version__}")
    commands = parser.add_subparsers(metavar="COMMAND", required=True)
    for name, row in COMMANDS.items():
        _add(commands, shared, parser.prog, name, row, help=row[1], aliases=OTHER_NAMES.get(name, []))
    if "_ARGCOMPLETE" not in os.environ:
        # These are forms of commands, and no words to complete.
        for (name, word), row in VARIANTS.items():
            _add(commands, shared, parser.prog, f"{name} {word}", row)
        _add(commands, shared, parser.prog, _ADAPT, ADAPT)
        _add(commands, shared, parser.prog, _NEW_STORE, NEW_STORE)
    add_replica(commands, shared, parser.prog)
    completion = commands.add_parser("completion", help="prints what completes the words in bash", parents=[shared],
                                     formatter_class=raw, epilog='example:\n  eval "$(jpstore-cli completion)"')
    completion.set_defaults(do=show_completion)
    return parser


def _add(commands: Any, shared: argparse.ArgumentParser, prog: str, name: str, row: Row, **how_listed: Any) -> None:
    """Adds a sub-command with its words."""
    do, told, example, arguments = row
    shown = "new" if name == _NEW_STORE else name
    command = commands.add_parser(name, prog=f"{prog} {shown}", description=f"{shown}: {told}", parents=[shared],
                                  formatter_class=argparse.RawDescriptionHelpFormatter,
                                  epilog=f"example:\n  {prog} {example}", **how_listed)
    metavar = "FILE" if name == _ADAPT else "STORE"
    command.add_argument("store", metavar=metavar, help=_STORES.get(name, _A_STORE))
    has_size = any(word in SIZE_WORDS for word, _ in arguments)
    sizes = command.add_mutually_exclusive_group() if has_size else command
    for word, how in arguments:
        added = (sizes if word in SIZE_WORDS else command).add_argument(word, **how)
        if word in _COMPLETERS:
            setattr(added, "completer", _COMPLETERS[word])
    command.set_defaults(do=do, parser=command)


def _completer(ask: Callable[[Store, argparse.Namespace, str], List[str]]) -> Callable[..., List[str]]:
    """What argcomplete calls for the words that begin with a prefix, of those that a store says."""
    def complete(prefix: str, parsed_args: argparse.Namespace, **_: Any) -> List[str]:
        try:
            with opened(parsed_args) as store:
                return [word for word in ask(store, parsed_args, prefix) if word.startswith(prefix)]
        except (JpstoreError, OSError, AttributeError):
            return []
    return complete


_COMPLETERS = {"name": _completer(lambda store, _, prefix: store.names(prefix)),
               "pointer": _completer(lambda store, words, prefix: places(store, words.name, prefix))}


def _with_command(parser: argparse.ArgumentParser, words: Sequence[str]) -> List[str]:
    """The words as the parser takes them, which has each command by one name: `shell` if the first is a store."""
    place = _first_plain(words)
    before, rest = list(words[:place]), list(words[place:])
    if not rest:
        return before
    if rest[0] == "help":
        return [*before, *rest[1:], "--help"]
    if " ".join(rest[:2]) == _ADAPT:
        return [*before, _ADAPT, *rest[2:]]
    if rest[0] == "new" and _makes_store(rest[1:]):
        return [*before, _NEW_STORE, *rest[1:]]
    variant = next((f"{name} {word}" for name, word in VARIANTS if name == rest[0] and _has(rest, word)), None)
    if variant is not None:
        return [*before, variant, *rest[1:]]
    if rest[0] in _ALL_COMMANDS:
        return [*before, *rest]
    _check_store(parser, rest[0], rest[1:])
    return [*before, "shell", *rest]


# The options of `new` that have a value, of which the last ones make a store.
_OF_STORE = (*SIZE_WORDS, "--id")
_VALUED = ("--program", "--timeout", "--wait", "--schema", *_OF_STORE)


def _makes_store(words: Sequence[str]) -> bool:
    """Whether the words after `new` name a store and no document."""
    plain, left = 0, iter(words)
    for word in left:
        if word.split("=")[0] in _OF_STORE:
            return True
        if word in _VALUED:
            next(left, None)
        elif not word.startswith("--"):
            plain += 1
    return plain == 1 and not {"-h", "--help"} & set(words)


def _first_plain(words: Sequence[str]) -> int:
    """The place of the first word that is no option, nor the value of one."""
    place = 0
    while place < len(words) and words[place].startswith("-"):
        place += 2 if words[place] in ("--program", "--timeout", "--wait") else 1
    return place


def _has(words: Sequence[str], option: str) -> bool:
    return any(word == option or word.startswith(option + "=") for word in words)


def _check_store(parser: argparse.ArgumentParser, first: str, others: Sequence[str]) -> None:
    """Ends with what is wrong, if the first word is neither a command nor a store."""
    second = others[_first_plain(others):][:1]
    if os.path.exists(first):
        if second and second[0] in _ALL_COMMANDS:
            parser.error(f"the command comes before the store: {parser.prog} {second[0]} {first} ..")
    elif second:
        parser.error(no_command(first, _ALL_COMMANDS, "`--help`"))
    elif os.sep not in first:
        parser.error(f"{no_command(first, _ALL_COMMANDS, '`--help`')}, and no store (`{parser.prog} new {first}` "
                     "makes one)")


def _parsed(parser: argparse.ArgumentParser, given: Sequence[str]) -> argparse.Namespace:
    """What the words ask for; it ends if they are refused, or after a help text."""
    try:
        options, left = parser.parse_known_args(_with_command(parser, given))
    except BrokenPipeError:
        sys.exit(_unread())
    if left:
        _refuse_words(options, left)
    return options


def main(words: Optional[Sequence[str]] = None) -> int:
    """Does what the words of the command line say, and returns the exit status."""
    parser = _parser()
    with contextlib.suppress(ImportError):
        import argcomplete
        argcomplete.autocomplete(parser)
    given = sys.argv[1:] if words is None else words
    _Parser.as_json = "--json" in given
    options = _parsed(parser, given)
    _prepare_streams()
    warnings.simplefilter("always", JpstoreWarning)
    warnings.showwarning = _show_warning
    try:
        status: Optional[int] = options.do(options)
        sys.stdout.flush()
        return status or 0
    except BrokenPipeError:
        return _unread()
    except KeyboardInterrupt:
        print("interrupted", file=sys.stderr)
        return 130
    except (JpstoreError, OSError) as error:
        if not isinstance(error, JpstoreError) and error.filename is None:
            # No file was named to the system: these are the streams that it gave.
            with contextlib.suppress(OSError, ValueError):
                # What is left in its buffer is no second error.
                os.dup2(os.open(os.devnull, os.O_WRONLY), sys.stdout.fileno())
            error = JpstoreError(f"standard input or output: {error.strerror or error}")
        print(_told(error) if getattr(options, "json", False) else shown_error(error), file=sys.stderr)
        return exit_status(error)


def _unread() -> int:
    """The exit status if nobody reads what is left, nor an error about it."""
    os.dup2(os.open(os.devnull, os.O_WRONLY), sys.stdout.fileno())
    return 1


def _prepare_streams() -> None:
    """What a terminal cannot show is shown by its number, and what is no text is reported when it is used."""
    shown_so = "backslashreplace"
    for stream, errors in ((sys.stdin, "surrogateescape"), (sys.stdout, shown_so), (sys.stderr, shown_so)):
        reconfigure = getattr(stream, "reconfigure", None)
        if reconfigure is not None:
            reconfigure(errors=errors)


def _show_warning(message: Any, category: Any, *_: Any, **__: Any) -> None:
    print(f"warning: {printable(str(message))}", file=sys.stderr)


def exit_status(error: Exception) -> int:
    """The exit status for an error; a load that stopped has that of its first refused line."""
    if isinstance(error, LoadStopped):
        error = error.first[1]
    if isinstance(error, Ended) and error.change is not None:
        return 11
    if isinstance(error, Ended) and error.name == "in-use":
        return _BUSY
    number: Optional[int] = error.system_error if isinstance(error, Ended) else getattr(error, "errno", None)
    if number is not None and number in _EXIT_OF_SYSTEM:
        return _EXIT_OF_SYSTEM[number]
    return next((status for family, status in _EXIT if isinstance(error, family)), 1)


def _told(error: Exception) -> str:
    """An error as a line of JSON."""
    told: Dict[str, Any] = {"error": type(error).__name__, "message": str(error)}
    if isinstance(error, LoadStopped):
        line, first = error.first
        told.update(line=line, made=error.made)
        error = first
    if isinstance(error, Refused):
        told.update(number=error.number, name=error.name, advice=error.advice)
        known = {"command": error.command.get("cmd"), "document": error.document, "change": error.change,
                 "op": error.op, "rev": error.rev}
        told.update((name, value) for name, value in known.items() if value is not None)
        told.update({"detail": error.detail} if error.detail else {})
    elif getattr(error, "advice", ""):
        told["advice"] = getattr(error, "advice")
    if isinstance(error, Invalid):
        told["why"] = first_reason(error)
    return json.dumps(told, ensure_ascii=False)
