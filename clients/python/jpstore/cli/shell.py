"""A shell for people over one store."""
import cmd
import contextlib
import inspect
import os
import re
import sys
from typing import Any, Callable, Iterator, List, Optional, Sequence, Union

from ..called import called
from ..client import Store
from ..edits import patched, put, remove, set_schemas
from ..errors import Ended, JpstoreError, Refused
from ..progress import Progress
from .completion import completions
from .display import shown, shown_error, shown_node, shown_status
from .nearest import no_command
from .printing import done, print_changes, print_record
from .shell_transaction import Draft
from .shell_words import (
    Usage, flag_and_rest, if_rev_and_rest, names_and_file, nothing_more, number_of, option_and_rest, schema_and_doc,
    value_in, value_of, word_and_rest,
)

__all__ = ["ELSEWHERE", "run_shell"]

#: The commands that are for the command line only.
ELSEWHERE = ("check", "completion", "copy", "dump", "format", "grow", "http", "hub", "load", "replica", "shell",
             "transaction", "upgrade")

# What shows lines by itself, as they come.
_WAITING = ("changes", "follow", "watch")

_HISTORY = os.path.expanduser("~/.jpstore_history")
_HISTORY_LINES = 1000


class Shell(cmd.Cmd):
    """Reads a command a line. Each `do_` answers the text that it shows, and its own text begins with its form."""

    def __init__(self, opened: Callable[[], Store], title: str, by_hand: bool) -> None:
        super().__init__()
        self._opened, self._title, self._by_hand = opened, title, by_hand
        self.store = opened()
        #: Whether a line was refused or not understood.
        self.failed = False
        self._busy = False
        self._draft: Optional[Draft] = None
        # How many lines were read.
        self._lines = 0
        self._show_prompt()

    def _show_prompt(self) -> None:
        begun = "" if self._draft is None else "*"
        self.prompt = f"{self._title}{begun}> " if self._by_hand else ""

    def do_ls(self, line: str) -> str:
        """ls [--prefix PREFIX]: the names of the documents, in the order of creation."""
        prefix, rest = option_and_rest(line, "--prefix")
        if rest and prefix is None:
            raise Usage(f"what is `{rest}` for? `ls --prefix PREFIX` lists the names that begin with it")
        nothing_more(rest)
        return "\n".join(self.store.names(prefix or ""))

    def do_get(self, line: str) -> str:
        """get NAME [POINTER]: a document, or the value at a place of it, as `get shelf /bolts`."""
        name, rest = word_and_rest(line, "NAME")
        return shown(self.store.get(name, _pointer(rest)))

    def do_cat(self, line: str) -> str:
        """cat NAME [POINTER]: the same as `get`."""
        return self.do_get(line)

    def do_find(self, line: str) -> str:
        """find NAME QUERY: the places and values that a JSONPath query selects, as `find shelf $[?@ < 20]`.

        `find --all [--prefix PREFIX] QUERY` asks all documents, or those whose names begin with PREFIX.
        """
        name, query = word_and_rest(line, "NAME")
        prefix, query = option_and_rest(query, "--prefix") if name == "--all" else (None, query)
        if name == "--all" and re.search(r"[^'\"]\s--prefix\s+\S+$", query):
            raise Usage("`--prefix PREFIX` comes before the query: `find --all --prefix PREFIX QUERY`")
        if not query:
            raise Usage("QUERY is missing")
        if name == "--all":
            return "\n".join(f"{found}  {shown_node(node)}"
                             for found, nodes in self.store.query_all(query, prefix or "").items() for node in nodes)
        return "\n".join(map(shown_node, self.store.query(name, query)))

    def do_new(self, line: str) -> str:
        """new NAME [SCHEMA-FILE] DOC, or new NAME [SCHEMA-FILE] < FILE: makes a document: `new shelf {"bolts": 40}`.

        The schema may also be given as on the command line, by `--schema FILE`.
        """
        name, rest = word_and_rest(line, "NAME")
        schema, doc = schema_and_doc(rest)
        if self._draft is None:
            return done(self.store.create(name, doc, schema))
        self._draft.create(name, doc, schema)
        return _noted(self._draft)

    def do_put(self, line: str) -> str:
        """put NAME [SCHEMA-FILE] DOC, or put NAME [SCHEMA-FILE] < FILE: makes a document, or replaces the whole of it.

        Without a file a document keeps its schema. `put NAME --if-rev N ..` replaces it only at this revision.
        """
        name, rest = word_and_rest(line, "NAME")
        if_rev, rest = if_rev_and_rest(rest)
        schema, doc = schema_and_doc(rest, None)
        if self._draft is None:
            return done(self.store.put(name, doc, schema, if_rev))
        _check_no_rev(if_rev)
        if schema is not None:
            raise Usage("after `begin` it is `put` without a schema, and `schema NAME FILE`")
        self._draft.replace(self.store, name, doc)
        return _noted(self._draft)

    def do_patch(self, line: str) -> str:
        """patch NAME [--merge] [--if-rev N] PATCH: applies a JSON Patch, or with `--merge` a JSON Merge Patch."""
        name, rest = word_and_rest(line, "NAME")
        merges, rest = flag_and_rest(rest, "--merge")
        if_rev, rest = if_rev_and_rest(rest)
        if self._draft is not None:
            raise Usage("after `begin` the changes are `new`, `put`, `set`, `rm` and `schema`; for others there is "
                        "`transaction` of the command line")
        change = value_of(rest, "PATCH")
        if merges:
            return done(self.store.merge_patch(name, change, if_rev))
        return done(patched(self.store, name, change, if_rev))

    def do_set(self, line: str) -> str:
        """set NAME POINTER VALUE: puts a value at a place, as `set shelf /bolts 39` or `set shelf /tags/- "red"`.

        A value that is there is replaced. The index of a list must have one, and `-` is the place after its last. The
        pointer "" is the whole document.
        """
        name, rest = word_and_rest(line, "NAME")
        pointer, text = word_and_rest(rest, "POINTER")
        if self._draft is None:
            return done(put(self.store, name, pointer, value_of(text)))
        self._draft.put(self.store, name, pointer, value_of(text))
        return _noted(self._draft)

    def do_rm(self, line: str) -> str:
        """rm NAME [POINTER] [--if-rev N]: deletes a document, or removes the value at a place of it."""
        name, rest = word_and_rest(line, "NAME")
        pointer: Optional[str] = None
        if rest and not rest.startswith("--if-rev"):
            pointer, rest = word_and_rest(rest, "POINTER")
        if_rev, rest = if_rev_and_rest(rest)
        nothing_more(rest)
        if self._draft is None:
            return done(remove(self.store, name, pointer, if_rev))
        _check_no_rev(if_rev)
        self._draft.remove(self.store, name, pointer)
        return _noted(self._draft)

    def do_rev(self, line: str) -> str:
        """rev NAME: the revision of a document, which is the number of its last change."""
        name, rest = word_and_rest(line, "NAME")
        nothing_more(rest)
        return f"{self.store.rev(name):,}"

    def do_schema(self, line: str) -> str:
        """schema NAME [FILE]: the schema of a document; with a file, puts the document under the schema in it.

        `schema NAME .. --to FILE` and `schema --prefix PREFIX --to FILE` do this for several documents, all or none.
        """
        prefix, line = option_and_rest(line, "--prefix")
        names, file = names_and_file(line)
        if prefix is not None:
            if names:
                raise Usage(f"what is `{names[0]}` for? `schema --prefix PREFIX --to FILE` puts documents under "
                            "another")
            if file is None:
                raise Usage("`--to FILE` is missing")
            names = self.store.names(prefix)
        if not names:
            raise Usage("NAME is missing" if prefix is None else f"no document's name begins with {prefix}")
        if file is None:
            return shown(self.store.schema(names[0]))
        schema = value_in(file)
        if self._draft is None:
            return self._set_schemas(names, schema)
        for name in names:
            self._draft.set_schema(name, schema)
        return _noted(self._draft)

    def _set_schemas(self, names: Sequence[str], schema: Any) -> str:
        if len(names) == 1:
            return done(self.store.set_schema(names[0], schema))
        return done(set_schemas(self.store, names, schema), len(names))

    def do_changes(self, line: str) -> None:
        """changes [SINCE]: the transactions after a change that the store still knows."""
        print_changes(self.store, _since(line) or 0)

    def do_watch(self, line: str) -> None:
        """watch [SINCE]: the changes of a hub's store after a number, or from now on, until Ctrl-C."""
        with contextlib.suppress(KeyboardInterrupt), self.store.watch(_since(line)) as changes:
            for change in changes:
                print_record(change.record())

    def do_follow(self, line: str) -> None:
        """follow NAME [POINTER]: a document of a hub's store now and after each change of it, until Ctrl-C."""
        name, rest = word_and_rest(line, "NAME")
        pointer = _pointer(rest)
        with contextlib.suppress(KeyboardInterrupt), self.store.follow(name, pointer) as values:
            for latest in values:
                print_record({"rev": None} if latest is None else vars(latest))

    def do_begin(self, line: str) -> None:
        """begin: notes the changes that follow, until `commit` makes all or none of them, or `abort` forgets them.

        These are the lines `new`, `put`, `set`, `rm` and `schema NAME FILE`. Meanwhile the others show the store
        without them.
        """
        nothing_more(line)
        if self._draft is not None:
            raise Usage("a transaction is begun already: end it by `commit` or `abort`")
        self._draft = Draft()

    def do_commit(self, line: str) -> str:
        """commit: makes the changes since `begin`; if one is refused, none is made, and all are forgotten.

        They are refused too if others have changed a document of which `set` or `rm NAME POINTER` has read a value.
        """
        nothing_more(line)
        draft = self._ended()
        if draft.failed:
            raise JpstoreError("a line since `begin` was refused, so nothing is made")
        if not draft.changes:
            raise Usage("there is no change since `begin`")
        try:
            return done(self.store.transaction(draft.changes), len(draft.changes))
        except Refused as refused:
            raise JpstoreError(f"{shown_error(refused)}\nnothing is made: forgotten, {_counted(draft)}") from refused

    def do_abort(self, line: str) -> str:
        """abort: forgets the changes since `begin`."""
        nothing_more(line)
        return f"forgotten, {_counted(self._ended())}"

    def _ended(self) -> Draft:
        draft, self._draft = self._draft, None
        if draft is None:
            raise Usage("no transaction is begun")
        return draft

    def leave(self) -> None:
        """Ends the session. A transaction that is not committed is forgotten, with a message."""
        if self._draft is not None:
            self.failed = True
            print(f"the transaction was not committed: forgotten, {_counted(self._draft)}", file=sys.stderr)
        self.store.close()

    def do_status(self, line: str) -> str:
        """status: how many documents and changes there are, and how full the store is."""
        nothing_more(line)
        return shown_status(self.store.status())

    def do_snapshot(self, line: str) -> str:
        """snapshot: writes the store anew without its history, which makes room."""
        nothing_more(line)
        return f"{self.store.snapshot():,} bytes used"

    def do_help(self, arg: str) -> str:  # type: ignore[override]
        """help [COMMAND]: the forms of the commands, or more on one."""
        names = [arg.strip()] if arg.strip() else [name[3:] for name in self.get_names() if name.startswith("do_")]
        texts = [getattr(self, "do_" + name).__doc__ for name in names if hasattr(self, "do_" + name)]
        if not texts:
            raise Usage(f"no command is called {arg.strip()}")
        return "\n".join(inspect.cleandoc(text) if arg else text.partition("\n")[0] for text in texts if text)

    def do_quit(self, line: str) -> bool:
        """quit: leaves the shell, as `exit` and Ctrl-D do."""
        nothing_more(line)
        return True

    def do_exit(self, line: str) -> bool:
        """exit: leaves the shell, as `quit` and Ctrl-D do."""
        return self.do_quit(line)

    def default(self, line: str) -> None:
        """Refuses a line that begins with no command."""
        word = line.split()[0]
        if word in ELSEWHERE:
            raise Usage(f"`{word}` is for the command line: `{called()} {word} --help`")
        known = [name[3:] for name in self.get_names() if name.startswith("do_")]
        raise Usage(no_command(word, known, "`help`"))

    def emptyline(self) -> bool:
        """Does nothing for an empty line."""
        return False

    def completedefault(self, *ignored: Any) -> List[str]:
        """The words that may be where the cursor is; called with the word, the line, and the word's begin and end."""
        text, line, begin, _ = ignored
        return completions(self.store, line[:begin].split(), text)

    def onecmd(self, line: str) -> bool:
        """Does a line and shows what it returns; whether the shell ends."""
        if line == "EOF":
            return True
        self._busy = True
        self._lines += 1
        try:
            word = line.strip().partition(" ")[0]
            with contextlib.ExitStack() as shown_meanwhile:
                if word not in _WAITING:
                    shown_meanwhile.enter_context(Progress(word))
                answer: Union[str, bool, None] = super().onecmd(line)
        except (JpstoreError, OSError, UnicodeError) as error:
            if isinstance(error, Ended) and self.store.closed:
                raise
            answer, self.failed = None, True
            if self._draft is not None and not self._by_hand:
                # Who types sees what was refused; what is read from a pipe goes on as if it were done.
                self._draft.failed = True
            print(f"{'' if self._by_hand else f'line {self._lines}: '}{shown_error(error)}", file=sys.stderr)
        self._busy = False
        self._show_prompt()
        if isinstance(answer, str) and answer:
            print(answer)
        return answer is True

    def interrupted(self) -> str:
        """Goes on after an interrupt, which ends the session with the store if a command was under way."""
        if not self._busy:
            return ""
        self._busy = False
        if self.store.closed:
            self.store = self._opened()
        return "interrupted; a change that was under way is stored whole, or not at all"


def _only_word(line: str, what: str) -> Optional[str]:
    """The word of a line that has one, or none."""
    if not line.strip():
        return None
    word, rest = word_and_rest(line, what)
    nothing_more(rest)
    return word


def _pointer(rest: str) -> str:
    return _only_word(rest, "POINTER") or ""


def _since(line: str) -> Optional[int]:
    word = _only_word(line, "SINCE")
    return None if word is None else number_of(word, "SINCE")


def _check_no_rev(if_rev: Optional[int]) -> None:
    if if_rev is not None:
        raise Usage("after `begin` there is no `--if-rev`: a transaction asks for the revisions that it has read")


def _noted(draft: Draft) -> str:
    return f"noted, {_counted(draft)}"


def _counted(draft: Draft) -> str:
    count = len(draft.changes)
    return f"{count:,} {'change' if count == 1 else 'changes'}"


def run_shell(opened: Callable[[], Store], title: str) -> int:
    """Reads lines from the terminal, or from standard input that is not one; 1 if one of these was refused."""
    by_hand = sys.stdin.isatty()
    shell = Shell(opened, title, by_hand)
    with _history() if by_hand else contextlib.nullcontext():
        while True:
            try:
                shell.cmdloop()
                break
            except KeyboardInterrupt:
                print("\n" + shell.interrupted())
    shell.leave()
    return int(shell.failed and not by_hand)


@contextlib.contextmanager
def _history() -> Iterator[None]:
    """Greets who types lines, and keeps the lines of this block for the next time."""
    print("A store of JSON documents. `help` lists the commands, Ctrl-D leaves.")
    # A shell without its history is better than none.
    with contextlib.suppress(ImportError, OSError):
        import readline
        # A pointer is one word, with its `/`.
        readline.set_completer_delims(" \t\n")
        readline.read_history_file(_HISTORY)
    yield
    print()
    with contextlib.suppress(ImportError, OSError):
        import readline
        readline.set_history_length(_HISTORY_LINES)
        readline.write_history_file(_HISTORY)
