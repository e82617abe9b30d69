"""The command that was perhaps meant by a word that is none."""
from typing import Iterable, Optional

__all__ = ["nearest", "no_command"]

# What a command is called elsewhere.
_ELSEWHERE = {
    "add": "set", "alter": "patch", "backup": "dump", "batch": "transaction", "begin": "shell", "cp": "copy",
    "create": "new", "del": "rm", "delete": "rm", "dir": "ls", "edit": "set", "enlarge": "grow", "export": "dump",
    "import": "load", "info": "status", "init": "format", "insert": "new", "jsonpath": "find", "keys": "ls",
    "list": "ls", "listen": "hub", "make": "new", "migrate": "upgrade", "mkfs": "format", "names": "ls",
    "query": "find", "read": "get", "remove": "rm", "replace": "put", "repl": "shell", "resize": "grow",
    "restore": "load", "revision": "rev", "search": "find", "select": "find", "serve": "hub", "server": "hub",
    "show": "get", "stat": "status", "stats": "status", "subscribe": "watch", "tail": "watch", "update": "patch",
    "upsert": "put", "validate": "check", "verify": "check", "web": "http", "write": "set",
}


def nearest(word: str, known: Iterable[str]) -> Optional[str]:
    """The known command that is written or meant most nearly so; None if there is none."""
    names = list(known)
    lower = word.lower()
    if _ELSEWHERE.get(lower) in names:
        return _ELSEWHERE[lower]
    import difflib
    found = difflib.get_close_matches(lower, names, 1, 0.6)
    return found[0] if found else None


def no_command(word: str, known: Iterable[str], help_word: str) -> str:
    """What is said of a word that is no command."""
    meant = nearest(word, known)
    return f"no command is called {word}{f'; did you mean {meant}?' if meant else ''} ({help_word} lists them)"
