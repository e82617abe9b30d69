"""The words of a line of the shell: names, pointers, JSON values, files."""
import json
import re
from typing import Any, List, Optional, Tuple

from ..errors import JpstoreError
from ..wire.texts import value_of_text
from .opening import value_in_file

__all__ = [
    "Usage", "flag_and_rest", "if_rev_and_rest", "names_and_file", "nothing_more", "number_of", "option_and_rest",
    "schema_and_doc", "value_in", "value_of", "word_and_rest",
]


class Usage(JpstoreError):
    """A line that the shell does not understand."""


def word_and_rest(line: str, what: str) -> Tuple[str, str]:
    """The first word of a line, in double quotes if it has blanks in it or is empty, and what follows it."""
    line = line.strip()
    if not line:
        raise Usage(f"{what} is missing")
    if not line.startswith('"'):
        word, _, rest = line.partition(" ")
        return word, rest.strip()
    try:
        quoted, end = json.JSONDecoder().raw_decode(line)
    except ValueError:
        raise Usage(f"{what} has no closing quote: {line}") from None
    return quoted, line[end:].strip()


def nothing_more(rest: str) -> None:
    """Refuses a word that no command asks for."""
    if rest.strip():
        raise Usage(f"what is `{rest.strip()}` for?")


def option_and_rest(line: str, option: str) -> Tuple[Optional[str], str]:
    """The value of an option that a line begins with, None if it begins with another word, and what follows."""
    has, rest = flag_and_rest(line, option)
    return word_and_rest(rest, f"the value of {option}") if has else (None, line)


def if_rev_and_rest(line: str) -> Tuple[Optional[int], str]:
    """The number of `--if-rev N`, None if a line does not begin with it, and what follows."""
    word, rest = option_and_rest(line, "--if-rev")
    return None if word is None else number_of(word, "the value of --if-rev"), rest


def flag_and_rest(line: str, flag: str) -> Tuple[bool, str]:
    """Whether a line begins with this word, and what follows it."""
    word, _, rest = line.strip().partition(" ")
    return (True, rest.strip()) if word == flag else (False, line.strip())


def names_and_file(line: str) -> Tuple[List[str], Optional[str]]:
    """The words of `schema`: `NAME .. --to FILE`, or `NAME [FILE]`."""
    words: List[str] = []
    rest = line.strip()
    while rest:
        file, rest = option_and_rest(rest, "--to")
        if file is not None:
            nothing_more(rest)
            return words, file
        word, rest = word_and_rest(rest, "NAME")
        words.append(word)
    if len(words) > 2:
        nothing_more(words[2])
    return words[:1], words[1] if len(words) == 2 else None


def number_of(word: str, what: str) -> int:
    """The number that a word is."""
    if not re.fullmatch("[0-9]{1,20}", word):
        raise Usage(f"{what} is a number, as 41")
    return int(word)


def value_of(text: str, what: str = "VALUE") -> Any:
    """The value of a JSON text."""
    if not text.strip():
        raise Usage(f"{what} is missing")
    try:
        return value_of_text(text)
    except JpstoreError as error:
        late = re.search(r"\s(--[a-z-]+)(\s+\S+)?$", text) if what in ("DOC", "PATCH") else None
        raise Usage(f"`{text}` is {error}" + (f" (`{late.group(1)}` comes before {what})" if late else "")) from None


def value_in(file: str) -> Any:
    """The value of the JSON text in a file."""
    if "\0" in file:
        raise Usage("the name of a file has no NUL")
    return value_in_file(file)


def schema_and_doc(rest: str, without: Any = True) -> Tuple[Any, Any]:
    """The words of `new` and `put`: `[SCHEMA-FILE] DOC` or `[SCHEMA-FILE] < FILE`, and `without` if no file is.

    As on the command line, `--schema FILE` may come before or after DOC.
    """
    has_option, rest = flag_and_rest(rest, "--schema")
    found = None if has_option else re.fullmatch(r"(.*\S)\s+--schema\s+(\S+)", rest)
    if found and _json_or_none(found.group(1)) is not None:
        rest = f"{found.group(2)} {found.group(1)}"
    doc = _json_or_none(rest)
    if doc is not None:
        return without, doc[0]
    found = re.fullmatch(r"(?:(\S+)\s+)?<\s*(\S.*)", rest)
    if found:
        return value_in(found.group(1)) if found.group(1) else without, value_in(found.group(2))
    if rest[:1] in ('{', '[', '"') or " " not in rest:
        return without, value_of(rest, "DOC")
    file, text = word_and_rest(rest, "SCHEMA-FILE")
    return value_in(file), value_of(text, "DOC")


def _json_or_none(text: str) -> Optional[Tuple[Any]]:
    try:
        json.loads(text)
    except (ValueError, RecursionError):
        return None
    return (value_of(text),)
