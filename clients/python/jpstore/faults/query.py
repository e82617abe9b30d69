"""Where a text is not a JSONPath query that the store reads (50, 51): a reader of RFC 9535 that tells the place."""
import re
from typing import List, NamedTuple, Optional, Pattern

__all__ = ["QueryFault", "fault_of_query"]

_LEAST, _MOST = -(1 << 63), (1 << 63) - 1
# An index counts within what every JSON number keeps (RFC 9535, section 2.1).
_MOST_INDEX = (1 << 53) - 1

_BLANKS = re.compile(r"[ \t\n\r]*")
_SEGMENT = re.compile(r"[ \t\n\r]*(\.\.\[|\.\.|\.|\[)")
_NAME = re.compile(r"[A-Za-z_\u0080-\U0010ffff][A-Za-z0-9_\u0080-\U0010ffff]*")
# A number, or a slice by its colon.
_SLICE = re.compile("(-?[0-9]+)?(?:{0}(:){0}(-?[0-9]+)?(?:{0}:{0}(-?[0-9]+)?)?)?".format(_BLANKS.pattern))
_NUMBER = re.compile(r"(?:-?0|-?[1-9][0-9]*)(\.[0-9]+)?([eE][-+]?[0-9]+)?")
_TEXT = re.compile(r"""'(?:[^'\\\x00-\x1f]|\\(?:[bfnrt/\\']|u[0-9A-Fa-f]{4}))*'|"""
                   r'''"(?:[^"\\\x00-\x1f]|\\(?:[bfnrt/\\"]|u[0-9A-Fa-f]{4}))*"''')
_WORD = re.compile(r"(?:true|false|null)(?![a-z0-9_(])")
_CALL = re.compile(r"([a-z][a-z0-9_]*)\(")
_COMPARISONS = ("==", "!=", "<=", ">=", "<", ">")
# The functions, and how many arguments each has.
_FUNCTIONS = {"length": 1, "count": 1, "value": 1, "match": 2, "search": 2}


class QueryFault(NamedTuple):
    """Why a query is refused: the number, the place of the character, counted from 0, and what is wrong."""

    number: int
    place: int
    message: str


class _Stopped(Exception):
    """The query is not one from this character on."""


def fault_of_query(query: str) -> Optional[QueryFault]:
    """The first fault of a query; None if this reader finds none."""
    reader = _Reader(query)
    try:
        reader.read()
    except _Stopped as stopped:
        place, message = stopped.args
        return QueryFault(50, place, message)
    except RecursionError:
        return None
    return reader.left_out


class _Reader:
    """Reads a query from its begin to its end. Each method reads what its name says, or stops at what is none."""

    def __init__(self, query: str) -> None:
        self._query, self._at = query, 0
        #: The first thing that is a query, and that the store leaves out.
        self.left_out: Optional[QueryFault] = None

    def read(self) -> None:
        """Reads the whole query."""
        if self._query[:1].isspace() or self._query[-1:].isspace():
            begins = self._query[:1].isspace()
            raise _Stopped(0 if begins else len(self._query) - 1, f"it {'begins' if begins else 'ends'} with a blank")
        if not self._query.startswith("$"):
            raise _Stopped(0, "a query begins with `$`, which is the document")
        self._at = 1
        self._segments()
        if self._at < len(self._query):
            self._stop("a segment begins with `.` or `[`")

    def _stop(self, message: str) -> None:
        raise _Stopped(self._at, message)

    def _looking_at(self, *texts: str) -> bool:
        return self._query.startswith(texts, self._at)

    def _take(self, *texts: str) -> bool:
        """Reads the first of these texts that is here; whether there is one."""
        text = next(filter(self._looking_at, texts), None)
        self._at += len(text or "")
        return text is not None

    def _match(self, pattern: Pattern[str]) -> Optional[str]:
        found = pattern.match(self._query, self._at)
        if found is None:
            return None
        self._at = found.end()
        return found.group()

    def _blanks(self) -> bool:
        """Reads blanks; whether there are any."""
        return bool(self._match(_BLANKS))

    def _after_blanks(self, *texts: str) -> bool:
        """Reads blanks and then one of these texts, or nothing; whether there is one."""
        before = self._at
        self._blanks()
        is_there = self._take(*texts)
        self._at = self._at if is_there else before
        return is_there

    def _need(self, text: str, message: str) -> None:
        if not self._take(text):
            self._stop(message)

    def _segments(self) -> bool:
        """Reads segments; whether they lead to one value at most."""
        is_singular = True
        while True:
            begin = (self._match(_SEGMENT) or "").lstrip()
            if not begin:
                return is_singular
            selects_one = self._selectors() if begin.endswith("[") else self._after_dots()
            is_singular = is_singular and selects_one and not begin.startswith("..")

    def _after_dots(self) -> bool:
        if self._take("*"):
            return False
        if self._match(_NAME) is None:
            self._stop("after a dot comes a name of letters, digits and `_`, or `*`; write any other name as ['name']")
        return True

    def _selectors(self) -> bool:
        # Blanks in its brackets make a query one that can't be compared, by the grammar of the standard.
        is_first = True
        while True:
            begins_at_once = not self._blanks()
            is_singular = self._selector() and begins_at_once and is_first
            is_first = False
            ends_at_once = not self._blanks()
            if self._take("]"):
                return is_singular and ends_at_once
            self._need(",", "`,` or `]` is missing here")

    def _selector(self) -> bool:
        if self._looking_at("'", '"'):
            self._text()
            return True
        if self._take("*"):
            return False
        if self._take("?"):
            self._blanks()
            self._tests()
            return False
        found = _SLICE.match(self._query, self._at)
        if not found or not found.group():
            self._stop("in brackets is a name in quotes, a number, a slice, `*`, or `?` with a filter")
            return False
        for group in (1, 3, 4):
            _check_index(found.start(group), found[group] or "0")
        self._at = found.end()
        return found[2] is None

    def _text(self) -> None:
        if self._match(_TEXT) is None:
            self._stop("this text in quotes has no end, or a character or an escape that is not allowed")

    def _tests(self) -> None:
        """Reads tests that `&&` and `||` join."""
        self._basic()
        while self._after_blanks("&&", "||"):
            self._blanks()
            self._basic()

    def _basic(self) -> None:
        negated = self._take("!")
        if negated:
            self._blanks()
        if self._take("("):
            self._blanks()
            self._tests()
            self._blanks()
            self._need(")", "`)` is missing here")
            return
        begin = self._at
        kind = self._operand()
        if self._after_blanks(*_COMPARISONS):
            if negated:
                raise _Stopped(begin, "what `!` negates is in parentheses, if it is a comparison")
            _check_compared(begin, kind)
            self._blanks()
            begin = self._at
            _check_compared(begin, self._operand())
        elif self._after_blanks("="):
            raise _Stopped(self._at - 1, "one `=` compares nothing: write `==`")
        elif kind in ("literal", "length", "count", "value"):
            raise _Stopped(begin, "a value by itself tests nothing: compare it, as by `==`")

    def _operand(self) -> str:
        """Reads a query, a literal or a call; what it is."""
        if self._take("$", "@"):
            return "value of a query" if self._segments() else "nodes"
        if self._looking_at("'", '"'):
            self._text()
            return "literal"
        return "literal" if self._match(_WORD) is not None or self._number() else self._call()

    def _number(self) -> bool:
        begin = self._at
        found = _NUMBER.match(self._query, begin)
        if found is None:
            return False
        self._at = found.end()
        if self._looking_at(*"0123456789"):
            raise _Stopped(begin, "a number has no leading zeros")
        is_whole = found[1] is None and found[2] is None
        if not is_whole or not _LEAST <= int(found[0][:21]) <= _MOST:
            self._leave_out(begin, f"`{found[0][:30]}` is not a 64-bit whole number")
        return True

    def _leave_out(self, place: int, message: str) -> None:
        self.left_out = self.left_out or QueryFault(51, place, message)

    def _call(self) -> str:
        begin = self._at
        found = self._match(_CALL)
        name = found[:-1] if found else ""
        if name not in _FUNCTIONS:
            raise _Stopped(begin, f"no function is called `{name}`: there are {', '.join(_FUNCTIONS)}" if name else
                           "here a query that begins with `@` or `$`, a value, or a function is needed; a text is in "
                           "quotes")
        if name in ("match", "search"):
            self._leave_out(begin, f"`{name}` is not supported: compare with `==`, or match in your own program")
        arguments: List[str] = []
        while not arguments or self._take(","):
            self._blanks()
            place = self._at
            arguments.append(self._argument(place, name))
            self._blanks()
        self._need(")", "`)` is missing here")
        wanted = _FUNCTIONS[name]
        if len(arguments) != wanted:
            raise _Stopped(begin, f"`{name}` has {wanted} argument{'s' if wanted > 1 else ''}")
        return name

    def _argument(self, place: int, name: str) -> str:
        kind = self._operand()
        if name in ("count", "value"):
            if kind not in ("nodes", "value of a query"):
                raise _Stopped(place, f"`{name}` needs a query")
        elif kind in ("nodes", "match", "search"):
            raise _Stopped(place, f"`{name}` needs a value, or a query that leads to one at most")
        return kind


def _check_index(place: int, index: str) -> None:
    if re.fullmatch("0|-?[1-9][0-9]*", index) is None:
        raise _Stopped(place, "an index has no leading zeros")
    if abs(int(index[:20])) > _MOST_INDEX:
        raise _Stopped(place, "an index is within -(2^53)+1 to 2^53-1")


def _check_compared(place: int, kind: str) -> None:
    if kind == "nodes":
        raise _Stopped(place, "only a query that leads to one value can be compared: without `*`, `..`, slices, "
                              "filters and several selectors")
    if kind in ("match", "search"):
        raise _Stopped(place, f"`{kind}` is true or false by itself, and can't be compared")
