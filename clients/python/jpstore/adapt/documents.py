"""The documents that schemas are in, and what a reference leads to in them (JSON Schema Core, sections 8.2 and 9)."""
import re
from functools import reduce
from operator import getitem
from typing import Any, Callable, Dict, Iterator, List, NamedTuple, Optional, Tuple
from urllib.parse import unquote, urldefrag, urljoin

from ..wire.values import escaped

__all__ = ["At", "Documents", "Tokens", "draft_of"]

#: The names and indexes that lead to a value from the root of its document.
Tokens = Tuple[Any, ...]

#: Reads the document that a URI names; None if it is not to be had.
Read = Callable[[str], Any]

# The words of later drafts, by which a schema that names none is of 2020-12.
_LATER = re.compile(r"\$defs|prefixItems|dependentRequired|dependentSchemas|unevaluated(?:Items|Properties)|"
                    r"\$anchor|\$dynamic(?:Ref|Anchor)|m(?:in|ax)Contains")
_NAMED = re.compile(r"draft-0([3-7])|(2019-09|2020-12)")
_VALUES = ("enum", "const", "default", "examples", "example")


class At(NamedTuple):
    """The place of a schema: its document, the way to it, the URI that references are relative to, and the draft."""

    document: str
    tokens: Tokens
    base: str
    draft: int

    @property
    def pointer(self) -> str:
        """The place as a JSON Pointer, with the document if that is not the first one."""
        return self.document + "".join("/" + escaped(str(token)) for token in self.tokens)

    def below(self, *tokens: Any) -> "At":
        """The place of what is so far in it."""
        return self._replace(tokens=self.tokens + tokens)

    def inside(self, schema: Any) -> "At":
        """The same place, with the URI that the schema has of its own."""
        found = _identity(schema, self.draft)
        return self if found is None or found.startswith("#") else self._replace(base=urljoin(self.base, found))


def draft_of(schema: Any) -> int:
    """The draft that a schema is of: 3 to 7, 2019 or 2020. One that names none is of 7, unless it has later words."""
    named = schema.get("$schema") if isinstance(schema, dict) else None
    found = _NAMED.search(named) if isinstance(named, str) else None
    if found is not None:
        return int(found[1] or found[2][:4])
    return 2020 if any(_LATER.fullmatch(word) for part in _parts(schema) for word in part) else 7


def _parts(value: Any) -> Iterator[Dict[str, Any]]:
    """Each object in a value, but for those in values that are no schemas."""
    waiting = [value]
    while waiting:
        part = waiting.pop()
        if isinstance(part, dict):
            yield part
            waiting.extend(inner for word, inner in part.items() if word not in _VALUES)
        elif isinstance(part, list):
            waiting.extend(part)


def _identity(schema: Any, draft: int) -> Optional[str]:
    found = schema.get("$id" if draft > 4 else "id") if isinstance(schema, dict) else None
    return found if isinstance(found, str) else None


class Documents:
    """The documents by URI; the first has the empty one beside its own."""

    def __init__(self, root: Any, read: Optional[Read]) -> None:
        self._read = read
        self._roots: Dict[str, Any] = {}
        # What has an identity or an anchor of its own, by document and URI.
        self._places: Dict[str, At] = {}
        self.first = self._added("", root, draft_of(root))

    def _added(self, uri: str, root: Any, draft: int) -> At:
        self._roots[uri] = root
        at = At(uri, (), uri, draft)
        self._places.setdefault(uri, at)
        waiting: List[Tuple[At, Any]] = [(at, root)]
        while waiting:
            place, part = waiting.pop()
            if isinstance(part, dict):
                place = self._noted(place, part)
                waiting.extend((place.below(word), inner) for word, inner in part.items() if word not in _VALUES)
            elif isinstance(part, list):
                waiting.extend((place.below(index), inner) for index, inner in enumerate(part))
        return at

    def _noted(self, place: At, part: Dict[str, Any]) -> At:
        found = _identity(part, place.draft)
        inside = place.inside(part)
        if found is not None:
            self._places.setdefault(urljoin(place.base, found).rstrip("#"), inside)
        for word in ("$anchor", "$dynamicAnchor"):
            if isinstance(part.get(word), str):
                self._places.setdefault(f"{inside.base}#{part[word]}", inside)
        return inside

    def anchors(self, name: str) -> List[At]:
        """The places that have this anchor, in all documents that were read."""
        return [at for uri, at in self._places.items() if uri.endswith(f"#{name}")]

    def target(self, at: At, reference: str) -> Optional[Tuple[At, Any]]:
        """The place and the schema that a reference leads to; None if it leads to none that is to be had."""
        uri, fragment = urldefrag(urljoin(at.base, reference))
        if not uri and not at.base:
            uri = at.document
        begin = self._places.get(uri) or self._read_in(uri, at.draft)
        if begin is None:
            return None
        if fragment and not fragment.startswith("/"):
            named = self._places.get(f"{begin.base}#{fragment}") or self._places.get(f"{uri}#{fragment}")
            return None if named is None else (named, self._value(named))
        return self._walked(begin, unquote(fragment))

    def _read_in(self, uri: str, draft: int) -> Optional[At]:
        root = self._read(uri) if self._read is not None and uri else None
        if root is None:
            return None
        declares = isinstance(root, dict) and isinstance(root.get("$schema"), str)
        return self._added(uri, root, draft_of(root) if declares else draft)

    def _value(self, at: At) -> Any:
        return reduce(getitem, at.tokens, self._roots[at.document])

    def _walked(self, at: At, pointer: str) -> Optional[Tuple[At, Any]]:
        value = self._value(at)
        for text in pointer.split("/")[1:]:
            token: Any = text.replace("~1", "/").replace("~0", "~")
            if isinstance(value, list) and token.isdigit() and int(token) < len(value):
                token = int(token)
            elif not isinstance(value, dict) or token not in value:
                return None
            value = value[token]
            at = at.below(token).inside(value)
        return at, value
