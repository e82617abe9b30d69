"""What the references of a schema lead to, and whether one leads back to itself without a step into the value."""
import re
from typing import Any, Dict, Iterator, List, Optional, Set, Tuple
from urllib.parse import quote, unquote_to_bytes

from ..wire.values import escaped
from .positions import IN_PLACE, below, step, subschemas
from .words import Trail, nearest, place_in, pointer_of, shown

__all__ = ["References", "is_anchor", "reference_to"]

# All that profile 2 reads, but for the whole schema.
_REFERENCE = re.compile(r"#/\$defs/[A-Za-z0-9_.-]+")

# The name of a schema (JSON Schema Core, section 8.2.2).
_ANCHOR = re.compile("[A-Za-z_][-A-Za-z0-9._]*")

# A `~` that is no part of an escape (RFC 6901, section 3).
_BARE_TILDE = re.compile("~(?![01])")

# What a fragment has unescaped, beside letters and digits (RFC 3986, section 3.5).
_IN_FRAGMENTS = "/?:@!$&'()*+,;=-._~"

_Place = Tuple[Trail, Any]


def reference_to(trail: Trail) -> str:
    """The reference to the schema at this place."""
    return "#" + quote(pointer_of(trail), safe=_IN_FRAGMENTS)


def is_anchor(value: Any) -> bool:
    """Whether a schema may have this name by `$anchor`."""
    return isinstance(value, str) and _ANCHOR.fullmatch(value) is not None


def _tokens_of(pointer: Optional[str]) -> Optional[List[str]]:
    """The tokens of a JSON Pointer (RFC 6901); None if it is none."""
    if pointer is None or pointer[:1] not in ("", "/") or _BARE_TILDE.search(pointer):
        return None
    return [token.replace("~1", "/").replace("~0", "~") for token in pointer.split("/")[1:]]


class References:
    """The references of a whole schema, in a profile."""

    def __init__(self, root: Any, profile: int) -> None:
        self._root, self._profile = root, profile
        self._defs: Any = root.get("$defs") if isinstance(root, dict) else None
        self._known: Dict[str, Optional[_Place]] = {}
        self._anchors: Optional[Dict[str, _Place]] = None

    def target(self, reference: str) -> Optional[_Place]:
        """The schema that a reference leads to in the profile, with its place; None if it leads to none."""
        if reference not in self._known:
            self._known[reference] = self._target(reference)
        return self._known[reference]

    def _target(self, reference: str) -> Optional[_Place]:
        is_read = self._profile > 2 or reference == "#" or _REFERENCE.fullmatch(reference)
        return self._in_profile_3(reference) if is_read else None

    def _in_profile_3(self, reference: str) -> Optional[_Place]:
        fragment = self._fragment(reference)
        if fragment and not fragment.startswith("/"):
            return self.anchors().get(fragment)
        tokens = _tokens_of(fragment)
        trail, part, rest = self._walked(tokens or [])
        return None if rest or tokens is None else (trail, part)

    def _fragment(self, reference: str) -> Optional[str]:
        """What follows the `#` of a reference into this schema, without its escapes; None if it is none."""
        identity = self._root.get("$id") if isinstance(self._root, dict) else None
        if reference[:1] not in ("", "#") and isinstance(identity, str):
            front = identity[:-1] if identity.endswith("#") else identity
            if reference.startswith(front):
                reference = reference[len(front):]
        if reference[:1] not in ("", "#"):
            return None
        try:
            return unquote_to_bytes(reference[1:]).decode()
        except UnicodeError:
            return None

    def _walked(self, tokens: List[str]) -> Tuple[Trail, Any, List[str]]:
        """The last schema that the tokens of a pointer lead to, its way, and the tokens that are left."""
        trail: Trail = ()
        part = self._root
        while tokens:
            before = len(tokens)
            trail, part, tokens = step(trail, part, tokens)
            if len(tokens) == before:
                break
        return trail, part, tokens

    def anchors(self) -> Dict[str, _Place]:
        """The first schema that has each anchor, with its place."""
        if self._anchors is None:
            self._anchors = {}
            for trail, part in subschemas(self._root, 3):
                if isinstance(part, dict) and isinstance(part.get("$anchor"), str):
                    self._anchors.setdefault(part["$anchor"], (trail, part))
        return self._anchors

    def dangling(self, reference: str, adapted: str) -> str:
        """Why a reference leads to no schema, and what is nearest to it."""
        if self._profile == 2 and self._in_profile_3(reference) is not None:
            return (f"{shown(reference)} needs a store of format 3; in format 2 put that schema under `$defs` of the "
                    "root, by a name of letters, digits, `_`, `-` and `.`")
        names = self._names()
        last = reference.rpartition("/")[2]
        said = f"{shown(reference)} leads to no schema"
        if last in names:
            return f"{said}: write `{reference_to((((), '$defs'), last))}`"
        near = nearest(last, names)
        if near is not None:
            return f"{said}: perhaps `{reference_to((((), '$defs'), near))}` is meant"
        if self._fragment(reference) is None and not reference.startswith("#"):
            return f"{said} in this one: put that schema under `$defs` of the root, as {adapted} does with files"
        if self._profile == 2:
            return f"{said}: put that schema under `$defs` of the root, by a name of letters, digits, `_`, `-` and `.`"
        return f"{said}: {self._missing(self._fragment(reference), adapted)}"

    def _names(self) -> List[str]:
        """The definitions of the root that a reference may name."""
        names = [name for name in self._defs if isinstance(name, str)] if isinstance(self._defs, dict) else []
        return [name for name in names if self._profile > 2 or _REFERENCE.fullmatch("#/$defs/" + name)]

    def _missing(self, fragment: Optional[str], adapted: str) -> str:
        """What a fragment doesn't find."""
        if fragment is None:
            return "what it writes by `%` is no text in UTF-8"
        if fragment and not fragment.startswith("/"):
            near = nearest(fragment, self.anchors())
            return f"perhaps `#{near}` is meant" if near else "none has this `$anchor`, and `#/` begins the way to one"
        tokens = _tokens_of(fragment)
        if tokens is None:
            return "in a name `~0` means `~`, and `~1` means `/`"
        trail, _, rest = self._walked(tokens)
        at = f"the one at {place_in(pointer_of(trail))}" if trail else "the root"
        way = place_in("".join("/" + escaped(token) for token in rest))
        return f"{at} has none at {way}; put that schema under `$defs` of the root, as {adapted} does"

    # ---- loops

    def loop(self) -> List[Trail]:
        """A way that leads from a schema back to it for the same value; empty if there is none."""
        done: Set[int] = set()
        loops = (self._loop_from(*place, done) for place in subschemas(self._root, self._profile)
                 if id(place[1]) not in done)
        return next(filter(None, loops), [])

    def _loop_from(self, trail: Trail, part: Any, done: Set[int]) -> List[Trail]:
        # A search in depth by hand: references may lead further than calls may go.
        way = [(trail, part, iter(self._in_place(trail, part)))]
        places = {id(part): 0}
        while way:
            _, at, following = way[-1]
            found = next(following, None)
            if found is None:
                way.pop()
                done.add(id(at))
                del places[id(at)]
            elif id(found[1]) in places:
                return [each for each, _, _ in way[places[id(found[1])]:]]
            elif id(found[1]) not in done:
                places[id(found[1])] = len(way)
                way.append((*found, iter(self._in_place(*found))))
        return []

    def _in_place(self, trail: Trail, part: Any) -> List[_Place]:
        """The schemas that are asked of the same value, each with its place."""
        # True and false are one object each wherever they are, and lead nowhere.
        return [each for each in self._asked(trail, part) if isinstance(each[1], dict)]

    def _asked(self, trail: Trail, part: Any) -> Iterator[_Place]:
        if not isinstance(part, dict):
            return
        for word in IN_PLACE:
            if word in part:
                yield from below(trail, word, part[word], self._profile)
        reference = part.get("$ref")
        target = self.target(reference) if isinstance(reference, str) else None
        if target is not None:
            yield target
