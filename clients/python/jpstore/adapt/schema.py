"""The translation of a schema into one that the store reads, with a word for each thing that it changes or can't keep.

Drafts 3 to 7 and 2019-09 become 2020-12, what references lead to comes under `$defs` of the root, and fractions become
what they ask of whole numbers. Nothing is lost in silence: what means something else is in `changes`, and what the
store does not read stays as it is and is in `left`.
"""
import re
from dataclasses import dataclass
from typing import Any, Collection, Dict, List, NamedTuple, Optional, Set, Tuple

from ..faults.positions import subschemas
from ..faults.references import References, reference_to
from ..faults.schema import DIALECT, SchemaFault, faults_of_schema, told_pattern
from ..faults.words import pointer_of
from ..patterns import NoPattern, read_ecma, written
from ..wire.values import escaped
from .documents import At, Documents, Read, Tokens
from .keywords import TRANSLATED, Part, free_name, has_unsendable, unknown_in

__all__ = ["Adapted", "Change", "Schema", "Work"]

# What is kept beside a reference, which earlier drafts ignore the rest of.
_BESIDE_REFERENCE = ("$ref", "title", "description", "$comment", "default", "$schema", "$id", "id", "definitions")

_NO_NAME = re.compile(r"[^A-Za-z0-9_.-]+")


class Change(NamedTuple):
    """What was changed at a place of the schema that was given, and does not say the same by itself."""

    place: str
    message: str

    def __str__(self) -> str:
        return f"at `{self.place or '/'}`: {self.message}"


@dataclass(frozen=True)
class Adapted:
    """A schema that was adapted, what was changed in it, and what the store does not read of it, by places in it."""

    schema: Any
    changes: List[Change]
    left: List[SchemaFault]

    @property
    def is_read(self) -> bool:
        """Whether the store reads it."""
        return not self.left


class Schema:
    """What can be done with a schema by itself."""

    @staticmethod
    def faults(schema: Any, *, profile: int = 3) -> List[SchemaFault]:
        """Each reason why the store does not read a schema, with its place; none if it reads it.

        The profile is 3, or 2 for a store of format 2, which reads no patterns.
        """
        return list(faults_of_schema(schema, profile))

    @staticmethod
    def adapt(schema: Any, *, drop: Collection[str] = (), read: Optional[Read] = None, profile: int = 3) -> Adapted:
        """A schema of an earlier draft, or with references to others, as one that the store reads.

        `drop` are keywords to leave out where the store does not read them; the result's `$comment` says so. `read` is
        called with the URI of each document that a reference leads to, and returns its schema or None. In profile 3
        references to any place are kept, and patterns, rewritten so that they mean in the store what ECMA-262 says.
        """
        work = Work(schema, drop, read, profile)
        made = work.translated(work.documents.first, schema)
        made = work.finished(made)
        return Adapted(made, work.changes, work.all_left(made))


class Work:
    """A translation that is under way."""

    def __init__(self, schema: Any, drop: Collection[str], read: Optional[Read], profile: int) -> None:
        self.documents = Documents(schema, read)
        self.drop = frozenset(drop)
        self.profile = profile
        self.changes: List[Change] = []
        # The patterns that can't be rewritten: the schema made, the way from it, and why.
        self._unwritten: List[Tuple[Dict[str, Any], Tokens, str]] = []
        self._dropped: Dict[str, int] = {}
        # The names of what references lead to, by its place, and what is still to be translated.
        self._names: Dict[Tuple[str, Tokens], str] = {}
        self._waiting: List[Tuple[str, At, Any]] = []
        # In profile 3 what each place has become, and the schemas with references, with what these lead to.
        self._made: Dict[Tuple[str, Tokens], Dict[str, Any]] = {}
        self._references: List[Tuple[Dict[str, Any], At, Any]] = []
        #: The anchors that are kept.
        self.anchors: Set[str] = set()

    def note(self, at: At, message: str) -> None:
        """Notes that something is not as it was."""
        self.changes.append(Change(at.pointer, message))

    def rewritten(self, at: At, pattern: str, out: Dict[str, Any], way: Tokens) -> str:
        """A pattern of ECMA-262 in the store's dialect; as it is where that can't be, which is left."""
        try:
            read = read_ecma(pattern)
        except NoPattern as none:
            self._unwritten.append((out, way, told_pattern(pattern, none)))
            return pattern
        for note in read.notes:
            self.note(at, note)
        return written(read.tokens)

    def all_left(self, made: Any) -> List[SchemaFault]:
        """What the store does not read of the schema that was made, or would read in another way."""
        places = {id(part): trail for trail, part in subschemas(made, self.profile) if self._unwritten}
        found = {}
        for out, way, message in self._unwritten:
            if id(out) in places:
                place = pointer_of(places[id(out)]) + "".join("/" + escaped(token) for token in way)
                found[place] = SchemaFault(40, place, message)
        others = [fault for fault in faults_of_schema(made, self.profile) if fault.place not in found]
        return [*found.values(), *others]

    def translated(self, at: At, schema: Any) -> Any:
        """A schema of 2020-12 that says the same."""
        if not isinstance(schema, dict):
            return schema
        at = at.inside(schema)
        schema = self._without_siblings(at, schema)
        out: Dict[str, Any] = {}
        self._made.setdefault((at.document, at.tokens), out)
        for word, value in schema.items():
            self._member(at, schema, word, value, out)
        return out

    def _without_siblings(self, at: At, schema: Dict[str, Any]) -> Dict[str, Any]:
        if at.draft > 7 or not isinstance(schema.get("$ref"), str):
            return schema
        ignored = [word for word in schema if word not in _BESIDE_REFERENCE]
        if ignored:
            words = ", ".join(f"`{word}`" for word in ignored)
            self.note(at, f"{words} beside `$ref` had no effect in the draft, and is left out")
        return {word: value for word, value in schema.items() if word in _BESIDE_REFERENCE}

    def _member(self, at: At, schema: Dict[str, Any], word: str, value: Any, out: Dict[str, Any]) -> None:
        if word in self.drop and word in TRANSLATED:
            self.dropped(at, word)
        elif unknown_in(at.draft, word):
            self.note(at.below(word), f"`{word}` is no keyword of the draft and had no effect, so it is left out")
        elif word in TRANSLATED:
            TRANSLATED[word](Part(self, at, schema, out), word, value)
        elif has_unsendable(value):
            self.note(at.below(word), f"`{word}` has a fraction or a number beyond 64 bits, which a store can't keep; "
                                      "it asserts nothing, and is left out")
        else:
            out[word] = value

    def dropped(self, at: At, word: str) -> None:
        """Notes that a keyword is left out as was asked for."""
        self._dropped[word] = self._dropped.get(word, 0) + 1
        self.note(at.below(word), f"`{word}` is left out, as asked: it is not checked any more")

    def name_of(self, at: At, schema: Any) -> str:
        """The reference to a schema, which comes under `$defs`; `#` for the whole one."""
        key = at.document, at.tokens
        if key == ("", ()):
            return "#"
        if key not in self._names:
            name = free_name(_own_name(at), set(self._names.values()))
            self._names[key] = name
            self._waiting.append((name, at, schema))
        return f"#/$defs/{self._names[key]}"

    def refers(self, out: Dict[str, Any], at: At, schema: Any) -> None:
        """Notes what the reference of a schema leads to; how it is written is known when all is translated."""
        self._references.append((out, at, schema))

    def finished(self, made: Any) -> Any:
        """The whole schema, with all that references lead to."""
        defs: Dict[str, Any] = {}
        while self._waiting:
            name, at, schema = self._waiting.pop(0)
            defs[name] = self.translated(at, schema)
            defs[name].pop("$schema", None) if isinstance(defs[name], dict) else None
        if not isinstance(made, dict):
            return made
        if self._references:
            self._bundle(made)
            self._write_references(made)
        if "$schema" in made:
            made["$schema"] = DIALECT
        if self._dropped:
            counts = ", ".join(f"{word} ({count})" for word, count in sorted(self._dropped.items()))
            before = made.get("$comment")
            made["$comment"] = f"{before}; " * isinstance(before, str) + f"left out for jpstore: {counts}"
        if defs:
            made["$defs"] = defs
        return made

    def _bundle(self, made: Dict[str, Any]) -> None:
        """Brings under `$defs` what references lead to and is no part of the schema yet."""
        known = {id(part) for _, part in subschemas(made, 3) if isinstance(part, dict)}
        # It grows meanwhile: what is brought may have references.
        for out, at, schema in self._references:
            key = at.document, at.tokens
            if key in self._names or id(self._made.get(key)) in known or _is_same(made, out, schema):
                continue
            defs = made.setdefault("$defs", {})
            self._names[key] = free_name(_own_name(at), defs)
            part = defs[self._names[key]] = self.translated(at, schema)
            if isinstance(part, dict):
                part.pop("$schema", None)
                self._made[key] = part
                known.update(id(inner) for _, inner in subschemas(part, 3))

    def _write_references(self, made: Dict[str, Any]) -> None:
        """Writes each reference that doesn't lead, as it is, to what its target has become."""
        places = {id(part): trail for trail, part in subschemas(made, 3) if isinstance(part, dict)}
        references = References(made, 3)
        for out, at, _ in self._references:
            key = at.document, at.tokens
            part, found = self._made.get(key), references.target(out["$ref"])
            if id(part) in places and (found is None or found[1] is not part):
                out["$ref"] = reference_to(places[id(part)])
            elif part is None and key in self._names:
                out["$ref"] = reference_to((((), "$defs"), self._names[key]))


def _is_same(made: Dict[str, Any], out: Dict[str, Any], schema: Any) -> bool:
    """Whether a reference to true or false leads to one as it is."""
    found = References(made, 3).target(out["$ref"]) if isinstance(schema, bool) else None
    return found is not None and found[1] is schema


def _own_name(at: At) -> str:
    own = at.tokens[-1] if at.tokens else re.sub(r"\.json$", "", at.document.rpartition("/")[2])
    return _NO_NAME.sub("_", str(own)) or "schema"
