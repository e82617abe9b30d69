"""The tables of the protocol, written by tools/protocol.py from docs/protocol.toml.

They have its refusals, its commands, and the keywords of schemas.
"""
from typing import Dict, NamedTuple, Optional, Tuple

__all__ = [
    "ALREADY_A_STORE", "BROKEN", "COMMAND", "COMMANDS", "CUT_OFF", "DAMAGED", "DEPTH", "DEVICE", "EARLIER", "ELSEWHERE",
    "EXISTS", "FULL", "GONE", "INVALID", "KEYWORDS", "LINE_TOO_LONG", "MARK", "MEMORY", "NAME", "NEWER_SCHEMA",
    "NOT_A_STORE", "NOT_GROWN", "NOT_JSON", "NO_DOCUMENT", "NO_MAJORITY", "NO_ROOM", "NO_VALUE", "NUMBER",
    "OWN_REFUSALS", "PATCH_INTO_ITSELF", "PATCH_LONG", "PATCH_MISSING", "PATCH_POINTER", "PATCH_ROOT", "PATCH_SHAPE",
    "PATCH_TEST", "PATH", "PATH_LEFT_OUT", "PATH_LONG", "PATH_NODES", "POINTER", "REFUSALS", "REPLY_LONG", "REVISION",
    "SCHEMA_FORM", "SCHEMA_KEYWORD", "SCHEMA_LOOP", "SCHEMA_REF", "SCHEMA_SIZE", "SEQ_END", "SMALL", "TOO_LARGE",
    "TOO_MANY", "TRANSACTION_LARGE", "WATCHING", "Command", "Keyword", "Member",
]


class Member(NamedTuple):
    """What the value of a member is, the most that a number may be, and whether the member may be left out."""

    kind: str
    most: Optional[int] = None
    optional: bool = False


class Command(NamedTuple):
    """What a command asks for, and its members."""

    kind: str
    members: Dict[str, Member]


class Keyword(NamedTuple):
    """How the value of a keyword holds schemas, and the first format that reads it.

    `refused` ones are refused by each format, and those of no format have no effect. `instead` is what is nearest to a
    keyword that a format refuses, and one `in_place` leads to a schema for the same value.
    """

    holds: str = ""
    format: Optional[int] = None
    refused: bool = False
    instead: str = ""
    in_place: bool = False


#: The number, name, family, meaning and advice of each refusal.
REFUSALS: Tuple[Tuple[int, str, str, str, str], ...] = (
    (10, "line-too-long", "TooLarge",
     "the line has over 1,048,576 bytes",
     "send a smaller document, or make it by several patches"),
    (11, "not-json", "Malformed",
     "this is not a JSON text in UTF-8, or nests deeper than 127 levels",
     "correct the text; a JSON parser tells the place"),
    (12, "number", "Malformed",
     "the text has a number that is not a 64-bit whole number, such as `1.5`",
     "send whole numbers, or a text"),
    (13, "depth", "TooLarge",
     "the document would nest deeper than 64 levels",
     "make the document flatter"),
    (14, "command", "Malformed",
     "no command has this form: a member is missing, unknown, or has a wrong value",
     "compare with the command in `docs/use/PROTOCOL.md`; `create` needs `schema` too"),
    (15, "name", "Malformed",
     "the name is not 1 to 64 of the allowed characters",
     "use the letters A to Z and a to z, digits, `.`, `_` and `-`"),
    (20, "exists", "Conflict",
     "a document of that name exists already",
     "choose another name, or patch the document that exists"),
    (21, "no-document", "NotFound",
     "no document has that name",
     "list the names, and compare"),
    (22, "too-many", "TooLarge",
     "the store has 1,024 documents already, or 65,536 in format 3",
     "delete one, join several in one document, or bring a store in format 2 to format 3 by `upgrade`"),
    (23, "too-large", "TooLarge",
     "the document's compact text would have over 1,048,576 bytes",
     "make the document smaller, or divide it into several"),
    (24, "revision", "Outdated",
     "the document has another revision than `if_rev`; `rev` is the document's",
     "read the document again, and send a patch that fits it, with its new revision"),
    (25, "mark", "Overtaken",
     "the mark is another than `if_mark`; `mark` is the present one",
     "if it is your own, the change is made"),
    (30, "patch-shape", "Malformed",
     "`ops` is not a list, or an operation is not an object, has no known `op`, or lacks a member",
     "compare the operations with RFC 6902, section 4"),
    (31, "patch-pointer", "Malformed",
     "`path` or `from` of an operation is not a JSON Pointer",
     "begin it with `/`, and write `~` as `~0` and `/` in a name as `~1`"),
    (32, "patch-missing", "NotFound",
     "a place that the operation needs does not exist",
     "read the document; `add` the parent first"),
    (33, "patch-into-itself", "Malformed",
     "a `move` puts a value into itself",
     "use `copy` instead"),
    (34, "patch-test", "Conflict",
     "a `test` found another value",
     "read the document again, and send a patch that fits it"),
    (35, "patch-root", "Malformed",
     "the patch removes the whole document",
     "use the command `delete` instead"),
    (36, "patch-long", "TooLarge",
     "there are over 4,096 operations, their text has over 2,097,152 bytes, or it nests deeper than 66 levels",
     "divide the patch into several"),
    (37, "no-value", "NotFound",
     "the document has no value at this place",
     "read the value at a shorter path, to see what is there"),
    (38, "pointer", "Malformed",
     "the path is not a JSON Pointer",
     "begin it with `/`, or leave it empty for the whole document; write `~` as `~0` and `/` in a name as `~1`"),
    (40, "schema-form", "Malformed",
     "a schema is neither a boolean nor an object, a keyword's value has a wrong form, two schemas have one `$anchor`,"
     " or a pattern is none",
     "compare the schema with JSON Schema Validation 2020-12, section 6, and a pattern with `docs/use/MODELLING.md`"),
    (41, "schema-keyword", "Malformed",
     "the schema has a keyword that is not supported, or only in format 3, has `$id` or `$schema` below its root, or "
     "names another dialect",
     "leave the keyword out, or use supported ones; `jpstore upgrade FILE` makes format 3"),
    (42, "schema-ref", "Malformed",
     "a `$ref` leads to no schema in this one; format 2 reads `#` and `#/$defs/NAME` alone",
     "define the schema under `$defs` of the root"),
    (43, "schema-loop", "Malformed",
     "a schema leads back to itself without a step into the value, by `$ref` and what asks the same value, such as "
     "`allOf`",
     "put `properties` or `items` between"),
    (44, "schema-size", "TooLarge",
     "the schema's compact text has over 262,144 bytes, it nests deeper than 64 levels, or has over 64 patterns, or "
     "one of over 4,096 bytes; or, if 40 to 43 don't apply, its patterns take too much memory",
     "make the schema smaller, for instance by `$defs` and `$ref`; *Patterns* in `docs/use/MODELLING.md`"),
    (45, "invalid", "Invalid",
     "the document, as the change would leave it, is not valid under its schema",
     "change the value that is not valid, or the schema first"),
    (50, "path", "Malformed",
     "the path is not a JSONPath query (RFC 9535): its syntax or the types of its functions are wrong, or it begins or"
     " ends with a blank",
     "compare the query with RFC 9535, section 2; a query begins with `$`"),
    (51, "path-left-out", "Malformed",
     "the path is a query, but calls `match` or `search`, or has a number that is not a 64-bit whole number without "
     "fraction and exponent",
     "compare with whole numbers and `==`, and match texts in your own program"),
    (52, "path-long", "TooLarge",
     "the path has over 1,024 bytes",
     "send several shorter queries"),
    (53, "path-nodes", "TooLarge",
     "a list of nodes, after some segment of the query or of a query in its filters, would have over 100,000",
     "select less, for instance by a slice such as `[0:100000]`"),
    (54, "reply-long", "TooLarge",
     "the reply would have over 16,777,216 bytes without its LF",
     "select less, or read the values one by one; of `changes`, read the documents anew"),
    (60, "full", "Full",
     "there is no room for the change, not even after a snapshot, and in format 3 none for the documents and marks "
     "that it would leave; or the requested snapshot is longer than a half",
     "make it larger by `jpstore-cli grow STORE`, also while a hub serves it; in format 2 a `delete` takes room too"),
    (61, "device", "Broken",
     "reading, writing or syncing the file failed during this change, snapshot or step, perhaps as the file system is "
     "full; the next opening shows whether it is stored",
     "look at the disk and its free space, end the program and open the store again (a hub's service does that)"),
    (62, "broken", "Broken",
     "the device failed before; nothing is written any more, and questions are answered from the state after the last "
     "change that was answered as done",
     "look at the disk and its free space, end the program and open the store again (a hub's service does that)"),
    (63, "memory", "NoMemory",
     "the program ran out of memory for this line or its batch; nothing was changed",
     "send the line again; a smaller document or query needs less"),
    (64, "seq-end", "Full",
     "the count of accepted changes is at its end (2^64-1)",
     "go on reading; for more changes `dump` it, and `load` the dump into a new store"),
    (65, "transaction-large", "TooLarge",
     "what a transaction copies, and the documents that it puts under other schemas, have over 33,554,432 bytes of "
     "text",
     "divide it"),
    (70, "already-a-store", "",
     "the device holds a store already; only programs in Rattle are told this, by `Store::format`",
     "format another device"),
    (71, "small", "",
     "`format` or `copy` for format 3 was given under 160 sectors, or a program in Rattle, by `Store::format`, a "
     "device with under 3 or over 4,294,967,296",
     "choose another number"),
    (72, "not-a-store", "",
     "the file does not begin as a store does, or has too few or too many sectors",
     "check that it is the right file"),
    (73, "damaged", "",
     "the file begins as a store, but what follows is not one, or was not copied whole",
     "restore it from a copy or a dump; without one, `jpstore salvage FILE` writes what can still be read"),
    (74, "no-room", "",
     "the documents do not fit in a half of the file that `copy` would make, or, of a file of format 1, of format 2; "
     "or `upgrade` lacks room for both formats. No document was written",
     "copy it to a larger file; `dump` one of format 1 with the program that wrote it, and load that into a larger "
     "store"),
    (75, "cut-off", "",
     "a store of format 3 was opened with `--strict`, and a commit was cut off in it: one under way at a stop, or the "
     "last one answered. The file was left as it is",
     "compare it with a copy, or with what its clients know; `jpstore repair FILE` takes it as it is"),
    (76, "newer-schema", "",
     "a schema has a keyword or a reference that format 2 lacks",
     "change the schema, or stay in format 3"),
)

# The numbers of refusals.
LINE_TOO_LONG = 10
NOT_JSON = 11
NUMBER = 12
DEPTH = 13
COMMAND = 14
NAME = 15
EXISTS = 20
NO_DOCUMENT = 21
TOO_MANY = 22
TOO_LARGE = 23
REVISION = 24
MARK = 25
PATCH_SHAPE = 30
PATCH_POINTER = 31
PATCH_MISSING = 32
PATCH_INTO_ITSELF = 33
PATCH_TEST = 34
PATCH_ROOT = 35
PATCH_LONG = 36
NO_VALUE = 37
POINTER = 38
SCHEMA_FORM = 40
SCHEMA_KEYWORD = 41
SCHEMA_REF = 42
SCHEMA_LOOP = 43
SCHEMA_SIZE = 44
INVALID = 45
PATH = 50
PATH_LEFT_OUT = 51
PATH_LONG = 52
PATH_NODES = 53
REPLY_LONG = 54
FULL = 60
DEVICE = 61
BROKEN = 62
MEMORY = 63
SEQ_END = 64
TRANSACTION_LARGE = 65
ALREADY_A_STORE = 70
SMALL = 71
NOT_A_STORE = 72
DAMAGED = 73
NO_ROOM = 74
CUT_OFF = 75
NEWER_SCHEMA = 76
GONE = 80
WATCHING = 81
NO_MAJORITY = 82
NOT_GROWN = 83

#: The names of the refusals of a hub or a node that no store has.
OWN_REFUSALS: Dict[int, str] = {
    80: "gone",
    81: "watching",
    82: "no-majority",
    83: "not-grown",
}

#: The commands by their words.
COMMANDS: Dict[str, Command] = {
    "create": Command("change", {
        "cmd": Member("text"),
        "name": Member("text"),
        "doc": Member("any"),
        "schema": Member("any"),
    }),
    "patch": Command("change", {
        "cmd": Member("text"),
        "name": Member("text"),
        "ops": Member("any"),
        "if_rev": Member("count", optional=True),
    }),
    "schema": Command("change", {"cmd": Member("text"), "name": Member("text"), "schema": Member("any")}),
    "delete": Command("change", {"cmd": Member("text"), "name": Member("text")}),
    "transaction": Command("change", {"cmd": Member("text"), "changes": Member("changes")}),
    "get": Command("question", {"cmd": Member("text"), "name": Member("text"), "path": Member("text")}),
    "get-schema": Command("question", {"cmd": Member("text"), "name": Member("text")}),
    "rev": Command("question", {"cmd": Member("text"), "name": Member("text")}),
    "mark": Command("question", {"cmd": Member("text"), "key": Member("text")}),
    "query": Command("question", {"cmd": Member("text"), "name": Member("text"), "path": Member("text")}),
    "changes": Command("question", {"cmd": Member("text"), "from": Member("count"), "max": Member("up_to", 4194304)}),
    "list": Command("question", {"cmd": Member("text")}),
    "status": Command("question", {"cmd": Member("text")}),
    "snapshot": Command("snapshot", {"cmd": Member("text")}),
    "pump": Command("snapshot", {"cmd": Member("text"), "max": Member("up_to", 1000000)}),
    "seal": Command("snapshot", {"cmd": Member("text")}),
    "watch": Command("own", {
        "cmd": Member("text"),
        "from": Member("count", optional=True),
        "history": Member("text", optional=True),
    }),
    "export": Command("own", {"cmd": Member("text")}),
    "grow": Command("own", {"cmd": Member("text"), "sectors": Member("count")}),
    "node": Command("node", {"cmd": Member("text")}),
    "copy": Command("node", {"cmd": Member("text")}),
}

#: The keywords of JSON Schema 2020-12, and words beside them that name no mistake.
KEYWORDS: Dict[str, Keyword] = {
    "$defs": Keyword("named", format=2),
    "$ref": Keyword(format=2),
    "$anchor": Keyword(format=3, instead="`$defs` of the root has a schema by name, for `#/$defs/NAME`"),
    "$schema": Keyword(format=2),
    "$id": Keyword(format=2),
    "allOf": Keyword("several", format=2, in_place=True),
    "anyOf": Keyword("several", format=2, in_place=True),
    "oneOf": Keyword("several", format=2, in_place=True),
    "not": Keyword("one", format=2, in_place=True),
    "if": Keyword("one", format=2, in_place=True),
    "then": Keyword("one", format=2, in_place=True),
    "else": Keyword("one", format=2, in_place=True),
    "dependentSchemas": Keyword(
        "named",
        format=3,
        in_place=True,
        instead="`allOf` with `if`: {\"required\": [NAME]} and `then` says the same",
    ),
    "prefixItems": Keyword("several", format=2),
    "items": Keyword("one", format=2),
    "contains": Keyword("one", format=2),
    "properties": Keyword("named", format=2),
    "patternProperties": Keyword(
        "named",
        format=3,
        instead="`properties` has the members whose names are known, `additionalProperties` all others, and "
                "`propertyNames` bounds the names",
    ),
    "additionalProperties": Keyword("one", format=2),
    "propertyNames": Keyword("one", format=2),
    "type": Keyword(format=2),
    "enum": Keyword(format=2),
    "const": Keyword(format=2),
    "multipleOf": Keyword(format=2),
    "maximum": Keyword(format=2),
    "exclusiveMaximum": Keyword(format=2),
    "minimum": Keyword(format=2),
    "exclusiveMinimum": Keyword(format=2),
    "maxLength": Keyword(format=2),
    "minLength": Keyword(format=2),
    "pattern": Keyword(
        format=3,
        instead="`enum` or `const` list the texts, and `minLength` and `maxLength` bound their lengths",
    ),
    "maxItems": Keyword(format=2),
    "minItems": Keyword(format=2),
    "uniqueItems": Keyword(format=2),
    "maxContains": Keyword(format=2),
    "minContains": Keyword(format=2),
    "maxProperties": Keyword(format=2),
    "minProperties": Keyword(format=2),
    "required": Keyword(format=2),
    "dependentRequired": Keyword(format=2),
    "unevaluatedProperties": Keyword(
        "one",
        refused=True,
        instead="`additionalProperties` beside all `properties` says the same for one schema",
    ),
    "unevaluatedItems": Keyword(
        "one",
        refused=True,
        instead="`items` after `prefixItems` says the same for one schema",
    ),
    "$dynamicRef": Keyword(refused=True, instead="`$ref` leads to one schema"),
    "$dynamicAnchor": Keyword(refused=True, instead="`$defs` of the root has a schema by name, for `#/$defs/NAME`"),
    "$vocabulary": Keyword(refused=True, instead="it is for schemas of schemas, and can be left out"),
    "contentSchema": Keyword("one"),
    "definitions": Keyword("named"),
    "$comment": Keyword(),
    "$recursiveAnchor": Keyword(),
    "$recursiveRef": Keyword(),
    "contentEncoding": Keyword(),
    "contentMediaType": Keyword(),
    "default": Keyword(),
    "dependencies": Keyword(),
    "deprecated": Keyword(),
    "description": Keyword(),
    "examples": Keyword(),
    "format": Keyword(),
    "readOnly": Keyword(),
    "title": Keyword(),
    "writeOnly": Keyword(),
}

#: Keywords of earlier drafts without an effect, with those of 2020-12 that say the same.
EARLIER: Dict[str, str] = {
    "$recursiveRef": "$ref",
    "additionalItems": "prefixItems` and `items",
    "dependencies": "dependentRequired",
    "disallow": "not",
    "divisibleBy": "multipleOf",
    "extends": "allOf",
    "id": "$id",
}

#: What a keyword is called elsewhere.
ELSEWHERE: Dict[str, str] = {
    "choices": "enum",
    "len": "minLength` and `maxLength",
    "length": "minLength` and `maxLength",
    "max": "maximum",
    "maxlen": "maxLength",
    "min": "minimum",
    "minlen": "minLength",
    "nullable": "\"null\"` in a list of `type",
    "optional": "required",
    "options": "enum",
    "unique": "uniqueItems",
    "values": "enum",
}
