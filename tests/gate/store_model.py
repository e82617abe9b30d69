"""A model of the store for tests/gate/fuzz_http.py: what a change makes of the documents, or with which number it is refused.

It follows docs/use/PROTOCOL.md and the standards that are named there: RFC 6902 as differential.py reads it, RFC 7396 below, and JSON
Schema by the Python package `jsonschema`.
"""
import copy
import re

from differential import Refused, applied, compact, same, tokens_of, value_at

MOST_LEVELS = 64

#: Schemas that accept some documents, and those that the store refuses, each with its number.
SCHEMAS = [
    True, {}, {"type": "object"}, {"type": ["object", "array", "integer"]}, {"maxProperties": 3}, {"required": ["a"]},
    {"properties": {"a": {"type": "integer", "minimum": 0}}}, {"items": {"type": ["integer", "string", "null"]}},
    {"title": "any", "not": {"type": "boolean"}}, False,
]
WRONG_SCHEMAS = [
    (5, 40), ("x", 40), ({"type": 5}, 40), ({"required": "a"}, 40), ({"items": {"minimum": "0"}}, 40), ({"unevaluatedItems": True}, 41),
    ({"properties": {"a": {"unevaluatedProperties": {}}}}, 41), ({"$ref": "#/$defs/none"}, 42), ({"$ref": "#"}, 43),
    ({"anyOf": [{"$ref": "#/$defs/a"}], "$defs": {"a": {"$ref": "#"}}}, 43),
]

# The members that each operation needs.
NEEDS = {"add": ("path", "value"), "remove": ("path",), "replace": ("path", "value"), "move": ("path", "from"),
         "copy": ("path", "from"), "test": ("path", "value")}


class Refusal(Exception):
    """A change that is refused: the number, and the members that say which operation or revision."""

    def __init__(self, number, **members):
        super().__init__(number, members)
        self.number, self.members = number, members


class Revision:
    """The number of the change that made a document as it is, once that number is known."""

    def __init__(self, number=None):
        self.number = number


class Document:
    """A value under a schema, with its revision. None of them is ever changed."""

    def __init__(self, value, schema, revision):
        self.value, self.schema, self.revision = value, schema, revision

    def texts(self):
        """The compact texts of the value and of the schema."""
        return text_of(self.value), text_of(self.schema)


def sorted_members(value):
    """The value with the members of each object in byte order of their names."""
    if isinstance(value, list):
        return [sorted_members(each) for each in value]
    if isinstance(value, dict):
        return {name: sorted_members(value[name]) for name in sorted(value, key=str.encode)}
    return value


def text_of(value):
    """The compact text of a value, as the store has it."""
    return compact(sorted_members(value)).encode()


def levels_of(value):
    """How many levels a value nests."""
    inner = value.values() if isinstance(value, dict) else value if isinstance(value, list) else None
    return 0 if inner is None else 1 + max(map(levels_of, inner), default=0)


def merged(target, patch):
    """`MergePatch` of RFC 7396, section 2."""
    if not isinstance(patch, dict):
        return patch
    made = dict(target) if isinstance(target, dict) else {}
    for name, value in patch.items():
        if value is None:
            made.pop(name, None)
        else:
            made[name] = merged(made.get(name), value)
    return made


def is_name(name):
    """Whether a document can have this name."""
    return re.fullmatch(r"[A-Za-z0-9._-]{1,64}", name) is not None


def is_valid(value, schema):
    """Whether a value is valid under a schema of `SCHEMAS`."""
    from jsonschema import Draft202012Validator

    return schema is True or Draft202012Validator(schema).is_valid(value)


def check_schema(schema):
    """Raises the refusal of a schema of `WRONG_SCHEMAS`."""
    for wrong, number in WRONG_SCHEMAS:
        if same(schema, wrong):
            raise Refusal(number)


def patched(value, operations):
    """What operations make of a value."""
    if not isinstance(operations, list):
        raise Refusal(30)
    for place, each in enumerate(operations):
        number = fault_of_form(each)
        if number:
            raise Refusal(number, op=place)
    made = value
    for place, each in enumerate(operations):
        try:
            before = made
            made = applied(copy.deepcopy(made), copy.deepcopy(each))
        except Refused:
            raise Refusal(number_of_fault(before, each), op=place) from None
        if levels_of(made) > MOST_LEVELS:
            raise Refusal(13, op=place)
    return made


def fault_of_form(operation):
    """What is wrong with an operation whatever the document is: 30, 31 or 33; None if nothing is."""
    needs = NEEDS.get(operation.get("op")) if isinstance(operation, dict) else None
    if needs is None or any(name not in operation for name in needs):
        return 30
    places = [operation[name] for name in needs if name != "value"]
    if not all(isinstance(place, str) for place in places):
        return 30
    if not all(map(is_pointer, places)):
        return 31
    if operation["op"] != "move":
        return None
    origin, target = tokens_of(operation["from"]), tokens_of(operation["path"])
    return 33 if len(origin) < len(target) and target[:len(origin)] == origin else None


def is_pointer(text):
    """Whether a text is a JSON Pointer (RFC 6901, section 3)."""
    return re.fullmatch(r"(/([^/~]|~[01])*)*", text) is not None


def number_of_fault(value, operation):
    """Why an operation can't be applied: another value, the removal of all, or a place that isn't there."""
    if operation["op"] == "remove" and not operation["path"]:
        return 35
    if operation["op"] == "test":
        try:
            value_at(value, tokens_of(operation["path"]))
            return 34
        except Refused:
            pass
    return 32


def value_at_pointer(value, pointer):
    """The value at a place; the refusal 38 of what is no pointer, or 37 if nothing is there."""
    if not is_pointer(pointer):
        raise Refusal(38)
    try:
        return value_at(value, tokens_of(pointer))
    except Refused:
        raise Refusal(37) from None


class Store:
    """The documents by their names, in the order of creation."""

    def __init__(self, documents=()):
        self.documents = dict(documents)

    def change(self, command):
        """Makes a change, and answers the document that it leaves, or None; a refusal changes nothing."""
        made = getattr(self, "_" + command["cmd"])(command, command["name"])
        if made is None:
            del self.documents[command["name"]]
        else:
            self.documents[command["name"]] = made
        return made

    def transaction(self, commands):
        """Makes changes, all or none, and answers the document after each."""
        before = dict(self.documents)
        made = []
        for place, command in enumerate(commands):
            try:
                made.append(self.change(command))
            except Refusal as refusal:
                self.documents = before
                raise Refusal(refusal.number, change=place, **refusal.members) from None
        return made

    def there(self, name):
        """The document of this name; the refusal 15 or 21."""
        if not is_name(name):
            raise Refusal(15)
        if name not in self.documents:
            raise Refusal(21)
        return self.documents[name]

    def _create(self, command, name):
        if not is_name(name):
            raise Refusal(15)
        if name in self.documents:
            raise Refusal(20)
        check_schema(command["schema"])
        if levels_of(command["doc"]) > MOST_LEVELS:
            raise Refusal(13)
        if not is_valid(command["doc"], command["schema"]):
            raise Refusal(45)
        return Document(command["doc"], command["schema"], Revision())

    def _patch(self, command, name):
        document = self.there(name)
        if command.get("if_rev", document.revision.number) != document.revision.number:
            raise Refusal(24, rev=document.revision.number)
        value = patched(document.value, command["ops"])
        if not is_valid(value, document.schema):
            raise Refusal(45)
        return Document(value, document.schema, Revision())

    def _schema(self, command, name):
        document = self.there(name)
        check_schema(command["schema"])
        if not is_valid(document.value, command["schema"]):
            raise Refusal(45)
        return Document(document.value, command["schema"], Revision())

    def _delete(self, _, name):
        self.there(name)


def told(documents, command, seq):
    """Does to the documents of a replay what a change that was sent says; it was accepted, so nothing is judged."""
    name, kind = command["name"], command["cmd"]
    if kind == "create":
        documents[name] = Document(command["doc"], command["schema"], Revision(seq))
    elif kind == "delete":
        del documents[name]
    elif kind == "schema":
        documents[name] = Document(documents[name].value, command["schema"], Revision(seq))
    else:
        value = copy.deepcopy(documents[name].value)
        for each in command["ops"]:
            value = applied(value, each)
        documents[name] = Document(value, documents[name].schema, Revision(seq))
