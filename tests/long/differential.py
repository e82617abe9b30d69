#!/usr/bin/env python3
"""Compares the built program with other readings of the standards, on random documents.

    differential.py PROGRAM [patches|schemas|changes|sequences|schemas-3|changes-3|sequences-3|queries ..] [--rounds N] [--seed S]

- patches: what a patch makes of a document, or which operation refuses it, by RFC 6902 and 6901 as this file reads them;
- schemas: whether a document is valid under a schema, by the Python package `jsonschema` (draft 2020-12);
- changes: the same of what a patch makes of a document that is valid under a schema;
- sequences: the same of two to eight operations, each of which can be made, through documents that may not be valid;
- schemas-3, changes-3, sequences-3: the same in a store of format 3, with `dependentSchemas`, with references to any
  place of a definition, and with `pattern` and `patternProperties`, which Python's `re` judges;
- queries: the nodelist of a query with its normalized paths, by RFC 9535 as this file reads it.

None of the expected values is the program's own. It prints each difference with the lines that show it, and ends with
`N passed, M failed`. N rounds of each are made, 2,000 if not said; S begins the random choices.
"""
import argparse
import copy
import functools
import json
import os
import random
import re
import subprocess
import sys
import tempfile
import urllib.parse

NAMES = ["a", "b", "c", "", "a/b", "m~n", "it's", "0", "1", "-", "\u00e9", "\U0001F600", "x y", "\\", "\u0001"]
TEXTS = ["", "a", "ab", "b", "\u00e9", "\U0001F600\U0001F600", "\ud7ff", "a\nb"]
NUMBERS = [0, 1, 2, 3, -1, 10, 2**63 - 1, -(2**63)]


def compact(value):
    return json.dumps(value, ensure_ascii=False, separators=(",", ":"))


def same(one, other):
    """Equality of JSON values, in which `true` is no number (RFC 6902, section 4.6)."""
    if type(one) is not type(other):
        return False
    if isinstance(one, list):
        return len(one) == len(other) and all(map(same, one, other))
    if isinstance(one, dict):
        return one.keys() == other.keys() and all(same(one[name], other[name]) for name in one)
    return one == other


def document(choose, levels):
    """A random document of at most this many levels."""
    kind = choose.randrange(8 if levels else 5)
    if kind == 0:
        return None
    if kind == 1:
        return choose.random() < 0.5
    if kind <= 3:
        return choose.choice(NUMBERS)
    if kind == 4:
        return choose.choice(TEXTS)
    if kind == 5:
        return [document(choose, levels - 1) for _ in range(choose.randrange(5))]
    return {choose.choice(NAMES): document(choose, levels - 1) for _ in range(choose.randrange(5))}


def locations(value, at=()):
    """All locations of a value, its own first, and members in the order of their names."""
    yield at, value
    if isinstance(value, list):
        for index, element in enumerate(value):
            yield from locations(element, (*at, index))
    elif isinstance(value, dict):
        for name in in_order(value):
            yield from locations(value[name], (*at, name))


def in_order(members):
    return sorted(members, key=lambda name: name.encode("utf-8", "surrogatepass"))


# ---- patches


class Refused(Exception):
    """An operation that can't be applied."""


def pointer_of(tokens):
    return "".join("/" + str(token).replace("~", "~0").replace("/", "~1") for token in tokens)


def tokens_of(pointer):
    return [token.replace("~1", "/").replace("~0", "~") for token in pointer.split("/")[1:]]


def index_of(token, most):
    if not (token.isascii() and token.isdigit()) or (len(token) > 1 and token[0] == "0") or int(token) > most:
        raise Refused
    return int(token)


def value_at(value, tokens):
    for token in tokens:
        if isinstance(value, list):
            value = value[index_of(token, len(value) - 1)]
        elif isinstance(value, dict) and token in value:
            value = value[token]
        else:
            raise Refused
    return value


def added(root, tokens, value):
    if not tokens:
        return value
    parent, last = value_at(root, tokens[:-1]), tokens[-1]
    if isinstance(parent, list):
        parent.insert(len(parent) if last == "-" else index_of(last, len(parent)), value)
    elif isinstance(parent, dict):
        parent[last] = value
    else:
        raise Refused
    return root


def removed(root, tokens):
    value_at(root, tokens)
    if not tokens:
        raise Refused
    parent, last = value_at(root, tokens[:-1]), tokens[-1]
    if isinstance(parent, list):
        del parent[int(last)]
    else:
        del parent[last]
    return root


def applied(root, operation):
    path = tokens_of(operation["path"])
    kind = operation["op"]
    if kind == "add":
        return added(root, path, operation["value"])
    if kind == "remove":
        return removed(root, path)
    if kind == "replace":
        value_at(root, path)
        return operation["value"] if not path else added(removed(root, path), path, operation["value"])
    if kind == "test":
        if not same(value_at(root, path), operation["value"]):
            raise Refused
        return root
    origin = tokens_of(operation["from"])
    moved = copy.deepcopy(value_at(root, origin))
    if kind == "copy":
        return added(root, path, moved)
    if origin == path:
        return root
    if not origin:
        raise Refused
    return added(removed(root, origin), path, moved)


def random_operation(choose, root):
    places = [at for at, _ in locations(root)]

    def place():
        at = list(choose.choice(places))
        if choose.random() < 0.4:
            at.append(choose.choice(["-", "0", "1", "2", "01", *NAMES]))
        return pointer_of(at)

    operation = {"op": choose.choice(["add", "remove", "replace", "move", "copy", "test"]), "path": place()}
    if operation["op"] in ("move", "copy"):
        operation["from"] = place()
    elif operation["op"] != "remove":
        known = choose.random() < 0.5 and operation["op"] == "test"
        operation["value"] = copy.deepcopy(choose.choice(list(locations(root)))[1]) if known else document(choose, 1)
    return operation


def moves_in(operation):
    """Whether a value is moved into itself."""
    at, to = tokens_of(operation.get("from", "")), tokens_of(operation["path"])
    return operation["op"] == "move" and len(to) > len(at) and to[: len(at)] == at


def random_patch(choose, root, most):
    """Some operations, what they make of the document, and which of them is at fault, if one is."""
    made, fault, operations = copy.deepcopy(root), None, []
    for number in range(choose.randrange(1, most + 1)):
        operation = random_operation(choose, made)
        operations.append(operation)
        try:
            made = applied(copy.deepcopy(made), copy.deepcopy(operation))
        except Refused:
            fault = number
            break
    into_themselves = [number for number, each in enumerate(operations) if moves_in(each)]
    return operations, made, into_themselves[0] if into_themselves else fault


def patch_lines(schema, root, operations):
    """The lines that patch a new document, ask for it, and delete it."""
    return [
        {"cmd": "create", "name": "d", "schema": schema, "doc": root}, {"cmd": "patch", "name": "d", "ops": operations},
        {"cmd": "get", "name": "d", "path": ""}, {"cmd": "delete", "name": "d"},
    ]


def patch_case(choose):
    """The lines of a patch, and the document that it should leave with the operation at fault, if one is."""
    root = document(choose, 3)
    operations, made, fault = random_patch(choose, root, 4)

    def fits(replies):
        if fault is None:
            return replies[1]["ok"] and same(replies[2]["value"], made)
        return not replies[1]["ok"] and replies[1].get("op") == fault and same(replies[2]["value"], root)

    return patch_lines(True, root, operations), fits


# ---- schemas

TYPES = ["null", "boolean", "integer", "string", "array", "object", "number"]

# The keywords of profile 3 alone.
NEWER = ("dependentSchemas", "pattern", "patternProperties")

# What is chosen beside `patternProperties`: its keywords are those of the same members.
BESIDE = ("properties", "additionalProperties", "propertyNames", "required", "maxProperties")

# Patterns of the store, each with one of Python's module `re` that finds the same, by what both say of themselves.
PATTERNS = {
    "a": "a", "^a": r"\Aa", "b$": r"b\Z", "^$": r"\A\Z", "": "", "^.$": r"\A[^\n]\Z", "(?s)^.{2}$": r"(?s)\A.{2}\Z",
    "^(a|ab)*$": r"\A(a|ab)*\Z", "^(?:a|b){1,2}$": r"\A(?:a|b){1,2}\Z", r"^[a-z&&[^a]]+$": r"\A[b-z]+\Z", r"^\w+$": r"\A\w+\Z",
    r"\W": r"\W", r"\d": r"\d", r"\s": r"\s", r"^[^/~]*$": r"\A[^/~]*\Z", "(?m)^b": "(?m)^b", "(?i)A": "(?i)a", r"\x{1F600}": "\U0001F600",
    r"\bb\b": r"\bb\b", "^[[:alpha:]]": r"\A[A-Za-z]", r"a?\z": r"a?\Z", "^a+?b*?$": r"\Aa+?b*?\Z", r"^\\": r"\A\\", "'|-": "'|-",
    "^(?P<all>[^ab])": r"\A(?P<all>[^ab])", "(b|[^b])$": r"(b|[^b])\Z",
}


def judge(schema):
    """The judge of documents under a schema, from outside."""
    from jsonschema import Draft202012Validator, ValidationError, validators

    def matches(pattern, text):
        return re.search(PATTERNS[pattern], text)

    def pattern(_validator, pattern, doc, _schema):
        if isinstance(doc, str) and not matches(pattern, doc):
            yield ValidationError("no match")

    def members(doc):
        return doc.items() if isinstance(doc, dict) else ()

    def pattern_properties(validator, schemas, doc, _schema):
        for name, value in members(doc):
            for pattern in filter(lambda each: matches(each, name), schemas):
                yield from validator.descend(value, schemas[pattern], path=name)

    def additional_properties(validator, other, doc, schema):
        for name, value in members(doc):
            if name not in schema.get("properties", {}) and not any(matches(each, name) for each in schema.get("patternProperties", {})):
                yield from validator.descend(value, other, path=name)

    keywords = {"pattern": pattern, "patternProperties": pattern_properties, "additionalProperties": additional_properties}
    return validators.extend(Draft202012Validator, keywords)(schema)


def random_schema(choose, levels, profile=2):
    if choose.random() < 0.15 or not levels:
        return choose.random() < 0.8
    keywords = random_keywords(choose, lambda: random_schema(choose, levels - 1, profile))
    newer = [choose.choice(NEWER)] if profile > 2 else []
    count = choose.randrange(3) if newer else choose.randrange(1, 5)
    others = BESIDE if "patternProperties" in newer and choose.random() < 0.7 else sorted(keywords.keys() - NEWER)
    return {keyword: keywords[keyword]() for keyword in newer + choose.sample(others, count)}


def random_keywords(choose, inner):
    """What makes the value of each keyword, of schemas that `inner` makes."""

    def several():
        return [inner() for _ in range(choose.randrange(1, 3))]

    def members():
        return {choose.choice(NAMES): inner() for _ in range(choose.randrange(3))}

    return {
        "type": lambda: choose.choice([choose.choice(TYPES), choose.sample(TYPES, 2)]),
        "enum": lambda: [document(choose, 1) for _ in range(choose.randrange(1, 4))],
        "const": lambda: document(choose, 1),
        "minimum": lambda: choose.choice(NUMBERS), "maximum": lambda: choose.choice(NUMBERS),
        "exclusiveMinimum": lambda: choose.choice(NUMBERS), "exclusiveMaximum": lambda: choose.choice(NUMBERS),
        "multipleOf": lambda: choose.choice([1, 2, 3]),
        "minLength": lambda: choose.randrange(3), "maxLength": lambda: choose.randrange(3),
        "minItems": lambda: choose.randrange(3), "maxItems": lambda: choose.randrange(4),
        "uniqueItems": lambda: choose.random() < 0.7,
        "minProperties": lambda: choose.randrange(3), "maxProperties": lambda: choose.randrange(4),
        "required": lambda: sorted(set(choose.choices(NAMES, k=choose.randrange(3)))),
        "items": inner, "prefixItems": several, "contains": inner,
        "minContains": lambda: choose.randrange(3), "maxContains": lambda: choose.randrange(3),
        "properties": members, "additionalProperties": inner, "propertyNames": inner,
        "dependentRequired": lambda: {choose.choice(NAMES): sorted(set(choose.choices(NAMES, k=2)))},
        "allOf": several, "anyOf": several, "oneOf": several, "not": inner,
        "if": inner, "then": inner, "else": inner, "$ref": lambda: "#/$defs/d",
        "dependentSchemas": members, "pattern": lambda: choose.choice(list(PATTERNS)),
        "patternProperties": lambda: {pattern: inner() for pattern in choose.sample(list(PATTERNS), choose.randrange(4))},
    }


def with_definitions(schema, definition):
    """The schema with the definition that its references name, which has none itself."""
    plain = json.loads(json.dumps(definition).replace('"$ref": "#/$defs/d"', '"$comment": "none"'))
    return {**schema, "$defs": {"d": plain}} if isinstance(schema, dict) else schema


# The keywords that hold schemas, by the shapes of their values: one, a list of some, or some by name.
ONE = ("additionalProperties", "propertyNames", "items", "contains", "not", "if", "then", "else")
SEVERAL, NAMED = ("prefixItems", "allOf", "anyOf", "oneOf"), ("properties", "patternProperties", "dependentSchemas")


def places_of_schemas(schema, at):
    """The pointers of a schema and of those in it."""
    yield at
    for word, value in schema.items() if isinstance(schema, dict) else ():
        if word in ONE:
            yield from places_of_schemas(value, f"{at}/{word}")
        elif word in SEVERAL + NAMED:
            for token, inner in enumerate(value) if word in SEVERAL else value.items():
                yield from places_of_schemas(inner, f"{at}/{word}/{str(token).replace('~', '~0').replace('/', '~1')}")


def referring(choose, schema):
    """The same schema, whose references lead to any place in its definition, written in several ways."""
    if not isinstance(schema, dict) or "$defs" not in schema:
        return schema
    # `jsonschema` takes a `/` off the end of a reference.
    places = [place for place in places_of_schemas(schema["$defs"]["d"], "/$defs/d") if not place.endswith("/")]
    front = choose.choice(["", "", "http://x/y"])
    if isinstance(schema["$defs"]["d"], dict) and choose.random() < 0.3:
        schema["$defs"]["d"]["$anchor"] = places[0] = "an-Anchor.1"

    def reference(_):
        place, safe = choose.choice(places), choose.choice(["/$", "/", "/$^*()[]|\\"])
        return '"$ref": ' + json.dumps(front * choose.randrange(2) + "#" + urllib.parse.quote(place, safe=safe))

    made = json.loads(re.sub(r'"\$ref": "#/\$defs/d"', reference, json.dumps(schema)))
    return {**made, "$id": front} if front else made


def both_schemas(choose, profile):
    schema = with_definitions(random_schema(choose, 3, profile), random_schema(choose, 2, profile))
    return referring(choose, schema) if profile > 2 else schema


def schema_case(choose, profile=2):
    schema = both_schemas(choose, profile)
    validator = judge(schema)
    documents = [document(choose, 3) for _ in range(4)]
    lines, wanted = [], []
    for number, each in enumerate(documents):
        lines.append({"cmd": "create", "name": f"d{number}", "schema": schema, "doc": each})
        wanted.append(validator.is_valid(each))

    def fits(replies):
        return all(reply["ok"] == valid and (valid or reply["number"] == 45) for reply, valid in zip(replies, wanted))

    return lines + [{"cmd": "delete", "name": f"d{number}"} for number in range(len(documents))], fits


def valid_pair(choose, profile, levels):
    """A random schema, and a random document of at most this many levels that it accepts."""
    while True:
        schema = both_schemas(choose, profile)
        root = document(choose, levels)
        if judge(schema).is_valid(root):
            return schema, root


def change_case(choose, profile=2):
    """The lines of a patch under a schema that accepts the document. What it makes has to be valid too."""
    schema, root = valid_pair(choose, profile, 3)
    # Most of them are at fault, and a few of these are enough.
    tries = [random_patch(choose, root, 3) for _ in range(6)]
    operations, made, fault = next((it for it in tries if it[2] is None), tries[0])
    is_made = fault is None and judge(schema).is_valid(made)

    def fits(replies):
        number = 45 if fault is None else replies[1].get("number")
        answered = replies[1]["ok"] if is_made else replies[1].get("number") == number and replies[1].get("op") == fault
        return answered and same(replies[2]["value"], made if is_made else root)

    return patch_lines(schema, root, operations), fits


def sequence_case(choose, profile=2):
    """The lines of a patch of two to eight operations that can all be made. What the last makes has to be valid."""
    schema, root = True, None
    while schema in (True, {}) or not isinstance(root, (list, dict)):
        schema, root = valid_pair(choose, profile, 4)
    made, operations, tries = copy.deepcopy(root), [], 0
    count = choose.randrange(2, 9)
    while len(operations) < count and tries < 200:
        tries += 1
        operation = random_operation(choose, made)
        # The root is seldom replaced, since that ends what the others did.
        if moves_in(operation) or operation["path"] == "" and choose.random() < 0.9:
            continue
        try:
            after = applied(copy.deepcopy(made), copy.deepcopy(operation))
        except Refused:
            continue
        # Most steps lead to another document that is valid.
        if judge(schema).is_valid(after) or choose.random() < 0.3:
            made = after
            operations.append(operation)
    is_valid = judge(schema).is_valid(made)

    def fits(replies):
        answered = replies[1]["ok"] if is_valid else replies[1].get("number") == 45
        return answered and same(replies[2]["value"], made if is_valid else root)

    return patch_lines(schema, root, operations), fits


# ---- queries


class Selectors:
    """A random segment: what it selects of a value, and its text."""

    def __init__(self, choose, root, levels):
        self.descends = choose.random() < 0.2
        self.parts = [random_selector(choose, root, levels) for _ in range(choose.choice([1, 1, 1, 2]))]

    def text(self):
        return (".." if self.descends else "") + "[" + " , ".join(text for text, _ in self.parts) + "]"

    def of(self, nodes):
        for at, value in nodes:
            below = list(locations(value, at)) if self.descends else [(at, value)]
            for each in below:
                for _, select in self.parts:
                    yield from select(*each)


def children(at, value):
    if isinstance(value, list):
        return [((*at, index), element) for index, element in enumerate(value)]
    if isinstance(value, dict):
        return [((*at, name), value[name]) for name in in_order(value)]
    return []


def random_selector(choose, root, levels):
    kind = choose.randrange(5 if levels else 4)
    if kind == 0:
        name = choose.choice(NAMES)
        return quoted(choose, name), lambda at, value: [((*at, name), value[name])] if isinstance(value, dict) and name in value else []
    if kind == 1:
        return "*", children
    if kind == 2:
        index = choose.randrange(-3, 4)
        return str(index), lambda at, value: indexed(at, value, index)
    if kind == 3:
        start, end, step = (choose.choice([None, *range(-4, 5)]) for _ in range(3))
        text = f"{'' if start is None else start} : {'' if end is None else end}" + ("" if step is None else f" :{step}")
        return text.strip(), lambda at, value: sliced(at, value, start, end, 1 if step is None else step)
    text, holds = random_test(choose, root, levels - 1)
    return "?" + text, lambda at, value: [node for node in children(at, value) if holds(node[1])]


def quoted(choose, name):
    mark = choose.choice("'\"")
    inner = "".join(f"\\{each}" if each in (mark, "\\") else f"\\u{ord(each):04x}" if each < " " else each for each in name)
    return mark + inner + mark


def indexed(at, value, index):
    if not isinstance(value, list):
        return []
    place = index if index >= 0 else len(value) + index
    return [((*at, place), value[place])] if 0 <= place < len(value) else []


def sliced(at, value, start, end, step):
    """RFC 9535, section 2.3.4.2.2."""
    if not isinstance(value, list) or step == 0:
        return []
    many = len(value)
    start = (0 if step > 0 else many - 1) if start is None else start
    end = (many if step > 0 else -many - 1) if end is None else end
    first, last = (each if each >= 0 else many + each for each in (start, end))
    if step > 0:
        places = range(min(max(first, 0), many), min(max(last, 0), many), step)
    else:
        places = range(min(max(first, -1), many - 1), min(max(last, -1), many - 1), step)
    return [((*at, place), value[place]) for place in places]


NOTHING = object()


def random_operand(choose, root, levels):
    """Something that can be compared: its text, and what its value is at a value."""
    kind = choose.randrange(4)
    if kind == 0:
        literal = choose.choice([None, True, False, *NUMBERS[:6], "a", "ab", ""])
        text = quoted(choose, literal) if isinstance(literal, str) else json.dumps(literal)
        return text, lambda value: literal
    if kind == 1:
        mark, steps = choose.choice("@$"), [choose.choice([*NAMES[:4], 0, 1, -1]) for _ in range(choose.randrange(3))]
        text = mark + "".join(f"[{quoted(choose, step) if isinstance(step, str) else step}]" for step in steps)

        def singular(value):
            nodes = [((), value if mark == "@" else root)]
            for step in steps:
                nodes = [
                    found for at, each in nodes for found in (
                        indexed(at, each, step) if isinstance(step, int)
                        else [((), each[step])] if isinstance(each, dict) and step in each else []
                    )
                ]
            return nodes[0][1] if nodes else NOTHING

        return text, singular
    text, listed = random_query(choose, root, levels, choose.choice("@$"))
    if kind == 2:
        return f"count({text})", lambda value: len(listed(value))
    if choose.random() < 0.5:
        return f"value({text})", lambda value: only(listed(value))
    return f"length(value({text}))", lambda value: length_of(only(listed(value)))


def only(nodes):
    return nodes[0][1] if len(nodes) == 1 else NOTHING


def length_of(value):
    return len(value) if isinstance(value, (str, list, dict)) else NOTHING


def equal(one, other):
    return one is other if NOTHING in (one, other) else same(one, other)


def less(one, other):
    numbers = type(one) is int and type(other) is int
    texts = isinstance(one, str) and isinstance(other, str)
    return (numbers or texts) and one < other


COMPARISONS = {
    "==": equal, "!=": lambda one, other: not equal(one, other), "<": less, ">": lambda one, other: less(other, one),
    "<=": lambda one, other: less(one, other) or equal(one, other),
    ">=": lambda one, other: less(other, one) or equal(one, other),
}


def random_test(choose, root, levels):
    kind = choose.randrange(6)
    if kind <= 2:
        (left, one), (right, other) = random_operand(choose, root, levels), random_operand(choose, root, levels)
        sign = choose.choice(sorted(COMPARISONS))
        return f"{left} {sign} {right}", lambda value: COMPARISONS[sign](one(value), other(value))
    if kind == 3:
        text, listed = random_query(choose, root, levels, choose.choice("@$"))
        return text, lambda value: bool(listed(value))
    (left, one), (right, other) = random_test(choose, root, levels), random_test(choose, root, levels)
    if kind == 4:
        return f"( {left} && {right} )", lambda value: one(value) and other(value)
    return f"!({left} || {right})", lambda value: not (one(value) or other(value))


def random_query(choose, root, levels, mark):
    segments = [Selectors(choose, root, levels) for _ in range(choose.randrange(3))]

    def listed(value):
        nodes = [((), root if mark == "$" else value)]
        for segment in segments:
            nodes = list(segment.of(nodes))
        return nodes

    return mark + "".join(segment.text() for segment in segments), listed


def normalized(at):
    """RFC 9535, section 2.7."""
    named = {"\b": "\\b", "\t": "\\t", "\n": "\\n", "\f": "\\f", "\r": "\\r", "'": "\\'", "\\": "\\\\"}

    def name(text):
        return "".join(named.get(each, f"\\u{ord(each):04x}" if each < " " else each) for each in text)

    return "$" + "".join(f"[{step}]" if isinstance(step, int) else f"['{name(step)}']" for step in at)


def query_case(choose):
    root = document(choose, 3)
    text, listed = random_query(choose, root, 2, "$")
    wanted = [{"path": normalized(at), "value": value} for at, value in listed(root)]
    lines = [
        {"cmd": "create", "name": "d", "schema": True, "doc": root}, {"cmd": "query", "name": "d", "path": text},
        {"cmd": "delete", "name": "d"},
    ]

    def fits(replies):
        if len(text.encode()) > 1024:
            return replies[1].get("number") == 52
        return replies[1]["ok"] and same(replies[1]["nodes"], wanted)

    return lines, fits


CASES = {
    "patches": patch_case, "schemas": schema_case, "changes": change_case, "sequences": sequence_case, "schemas-3": functools.partial(schema_case, profile=3),
    "changes-3": functools.partial(change_case, profile=3), "sequences-3": functools.partial(sequence_case, profile=3),
    "queries": query_case,
}


def answered(program, given, version):
    """What the program answers: over memory, or over a new file of format 3."""
    if version == 2:
        return subprocess.run([program, "mem", "--sectors", "1048576"], input=given, stdout=subprocess.PIPE, check=True).stdout
    with tempfile.TemporaryDirectory(prefix="jpstore-") as folder:
        file = os.path.join(folder, "store")
        subprocess.run([program, "format", file, "--sectors", "65536", "--format", str(version)], stdout=subprocess.DEVNULL, check=True)
        return subprocess.run([program, "serve", file, "--batch", "1024"], input=given, stdout=subprocess.PIPE, check=True).stdout


def differences(program, part, rounds, seed):
    """How many of this many cases the program answers otherwise; each is shown."""
    choose = random.Random(seed)
    cases = [CASES[part](choose) for _ in range(rounds)]
    given = "".join(compact(line) + "\n" for lines, _ in cases for line in lines).encode()
    replies, failed = iter(answered(program, given, 3 if part.endswith("-3") else 2).splitlines()), 0
    for lines, fits in cases:
        said = [json.loads(next(replies)) for _ in lines]
        if not fits(said):
            failed += 1
            for line, reply in zip(lines, said):
                print(compact(line), "\n ", compact(reply))
            print()
    return failed


def main():
    parser = argparse.ArgumentParser(description=__doc__, formatter_class=argparse.RawDescriptionHelpFormatter)
    parser.add_argument("program")
    parser.add_argument("parts", nargs="*", metavar="PART")
    parser.add_argument("--rounds", type=int, default=2_000)
    parser.add_argument("--seed", type=int, default=1)
    given = parser.parse_args()
    passed = failed = 0
    for part in given.parts or list(CASES):
        if part not in CASES:
            parser.error(f"no part {part}")
        wrong = differences(given.program, part, given.rounds, given.seed)
        print(f"{part}: {given.rounds - wrong} as wanted, {wrong} otherwise")
        passed, failed = passed + given.rounds - wrong, failed + wrong
    print(f"{passed} passed, {failed} failed")
    return 1 if failed else 0


if __name__ == "__main__":
    sys.exit(main())
