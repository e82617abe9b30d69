#!/usr/bin/env python3
"""Counts how many schemas of other people a store reads: as they are, adapted, and without the keywords that match texts.

Beside that it counts those that a store of format 3 reads, with their patterns, and puts N random documents under each:
the store must judge them as the library jsonschema does.

    adapt_schemas.py PROGRAM [--documents N] [--draw N] PATH..

Each PATH is a file with a schema, or a folder: of its JSON files those are taken that name a draft of JSON Schema, each
text once. With --draw N of them are drawn. A schema that is not read must be told with the number and the place of each
fault. The last line is `N passed, M failed`.

Debian's packages can be unpacked by `dpkg-deb -x`. These of Debian 12 have 80 schemas: ansible-lint, cloud-init, cmake-data,
docker-compose, golang-github-opencontainers-image-spec-dev, golang-github-opencontainers-specs-dev, iso-codes, node-ajv,
node-har-schema, python3-altair, python3-jsonschema, python3-nbformat, python3-validate-pyproject and
ruby-diaspora-federation-json-schema. Python's package cfn-lint has those of AWS's resources.
"""
import argparse
import collections
import json
import os
import pathlib
import random
import sys
import tempfile
import warnings

sys.path.insert(0, str(pathlib.Path(__file__).resolve().parents[2] / "clients" / "python"))

from adapt_patterns import Maker  # noqa: E402
from jpstore import Invalid, JpstoreError, Refused, Schema, Store, explain, format_file  # noqa: E402
from jpstore.cli.adapting import _beside  # noqa: E402
from jpstore.faults.references import References  # noqa: E402
from jpstore.patterns import read_dialect  # noqa: E402

MATCHING = ["pattern", "patternProperties"]
LARGE, INVALID = 44, 45


def value_in(path):
    with open(path, encoding="utf-8") as opened:
        return json.load(opened)


def schemas(paths):
    """The files of schemas, each once."""
    for path in paths:
        if os.path.isfile(path):
            yield path
        for folder, _, names in sorted(os.walk(path)):
            for name in sorted(names):
                file = os.path.join(folder, name)
                if name.endswith(".json") and names_a_draft(file):
                    yield file


def drawn(files, count):
    """Each file whose text no file before it has, or so many of them by chance."""
    texts = {}
    for file in files:
        texts.setdefault(pathlib.Path(file).read_bytes(), file)
    found = list(texts.values())
    return found if count is None else random.Random(73).sample(found, count)


def names_a_draft(path):
    try:
        value = value_in(path)
    except (OSError, ValueError, RecursionError):
        return False
    return isinstance(value, dict) and "json-schema.org" in str(value.get("$schema", ""))


def is_read(store, schema):
    """Whether the store takes a schema, be the document valid under it or not."""
    return refusal_of(store, schema) in (0, INVALID)


def refusal_of(store, schema):
    """The number by which the store refuses a document under this schema; 0 if it doesn't, None if it can't be sent."""
    try:
        store.create("d", 0, schema)
    except Refused as refused:
        return refused.number
    except JpstoreError:
        return None
    store.delete("d")
    return 0


def judged(store, path):
    """How a schema is read, or that it is told what is not; None if something is wrong."""
    schema, folder = value_in(path), os.path.dirname(os.path.abspath(path))
    if is_read(store, schema):
        return "as it is"
    for drop, how in (([], "adapted"), (MATCHING, "without " + " and ".join(MATCHING))):
        adapted = Schema.adapt(schema, drop=drop, read=lambda uri: _beside(folder, uri), profile=2)
        if adapted.is_read:
            return how if is_read(store, adapted.schema) else None
    told = all(fault.message for fault in adapted.left) and adapted.left
    return "told with places: " + adapted.left[0].message[:60] if told else None


def in_profile_3(store, path, documents, chance):
    """How a store of format 3 reads a schema when it is adapted; None if something is wrong."""
    folder = os.path.dirname(os.path.abspath(path))
    adapted = Schema.adapt(value_in(path), read=lambda uri: _beside(folder, uri), profile=3)
    if adapted.is_read and refusal_of(store, adapted.schema) == LARGE:
        return "in profile 3 with too large patterns (44)"
    if adapted.is_read:
        return "adapted in profile 3" if agrees(store, path, adapted.schema, documents, chance) else None
    if not all(fault.number and fault.message and is_place(adapted.schema, fault.place) for fault in adapted.left):
        return None
    fault = adapted.left[0]
    return f"told in profile 3: {fault.number} {fault.message[:40]}"


def is_place(schema, pointer):
    """Whether the pointer leads to something in the schema."""
    for token in pointer.split("/")[1:]:
        token = token.replace("~1", "/").replace("~0", "~")
        if isinstance(schema, dict) and token in schema:
            schema = schema[token]
        elif isinstance(schema, list) and token.isdigit() and int(token) < len(schema):
            schema = schema[int(token)]
        else:
            return False
    return True


def agrees(store, path, schema, documents, chance):
    """Whether the store reads a schema and judges so many random documents by it as jsonschema does."""
    if not is_read(store, schema):
        print(f"{path}: adapted in profile 3, and not read")
        return False
    for _ in range(documents):
        document = some_value(schema, schema, chance, 5)
        valid = not explain(document, schema, 1)
        if is_valid(store, document, schema) != valid:
            print(f"{path}: {json.dumps(document)[:300]} is {'valid' if valid else 'not valid'} to jsonschema, but not to the store")
            return False
    return True


def is_valid(store, document, schema):
    try:
        store.create("d", document, schema)
    except Invalid:
        return False
    store.delete("d")
    return True


def some_value(root, schema, chance, depth):
    """A random value, mostly as the schema asks."""
    if not isinstance(schema, dict) or depth == 0 or chance.random() < 0.07:
        return chance.choice([None, True, 0, 7, -1, "", "a", "a1", "1.2", "https://a/b", [], ["a"], {}, {"a": 1}])
    for word in ("const", "enum"):
        if word in schema and chance.random() < 0.9:
            return schema[word] if word == "const" else chance.choice(schema[word] or [None])
    if "$ref" in schema:
        return some_value(root, References(root, 3).target(schema["$ref"])[1], chance, depth - 1)
    parts = [part for word in ("anyOf", "oneOf", "allOf") for part in schema.get(word, [])]
    if parts and chance.random() < 0.7:
        return some_value(root, chance.choice(parts), chance, depth)
    kinds = schema.get("type", "object" if "properties" in schema else ["string", "object", "integer"])
    kind = chance.choice(kinds) if isinstance(kinds, list) else kinds
    if kind == "object":
        return some_object(root, schema, chance, depth)
    if kind == "array":
        return [some_value(root, schema.get("items", {}), chance, depth - 1) for _ in range(chance.randint(0, 3))]
    if kind in ("integer", "number"):
        return chance.choice([0, 1, schema.get("minimum", 5), schema.get("maximum", 9), chance.randint(-9, 99)])
    if kind == "string":
        return some_text(schema.get("pattern", ""), chance)
    return chance.choice([True, False]) if kind == "boolean" else None


def some_object(root, schema, chance, depth):
    known = schema.get("properties", {})
    names = [name for name in known if chance.random() < 0.2 or name in schema.get("required", [])]
    made = {name: some_value(root, known[name], chance, depth - 1) for name in names if chance.random() < 0.95}
    if isinstance(schema.get("propertyNames"), dict) and chance.random() < 0.5:
        made[some_text(schema["propertyNames"].get("pattern", ""), chance)] = chance.choice([0, "a", None])
    for pattern, part in schema.get("patternProperties", {}).items():
        if chance.random() < 0.5:
            made[some_text(pattern, chance)] = some_value(root, part, chance, depth - 1)
    if chance.random() < 0.3:
        made[chance.choice(["x-a", "other", "1"])] = some_value(root, schema.get("additionalProperties", {}), chance, depth - 1)
    return made


def some_text(pattern, chance):
    """A text that the pattern finds, or nearly one."""
    text = Maker(read_dialect(pattern), chance)
    made = text.text(text.tree(), 20)[:60]
    return made if chance.random() < 0.8 else made[1:] + chance.choice("a1-_.\n\u00e9\u0663")


def main():
    parser = argparse.ArgumentParser(description=__doc__, formatter_class=argparse.RawDescriptionHelpFormatter)
    parser.add_argument("program")
    parser.add_argument("paths", nargs="+")
    parser.add_argument("--documents", type=int, default=100)
    parser.add_argument("--draw", type=int)
    args = parser.parse_args()
    warnings.simplefilter("ignore")
    counts, others, failed, chance = collections.Counter(), collections.Counter(), 0, random.Random(73)
    with tempfile.TemporaryDirectory(prefix="jpstore-") as folder:
        files = [os.path.join(folder, f"store{version}") for version in (2, 3)]
        for file, version in zip(files, (2, 3)):
            format_file(file, 1 << 16, args.program, version=version)
        with Store(files[0], program=args.program) as store, Store(files[1], program=args.program) as third:
            for path in drawn(schemas(args.paths), args.draw):
                how = judged(store, path)
                counts[how] += 1
                if how is None:
                    print(f"{path}: adapted, and not read")
                in_third = in_profile_3(third, path, args.documents, chance)
                others[in_third] += 1
                failed += how is None or in_third is None
    for how, count in [*counts.items(), *others.items()]:
        print(f"{count:4} {how}")
    print(f"{sum(counts.values()) - failed} passed, {failed} failed")
    return 1 if failed else 0


if __name__ == "__main__":
    sys.exit(main())
