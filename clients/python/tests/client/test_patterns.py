"""Patterns of ECMA-262 mean the same when they are rewritten; what can't be kept is told with its place."""
import random
import re

import pytest
from jpstore import Schema, explain
from jpstore.patterns import NoPattern, finds, read_dialect, read_ecma, same, written
from pages import page
from support import raised

# Patterns, texts, and which of them node's RegExp with the flag `u` finds the pattern in (without it in the last rows).
_FOUND = [
    (r"^\d+$", ["1", "12", "\u0663", "a", ""], "11000"),
    (r"^\w$", ["a", "_", "\u00e9", "-"], "1100"),
    (r"^\s$", [" ", "\ufeff", "\u0085", "\u2028", "a"], "11010"),
    ("^.$", ["a", "\n", "\r", "\u2028", "\u0085", "\U0001f600"], "100011"),
    (r"\ba", ["a", "\u00e9a", "-a", "ba"], "1110"),
    (r"a\B", ["a", "ab", "a\u00e9"], "010"),
    ("^[a&&b]$", ["a", "&", "b"], "111"),
    ("^[[a]$", ["[", "a", "]"], "110"),
    ("^[~~]$", ["~"], "1"),
    (r"^\cJ\/$", ["\n/", "J/"], "10"),
    (r"^\ud83d\ude00$", ["\U0001f600"], "1"),
    (r"^\u{1F600}$", ["\U0001f600", "u"], "10"),
    (r"^[\ud83d\ude00-\ud83d\ude02]$", ["\U0001f601", "\ud7ff"], "10"),
    (r"^[^\d\s]$", ["a", "1", "\ufeff"], "100"),
    ("[]", ["a", ""], "00"),
    ("^[^]$", ["\n", "\U0001f600"], "11"),
    (r"^[\b]\0$", ["\b\0"], "1"),
    ("a$", ["a", "a\n"], "10"),
    ("^(?<n>a|b)+?$", ["ab", "c"], "10"),
    (r"^\p{Lu}\P{L}$", ["A1", "a1"], "10"),
    (r"^\-\_[\w-.]$", ["-_-", "-_.", "-_,"], "110"),
    ("^a]{$", ["a]{"], "1"),
]

# What is no pattern of ECMA-262, or has no counterpart in the store: from which character on, and what is said.
_TOLD = [
    ("^(?!a)b", 1, "looking ahead"), ("a(?=b)", 1, "looking ahead"), ("(?<!a)b", 0, "looking behind"),
    (r"(a)\1", 3, "a reference back"), (r"(?<n>a)\k<n>", 7, "a reference back"), (r"\Aa\Z", 0, "`^` is the begin"),
    (r"a\Z", 1, "`$` is the end"), ("(?i)a", 0, "no such group"), ("(?P<n>a)", 0, "no such group"),
    ("(a", 0, "not closed"),
    ("a)", 1, "no group is open"), ("[a", 0, "not closed"), ("a**", 2, "nothing here to repeat"), ("{2}", 0, "nothing"),
    ("[z-a]", 2, "ends before"), ("a{2,1}", 1, "least count"), (r"\p{Greek}", 0, "no such property"),
    (r"\p{L}\-", 5, "is not read with the flag `u`"),
    (r"\_[\ud800\udc00-\udbff\udfff]", 0, "is not read with the flag `u`"), ("a\\", 1, "a backslash ends"),
    ("^[\U0001f1e6-\U0001f1ff]}", 6, "is not read with the flag `u`"),
    (r"\u{110000}", 0, "no such character"),
]

# Patterns of the store's dialect, by the documentation of Rust's crate `regex`, and texts that they match or not.
_DIALECT = [
    (r"(?i)^straSSe$", ["STRASSE", "stra\u017fse"], ["stra\u00dfe"]), (r"^[\w&&[^_]]+$", ["\u00e91"], ["a_"]),
    (r"^[a-z--[aeiou]]$", ["b"], ["a"]), (r"^[a-c~~b-d]$", ["a", "d"], ["b"]), (r"^[[:digit:]]$", ["1"], ["\u0663"]),
    (r"(?m)^b$", ["a\nb"], ["ab"]), (r"(?s)^.$", ["\n"], []), (r"^.$", ["\r"], ["\n"]), (r"\Aa\z", ["a"], ["a\n"]),
    (r"(?x) a b # and", ["ab"], ["a b"]), (r"^\d\pL\p{Lu}$", ["\u0663aA"], ["1aa"]),
    (r"^\x{1F600}\x41$", ["\U0001f600A"], []),
    (r"\b{start}a", ["-a"], ["\u00e9a"]), (r"(?-u:\b)a", ["\u00e9a"], ["ba"]),
    (r"^(?:a{2}){2,}$", ["aaaa"], ["aaa", "aa"]),
    (r"^[]a]$", ["]"], ["b"]), (r"^(?P<n>a|)$", ["", "a"], ["b"]), (r"(?i-u)^k$", ["K"], ["\u212a"]),
    (r"(?i)^k$", ["\u212a"], []), (r"^a++$", ["aa"], []),
]


@pytest.mark.parametrize("pattern, texts, found", _FOUND)
def test_a_rewritten_pattern_finds_the_same(pattern, texts, found):
    made = written(read_ecma(pattern).tokens)
    assert "".join(str(int(bool(finds(made, text)))) for text in texts) == found, made


@pytest.mark.parametrize("pattern, place, said", _TOLD)
def test_what_is_not_kept_is_told(pattern, place, said):
    fault = raised(NoPattern, read_ecma, pattern)
    assert (fault.place, said in fault.message) == (place, True), fault.message


def test_the_table_of_the_page_says_what_to_write():
    rows = re.findall(r"^\| (`.*`) \| .* \| (`.*`) \|$", page("use", "MODELLING.md"), re.M)
    pairs = [pair for row in rows for pair in zip(*(re.findall("`([^`]+)`", cell) for cell in row))]
    assert len(pairs) == 14
    for theirs, ours in pairs:
        token, = read_ecma(theirs).tokens
        # Two of them are groups, which what is written for the other is too.
        assert same(read_dialect(ours), [token]) or written([token]) == ours, (theirs, ours)


@pytest.mark.parametrize("pattern, matching, others", _DIALECT)
def test_the_dialect_of_the_store_is_read(pattern, matching, others):
    assert [finds(pattern, text) for text in matching + others] == [True] * len(matching) + [False] * len(others)


def test_no_pattern_of_the_dialect_is_told():
    for pattern, place in (("(", 0), ("a{", 1), ("{", 0), (r"\q", 0), ("(?=a)", 0), ("[b-a]", 2), (r"\1", 0), ("*a", 0),
                           ("(?-u:.)", 5), ("[a", 0), (")", 0), ("a{2,1}", 1), ("[a&&]b", None), ("(" * 251, 250)):
        if place is None:
            read_dialect(pattern)
        else:
            assert raised(NoPattern, read_dialect, pattern).place == place, pattern


@pytest.mark.time_limit(20)
def test_a_hostile_pattern_is_searched_for_in_little_time():
    assert finds(r"^(a*)*$", "a" * 20000 + "b") is False
    assert finds(r"^(a|aa)+$", "a" * 20000 + "b") is False
    assert finds(r"(.?){1000}b", "a" * 20000) in (False, None)
    assert finds("((a{100}){100}){100}", "a") is None
    assert finds(r"\p{Script=Greek}", "a") is None
    chance, signs = random.Random(73), "ab\\d[](){}?*+|^$.-&~:<>PpxuB2,i#\u00e9"
    for _ in range(2000):
        pattern = "".join(chance.choice(signs) for _ in range(chance.randint(1, 12)))
        for read in (read_ecma, read_dialect):
            try:
                read(pattern)
            except NoPattern as told:
                assert 0 <= told.place <= len(pattern) and told.message


def test_profile_3_keeps_patterns():
    schema = {"$schema": "https://json-schema.org/draft/2020-12/schema",
              "properties": {"a": {"pattern": r"^\d.$"}, "b": {"pattern": "^(?!x)b"}, "c": {"pattern": r"[^a]\-"},
                             "d": {"pattern": r"\ud800"}},
              "patternProperties": {r"^\d$": {"pattern": r"\d"}, "^x-": True, "^[0-9]$": False,
                                    "(?=a)": {"pattern": "(?=b)"}},
              "additionalProperties": False, "dependentSchemas": {"a": {"required": ["c"]}}}
    adapted = Schema.adapt(schema, profile=3)
    assert adapted.schema == {
        **schema, "properties": {"a": {"pattern": r"^[0-9][^\n\r\u{2028}\u{2029}]$"}, "b": {"pattern": "^(?!x)b"},
                                 "c": {"pattern": r"[^a]\-"}, "d": {"pattern": r"(?:\z.)"}},
        "patternProperties": {"^[0-9]$": {"allOf": [{"pattern": "[0-9]"}, False]}, "^x-": True,
                              "(?=a)": {"pattern": "(?=b)"}}}
    assert [(fault.number, fault.place) for fault in adapted.left] == [
        (40, "/properties/b/pattern"), (40, "/patternProperties/(?=a)/pattern"), (40, "/patternProperties/(?=a)")]
    assert "it is no pattern from character 2 (`(?!x)b`) on: looking ahead" in adapted.left[0].message
    assert [change.place for change in adapted.changes] == ["/properties/c/pattern", "/properties/d/pattern"]
    # In profile 2 nothing has changed.
    assert {fault.number for fault in Schema.adapt(schema, profile=2).left} == {41}
    assert Schema.adapt(schema, profile=2).schema["properties"] == schema["properties"]


_FAULTS = [
    ({"pattern": "(a"}, 40, "/pattern"), ({"pattern": 5}, 40, "/pattern"),
    ({"dependentSchemas": {"a": {"minLength": -1}}}, 40, "/dependentSchemas/a/minLength"),
    ({"dependentSchemas": {"a": 5}}, 40, "/dependentSchemas/a"), ({"dependentSchemas": []}, 40, "/dependentSchemas"),
    ({"dependentSchemas": {"a": {"pattern": "a{"}}}, 40, "/dependentSchemas/a/pattern"),
    ({"patternProperties": {"a/{": True}}, 40, "/patternProperties/a~1{"),
    ({"patternProperties": {"a": 5}}, 40, "/patternProperties/a"),
    ({"patternProperties": []}, 40, "/patternProperties"),
    ({"patternProperties": {"a": {"patternProperties": {"(": {}}}}}, 40, "/patternProperties/a/patternProperties/("),
    ({"patternProperties": {"a": {"$ref": "#/$defs/b"}}}, 42, "/patternProperties/a/$ref"),
    ({"$anchor": "a", "items": {"$anchor": "a"}}, 40, "/items/$anchor"), ({"$anchor": 1}, 40, "/$anchor"),
    ({"$anchor": "1a"}, 40, "/$anchor"), ({"items": {"$anchor": ""}}, 40, "/items/$anchor"),
    ({"$ref": "#a", "default": {"$anchor": "a"}}, 42, "/$ref"), ({"$anchor": "a", "$ref": "#a"}, 43, ""),
    ({"unevaluatedItems": False}, 41, "/unevaluatedItems"), ({"$dynamicRef": "#a"}, 41, "/$dynamicRef"),
    ({"$ref": "#a"}, 42, "/$ref"), ({"$ref": "#/properties/a"}, 42, "/$ref"), ({"$ref": "x#"}, 42, "/$ref"),
    ({"items": {"$ref": "#/allOf/00"}, "allOf": [{}]}, 42, "/items/$ref"), ({"$ref": "#/$defs/%ff"}, 42, "/$ref"),
    ({"items": {"$ref": "#/default"}, "default": {}}, 42, "/items/$ref"), ({"$ref": "#/$defs/~2"}, 42, "/$ref"),
    ({"items": {"$ref": "#/properties"}, "properties": {}}, 42, "/items/$ref"), ({"$ref": ""}, 43, ""),
    ({"allOf": [{"$ref": "#/allOf/1"}, {"$ref": "#/allOf/0"}]}, 43, "/allOf/0"),
    ({"dependentSchemas": {"a": {"$ref": "#/$defs/b"}}}, 42, "/dependentSchemas/a/$ref"),
    ({"dependentSchemas": {"a": {"$ref": "#"}}}, 43, ""),
    ({"allOf": [{"pattern": "a"}] * 65}, 44, "/allOf/64/pattern"), ({"pattern": "a" * 4097}, 44, "/pattern"),
    ({"patternProperties": {f"a{number}": True for number in range(65)}}, 44, "/patternProperties/a64"),
    ({"patternProperties": {"a": {"pattern": "b"}}, "allOf": [{"pattern": "a"}] * 63}, 44, "/allOf/62/pattern"),
    ({"patternProperties": {"a" * 4097: True}}, 44, "/patternProperties/" + "a" * 4097),
    ({"pattern": "\u00e9" * 2049}, 44, "/pattern"),
]


@pytest.mark.parametrize("schema, number, place", _FAULTS)
def test_the_faults_of_profile_3_are_told(schema, number, place):
    assert (number, place) in [(fault.number, fault.place) for fault in Schema.faults(schema, profile=3)]
    assert Schema.faults(schema, profile=2)


def test_what_profile_3_reads_has_no_fault():
    for schema in ({"pattern": "a" * 4096}, {"pattern": "\u00e9" * 2048}, {"allOf": [{"pattern": "a"}] * 64},
                   {"patternProperties": {f"a{number}": {} for number in range(64)}, "additionalProperties": {}},
                   {"patternProperties": {"^x": {"$ref": "#"}, "": True}}, {"patternProperties": {}},
                   {"items": {"$ref": "#/properties/a~1b%25c/not"}, "properties": {"a/b%c": {"not": False}}},
                   {"$id": "http://x/y", "items": {"$ref": "http://x/y#/contains"}, "contains": {}},
                   {"$id": "http://x/y", "items": {"$ref": "http://x/y#z"}, "contains": {"$anchor": "z"}},
                   {"items": {"$ref": "#%5fA-1."}, "$defs": {"a": {"not": {"$anchor": "_A-1."}}}},
                   {"$anchor": "a", "const": {"$anchor": "a"}, "properties": {"$anchor": {"$anchor": "b"}}},
                   {"$id": "http://x/y", "items": {"$ref": "http://x/y"}, "contains": {"$ref": ""}},
                   {"$id": "http://x/y#", "items": {"$ref": "http://x/y#/contains"}, "contains": {}},
                   {"items": {"$ref": "#/allOf/0"}, "allOf": [True]},
                   {"items": {"$ref": "#/%24defs/a"}, "$defs": {"a": {}}},
                   {"items": {"$ref": "#/patternProperties/a~0"}, "patternProperties": {"a~": {}}},
                   {"items": {"$ref": "#/$defs/%/$defs/\u00e4"}, "$defs": {"%": {"$defs": {"\u00e4": {}}}}},
                   {"default": {"pattern": "("}, "enum": [{"pattern": "("}], "properties": {"pattern": {}}},
                   {"dependentSchemas": {"a": {"properties": {"a": {"$ref": "#"}}}, "$ref": True}}):
        assert Schema.faults(schema, profile=3) == [], schema


def test_the_faults_of_profile_2_name_the_format_that_reads_more():
    faults = Schema.faults({"pattern": "(", "dependentSchemas": {"a": 5}, "patternProperties": {"(": 5},
                            "$anchor": "a", "not": {"$ref": "#/items"}, "items": {"$dynamicAnchor": "x"}}, profile=2)
    assert [(fault.number, fault.place) for fault in faults] == [
        (41, "/pattern"), (41, "/dependentSchemas"), (41, "/patternProperties"), (41, "/$anchor"), (42, "/not/$ref"),
        (41, "/items/$dynamicAnchor")]
    assert ["needs a store of format 3" in fault.message for fault in faults] == [True] * 5 + [False]


def test_what_a_reference_misses_is_told():
    for schema, said in (
            ({"$defs": {"address": {}}, "$ref": "#/$defs/adress"}, "perhaps `#/$defs/address` is meant"),
            ({"$defs": {"a b": {}}, "$ref": "#/definitions/a b"}, "write `#/$defs/a%20b`"),
            ({"properties": {"a": {}}, "$ref": "#/properties/a/items"},
             "the one at `/properties/a` has none at `/items`; put that schema under `$defs` of the root"),
            ({"$ref": "#/components/a~1b"}, "the root has none at `/components/a~1b`; put"),
            ({"items": {"$anchor": "node"}, "$ref": "#nodes"}, "perhaps `#node` is meant"),
            ({"$ref": "#q"}, "none has this `$anchor`, and `#/` begins the way to one"),
            ({"$ref": "#/$defs/%ff", "$defs": {}}, "what it writes by `%` is no text in UTF-8"),
            ({"$ref": "#/$defs/~2", "$defs": {}}, "in a name `~0` means `~`, and `~1` means `/`"),
            ({"$ref": "o.json"}, "leads to no schema in this one: put")):
        fault, = Schema.faults(schema, profile=3)
        assert (fault.number, said in fault.message) == (42, True), fault.message


@pytest.mark.parametrize("profile", [2, 3])
def test_a_schema_that_is_too_large_is_told_with_its_place(profile):
    deep = {}
    for _ in range(64):
        deep = {"not": deep}
    assert [(fault.number, fault.place) for fault in Schema.faults(deep, profile=profile)] == [(44, "/not" * 64)]
    assert Schema.faults(deep["not"], profile=profile) == []
    long = {"title": "x" * (262144 - len('{"title":""}'))}
    assert Schema.faults(long, profile=profile) == []
    assert [fault.number for fault in Schema.faults({"title": long["title"] + "x"}, profile=profile)] == [44]


def test_documents_are_explained_by_the_patterns_of_the_store():
    pytest.importorskip("jsonschema")
    schema = {"$schema": "https://json-schema.org/draft/2020-12/schema",
              "properties": {"a": {"pattern": r"^\x{41}\d$"}},
              "propertyNames": {"pattern": "^[a-z&&[^b]]$"}, "dependentSchemas": {"a": {"required": ["c"]}}}
    assert explain({"a": "A\u0663", "c": 1}, schema) == []
    assert explain([1], schema) == explain({"c": "b"}, schema) == []
    faults = explain({"a": "Ax", "b": 4}, schema)
    assert sorted((fault.place, fault.keyword) for fault in faults) == [
        ("", "/dependentSchemas/a/required"), ("", "/propertyNames/pattern"), ("/a", "/properties/a/pattern")]
    assert re.search("'Ax' does not match", faults[-1].message)


def test_members_are_explained_by_the_patterns_of_their_names():
    pytest.importorskip("jsonschema")
    schema = {"properties": {"id": True}, "patternProperties": {"^[a-z&&[^a]]$": {"maximum": 3}, "/": False},
              "additionalProperties": {"type": "null"}}
    assert explain({"b": 3, "_": None, "id": 5}, schema) == explain("text", schema) == []
    faults = explain({"b": 4, "bb": 1, "a/b": 1}, schema)
    assert [(fault.place, fault.keyword) for fault in faults] == [
        ("/a~1b", "/patternProperties/~1"), ("/b", "/patternProperties/^[a-z&&[^a]]$/maximum"),
        ("/bb", "/additionalProperties/type")]
    closed = {"patternProperties": {"^a": True, "^b": True}, "additionalProperties": False}
    assert explain({"a": 1, "b": 2}, closed) == []
    assert [fault.message for fault in explain({"x": 1, "y": 2}, closed)] == [
        "'x', 'y' do not match any of the patterns '^a', '^b'"]
    # What only the store's tables know is left to the store.
    assert explain({"x": 1}, {"patternProperties": {r"\p{Script=Greek}": False}, "additionalProperties": False}) == []
    assert [fault.message for fault in explain({"x": 1}, {"additionalProperties": False})] == [
        "Additional properties are not allowed ('x' was unexpected)"]
