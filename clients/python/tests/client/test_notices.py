"""What is accepted in silence is warned of, and what is wrong in a text is told with its place."""
import asyncio
import time
import warnings

import pytest
from jpstore import AsyncStore, JpstoreWarning, Unsendable, create, set_schema
from jpstore.notices import notices_of_schema
from jpstore.wire.texts import value_of_text
from support import raised


def test_a_keyword_with_a_wrong_letter_is_told():
    schema = {"properties": {"minimun": {"minimun": 3}, "b": {"items": {"tpye": "string"}}}, "allOf": [{"requird": []}],
              "$defs": {"c": {"Maximum": 1}, "d": {"itemss": True}}}
    told = [notice.partition(": perhaps")[0] for notice in notices_of_schema(schema)]
    assert sorted(told) == [
        "schema /$defs/c/Maximum: `Maximum` is not a keyword, and is ignored",
        "schema /$defs/d/itemss: `itemss` is not a keyword, and is ignored",
        "schema /allOf/0/requird: `requird` is not a keyword, and is ignored",
        "schema /properties/b/items/tpye: `tpye` is not a keyword, and is ignored",
        "schema /properties/minimun/minimun: `minimun` is not a keyword, and is ignored"]
    assert notices_of_schema({"minimun": 3})[0].endswith("perhaps `minimum` is meant")


@pytest.mark.parametrize("word, meant", [
    ("property", "properties"), ("additionalProperty", "additionalProperties"), ("min", "minimum"),
    ("maxLen", "maxLength"), ("unique", "uniqueItems"), ("nullable", '"null"` in a list of `type'), ("unit", None),
    ("port", None),
])
def test_a_name_that_is_no_keyword_is_told(word, meant):
    hint = f": perhaps `{meant}` is meant" if meant else ""
    assert notices_of_schema({"properties": {"a": {word: {}}}}) == [
        f"schema /properties/a/{word}: `{word}` is not a keyword, and is ignored{hint}"]


def test_a_warning_that_is_an_error_stops_the_change(place):
    with place.made() as store, warnings.catch_warnings():
        warnings.simplefilter("error", JpstoreWarning)
        raised(JpstoreWarning, store.create, "a", 1, {"property": {}})
        assert store.names() == []


def test_what_is_no_mistake_is_not_told():
    schema = {"title": "a", "x-note": 1, "const": {"tpye": 1}, "enum": [{"minimun": 1}],
              "default": {"formt": 1}, "properties": {"format": True, "requird": False},
              "dependentRequired": {"tpye": []}}
    assert notices_of_schema(schema) == []
    assert notices_of_schema(True) == []


def test_the_longest_schemas_take_little():
    long = {"properties": {"x" * 500_000: {"allOf": [{"minimun": 1}] * 100_000}}}
    told = notices_of_schema(long)
    assert len(told) == 100
    assert all(len(notice) < 1200 for notice in told)
    # No word of these is near a keyword, but some begin as one.
    begin = time.process_time()
    for many in ({f"abcde{number:06}": 1 for number in range(100_000)},
                 {"properties": {"x" * 500_000: {f"y{number}": 1 for number in range(100_000)}}},
                 {"properties": {"a" * 500_000: {"b" * 500_000: 1}}},
                 {f"x-{number}": 1 for number in range(100_000)}):
        told = notices_of_schema(many)
        assert len(told) <= 100 and all(len(notice) < 2200 for notice in told)
    assert time.process_time() - begin < 5


def test_format_is_told():
    notice, = notices_of_schema({"properties": {"mail": {"format": "email"}}})
    assert notice.startswith("schema /properties/mail/format: `format` is not checked")


def test_keywords_of_earlier_drafts_are_told(place):
    schema = {"dependencies": {"a": ["b"]}, "items": {"additionalItems": False}, "not": {"$recursiveRef": "#"},
              "id": "a", "properties": {"a": {"divisibleBy": 2, "disallow": "any", "extends": {}}}}
    said = "is a keyword of earlier drafts, and is ignored: use"
    assert sorted(notices_of_schema(schema)) == [
        f"schema /dependencies: `dependencies` {said} `dependentRequired`",
        f"schema /id: `id` {said} `$id`",
        f"schema /items/additionalItems: `additionalItems` {said} `prefixItems` and `items`",
        f"schema /not/$recursiveRef: `$recursiveRef` {said} `$ref`",
        f"schema /properties/a/disallow: `disallow` {said} `not`",
        f"schema /properties/a/divisibleBy: `divisibleBy` {said} `multipleOf`",
        f"schema /properties/a/extends: `extends` {said} `allOf`"]
    with place.made() as store, pytest.warns(JpstoreWarning):
        # The store accepts them, as JSON Schema 2020-12 has it for names that it doesn't know.
        store.create("a", {"a": 1}, {"dependencies": {"a": ["b"]}})


ORDERS = [create("order-1", {"total": 5000, "state": "open", "lines": {"a": {"count": 1}}}),
          create("order-2", {"total": 7000, "state": "sent"}), create("free", 1)]


@pytest.mark.parametrize("query, step", [
    ("$[?@.total > 6000]", ".total"), ("$[?@.count > 1 && @['state'] == 'open']", "['state']"),
    ("$[?@.total > 6000 && $.total > 6000]", ".total"),
    # These ask the document, or what is in its members.
    ("$[?$.total > 8000]", None), ("$.lines[?@.total > 5]", None), ("$[?@.none > 5]", None), ("$[?@ == 8]", None),
    ("$[?@.a.count > 5]", None), ("$[?@ == '@.total']", None),
])
def test_a_filter_that_asks_the_members_for_what_the_document_has(place, query, step):
    said = [f"in `{query}`, `@` is each member of the document, and none of them has `{step}`: the document's own is "
            f"`${step}`"] if step else []

    async def in_a_task():
        async with AsyncStore(place.file, program=place.program) as store:
            return await store.query("order-1", query), await store.query_all(query)

    with warnings.catch_warnings(record=True) as told:
        warnings.simplefilter("always")
        with place.made() as store:
            store.group(ORDERS)
            assert (store.query("order-1", query), store.query_all(query)) == ([], {})
        assert asyncio.run(in_a_task()) == ([], {})
    told = [each for each in told if each.category is JpstoreWarning]
    assert [str(each.message) for each in told] == 4 * said
    assert {each.filename for each in told} <= {__file__}
    ended = place.run("find", "store", "--all", query)
    assert ended.stdout == b"" and (said[0] if said else "") in ended.stderr.decode()


def test_a_filter_that_finds_something_is_not_warned_of(place):
    with place.made() as store, warnings.catch_warnings():
        warnings.simplefilter("error")
        store.group(ORDERS)
        assert list(store.query_all("$[?$.total > 6000]")) == ["order-2"]
        assert [node.keys for node in store.query("order-1", "$[?@.a.count == 1]")] == [("lines",)]


def test_the_client_warns_where_it_is_called(place):
    with place.made() as store:
        calls = [lambda: store.create("a", 1, {"formt": "email"}), lambda: store.set_schema("a", {"minimun": 3}),
                 lambda: store.group([create("b", 1, {"minimun": 3}), set_schema("b", {"format": "x"})])]
        for call in calls:
            with pytest.warns(JpstoreWarning) as told:
                call()
            assert {warning.filename for warning in told} == {__file__}
        with warnings.catch_warnings():
            warnings.simplefilter("error")
            store.create("c", 1, {"minimum": 1})


def test_the_client_for_asyncio_warns_where_it_is_called(place):
    async def run():
        async with AsyncStore(place.format(), program=place.program) as store:
            await store.create("a", 1, {"formt": "email"})
            await store.group([create("b", 1, {"minimun": 3})])
    with pytest.warns(JpstoreWarning) as told:
        asyncio.run(run())
    # Python itself may warn meanwhile of what another test left.
    ours = [warning for warning in told if issubclass(warning.category, JpstoreWarning)]
    assert [warning.filename for warning in ours] == [__file__] * 2


def test_a_name_that_is_repeated_is_told():
    with pytest.warns(JpstoreWarning) as told:
        assert value_of_text('{"a": 1, "b": [{"x/y": 1, "x/y": 2}], "a": 3}', "file") == {"a": 3, "b": [{"x/y": 2}]}
    assert sorted(str(warning.message) for warning in told) == [
        f"file: `{place}` is there more than once; the last one counts" for place in ("/a", "/b/0/x~1y")]


@pytest.mark.parametrize("text, told", [
    ('{"a": 1,\n  "b": }', "not JSON: line 2, column 8: Expecting value"),
    (b'{"a":\n "\xc3\xa4\xff"}', "not UTF-8: line 2, column 4: byte 0xff"),
    (b"\xef\xbb\xbf{}", "not JSON: line 1, column 1: it begins with a byte order mark: save it without"),
    ("[" * 100000, "not JSON: line 1, column 128: level 128 begins"),
    ('{"[": [\n' + "[ " * 5000, "not JSON: line 2, column 251: level 128 begins"),
])
def test_the_place_of_a_fault_is_told(text, told):
    assert str(raised(Unsendable, value_of_text, text)) == told


def test_the_place_of_a_number_is_told(place):
    with place.made() as store:
        for text, told in (("[0, 1e2]", "/doc/1: 100.0 is not"), ('{"a": {"b": -1.5}}', "/doc/a/b: -1.5 is not"),
                           ("9" * 5000, "/doc: a number is beyond 64 bits"), ("NaN", "/doc: nan is not")):
            assert told in str(raised(Unsendable, store.create, "d", value_of_text(text)))
