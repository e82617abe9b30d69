"""What a query selects: the keys and the pointer of a node, and one query over all documents."""
import asyncio

import pytest
from jpstore import AsyncStore, Malformed, Node, create
from support import raised

# The normalized paths are those of RFC 9535, section 2.7, table 20, and of its rules for names.
_PLACES = [
    ("$", (), ""),
    ("$['a']", ("a",), "/a"),
    ("$[1]", (1,), "/1"),
    ("$['a'][0]['b']", ("a", 0, "b"), "/a/0/b"),
    ("$['\\u000b']", ("\u000b",), "/\u000b"),
    ("$['a\\'b']['c\\\\']['\\\\\\'']", ("a'b", "c\\", "\\'"), "/a'b/c\\/\\'"),
    ("$['\"']['\\b\\t\\n\\f\\r']", ('"', "\b\t\n\f\r"), '/"/\b\t\n\f\r'),
    ("$['0'][10]['a/b~c']['']", ("0", 10, "a/b~c", ""), "/0/10/a~1b~0c/"),
    ("$['[1]'][\"x\"]"[:8], ("[1]",), "/[1]"),
    ("$['\u4e2d \U0001f600']", ("\u4e2d \U0001f600",), "/\u4e2d \U0001f600"),
]


@pytest.mark.parametrize("path, keys, pointer", _PLACES)
def test_a_node_has_its_keys_and_its_pointer(path, keys, pointer):
    node = Node(path, 1)
    assert (node.keys, node.pointer) == (keys, pointer)


def test_the_store_names_places_so(place):
    names = ["a", "a'b", "c\\", "\\'", '"', "\b\t\n\f\r\x00\x7f", "a/b~c", "", "[1]", "\u4e2d", "\u2028", "$['x']"]
    with place.made() as store:
        store.create("d", {name: [name] for name in names})
        nodes = store.query("d", "$[*][0]")
        assert sorted(node.keys for node in nodes) == sorted((name, 0) for name in names)
        assert all(store.get("d", node.pointer) == node.value == node.keys[0] for node in nodes)


def test_a_query_goes_over_all_documents(place):
    with place.made() as store:
        store.group([create(f"item-{number}", {"stock": number}) for number in range(100)])
        store.create("other", {"stock": 3})
        few = store.query_all("$[?@ < 2]")
        assert few == {f"item-{number}": [Node("$['stock']", number)] for number in range(2)}
        assert list(store.query_all("$.stock", "item-9")) == ["item-9", *(f"item-{each}" for each in range(90, 100))]
        assert store.names("oth") == ["other"] and len(store.names()) == 101
        assert raised(Malformed, store.query_all, "stock").number == 50


def test_a_query_goes_over_all_documents_by_asyncio(place):
    async def run():
        async with AsyncStore(place.format(), program=place.program) as store:
            await store.group([create("a", [1]), create("b", [2])])
            assert await store.query_all("$[?@ > 1]") == {"b": [Node("$[0]", 2)]}
            assert await store.names("a") == ["a"]
    asyncio.run(run())
