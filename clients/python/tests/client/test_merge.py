"""Merge patches: each test case of RFC 7396, appendix A, by the function and by a store."""
import json

import pytest
from jpstore import Malformed, NotFound, Outdated
from jpstore.merge import merged, operations_of_merge
from support import raised

# Original, patch, result.
CASES = [
    ('{"a":"b"}', '{"a":"c"}', '{"a":"c"}'),
    ('{"a":"b"}', '{"b":"c"}', '{"a":"b","b":"c"}'),
    ('{"a":"b"}', '{"a":null}', '{}'),
    ('{"a":"b","b":"c"}', '{"a":null}', '{"b":"c"}'),
    ('{"a":["b"]}', '{"a":"c"}', '{"a":"c"}'),
    ('{"a":"c"}', '{"a":["b"]}', '{"a":["b"]}'),
    ('{"a":{"b":"c"}}', '{"a":{"b":"d","c":null}}', '{"a":{"b":"d"}}'),
    ('{"a":[{"b":"c"}]}', '{"a":[1]}', '{"a":[1]}'),
    ('["a","b"]', '["c","d"]', '["c","d"]'),
    ('{"a":"b"}', '["c"]', '["c"]'),
    ('{"a":"foo"}', 'null', 'null'),
    ('{"a":"foo"}', '"bar"', '"bar"'),
    ('{"e":null}', '{"a":1}', '{"e":null,"a":1}'),
    ('[1,2]', '{"a":"b","c":null}', '{"a":"b"}'),
    ('{}', '{"a":{"bb":{"ccc":null}}}', '{"a":{"bb":{}}}'),
]


@pytest.mark.parametrize("original, patch, result", CASES)
def test_the_function_merges(original, patch, result):
    assert merged(json.loads(original), json.loads(patch)) == json.loads(result)


def test_a_store_merges(place):
    with place.made() as store:
        for number, (original, patch, result) in enumerate(CASES):
            store.create(f"d{number}", json.loads(original))
            store.merge_patch(f"d{number}", json.loads(patch))
            assert store.get(f"d{number}") == json.loads(result)


def test_names_are_escaped_and_the_revision_counts(place):
    with place.made() as store:
        store.create("d", {"a/b": {"~": 1}, "keep": 1})
        assert store.merge_patch("d", {"a/b": {"~": 2}, "": 3}, if_rev=1) == 2
        assert store.get("d") == {"a/b": {"~": 2}, "keep": 1, "": 3}
        assert raised(Outdated, store.merge_patch, "d", {"keep": 2}, 1).rev == 2
        raised(NotFound, store.merge_patch, "other", {})
        assert raised(Malformed, store.merge_patch, "d", {}, -1).number == 14


def test_more_members_than_a_patch_has_operations(place):
    many = {f"n{number}": number for number in range(5000)}
    assert len(operations_of_merge({}, many)) == 1
    with place.made() as store:
        store.create("d", {"first": 1})
        store.merge_patch("d", many)
        assert store.get("d") == {"first": 1, **many}
