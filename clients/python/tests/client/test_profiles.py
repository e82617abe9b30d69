"""What stores of formats 2 and 3 say of schemas, through each client, and that schemas of format 3 stay in it."""
import pytest
from gateways import Gateway
from hubs import Hub
from jpstore import Ended, Invalid, Refused, Store, copy_file, create, grow, grow_file, upgrade_file
from jpstore.errors import refusal_of
from support import raised

# A schema, the numbers by which a document that is the text `a` is refused under it in format 2 and in format 3, and
# what the client tells of the place in format 3.
_ROWS = [
    ({"pattern": "^a$"}, 41, None, ""),
    ({"pattern": "b"}, 41, 45, ""),
    ({"properties": {"n": {"pattern": "a(?!b)"}}}, 41, 40,
     "at `/properties/n/pattern`: it is no pattern from character 2 (`(?!b)`) on: looking ahead and behind"),
    ({"pattern": "a" * 4097}, 41, 44, "at `/pattern`: the pattern has 4,097 bytes, and may have 4,096"),
    ({"allOf": [{"pattern": "a"}] * 65}, 41, 44, "at `/allOf/64/pattern`: a schema has at most 64 patterns"),
    ({"pattern": r"^\w{1,255}$"}, 41, 44, "its patterns take too much memory"),
    ({"dependentSchemas": {"a": 5}}, 41, 40, "at `/dependentSchemas/a`: 5 is no schema"),
    ({"patternProperties": {"a": False}}, 41, None, ""),
    ({"type": "object", "patternProperties": {"a": False}}, 41, 45, ""),
    ({"patternProperties": {"a{": {}}}, 41, 40, "at `/patternProperties/a{`: it is no pattern from character 2"),
    ({"patternProperties": ["a"]}, 41, 40,
     "at `/patternProperties`: `patternProperties` is [\"a\"], and must be an object of schemas by patterns"),
    ({"patternProperties": {f"a{number:02}": True for number in range(65)}}, 41, 44,
     "at `/patternProperties/a64`: a schema has at most 64 patterns"),
    ({"$ref": "#/not/not", "not": {"not": {"minLength": 1}}}, 42, None, ""),
    ({"$ref": "#/properties/a~1b%25", "properties": {"a/b%": False}}, 42, 45, ""),
    ({"$ref": "#/properties/a/not", "properties": {"a": {}}}, 42, 42,
     "at `/$ref`: \"#/properties/a/not\" leads to no schema: the one at `/properties/a` has none at `/not`; put"),
    ({"allOf": [{"$ref": "#/allOf/0"}]}, 42, 43, "at `/allOf/0`: the way `/allOf/0` leads back to it"),
    ({"$ref": "#%61", "not": {"$anchor": "a", "minLength": 2}}, 41, 45, ""),
    ({"$anchor": "a", "items": {"$anchor": "a"}}, 41, 40, "at `/items/$anchor`: the root has the same `$anchor`"),
    ({"$anchor": "1"}, 41, 40, "at `/$anchor`: `$anchor` is \"1\", and must be a letter or `_`, then letters, digits"),
    ({"unevaluatedItems": True}, 41, 41, "at `/unevaluatedItems`: `unevaluatedItems` is not supported; "),
]


@pytest.mark.parametrize("version", [2, 3])
@pytest.mark.parametrize("through", ["file", "hub"])
def test_each_format_says_what_it_reads(place, version, through):
    place.format(version=version)
    hub = Hub(place) if through == "hub" else None
    try:
        with hub.connect() if hub else place.store() as store:
            for schema, *numbers, said in _ROWS:
                _is_refused(store, schema, numbers[version - 2], said if version == 3 else "")
    finally:
        if hub:
            hub.__exit__()


def _is_refused(store, schema, number, said):
    if number is None:
        store.create("d", "a", schema)
        store.delete("d")
        return
    refused = raised(Refused, store.create, "d", "a", schema)
    assert refused.number == number, schema
    assert number == 45 or refused.detail.startswith(said or "at `"), refused.detail


def test_over_http_too(place):
    place.format(version=3)
    with Gateway(place) as gateway:
        for number, (schema, _, wanted, said) in enumerate(_ROWS):
            gateway.put(f"/documents/d{number}", "a")
            answer = gateway.put(f"/schemas/d{number}", schema)
            assert answer.json().get("number") == wanted, schema
            assert wanted in (None, 45) or answer.json()["detail"].startswith(said), answer.body


def test_a_keyword_of_format_3_keeps_the_store_in_it(place):
    for library in ("jsonschema", "jsonpatch"):
        pytest.importorskip(library)
    place.format(version=3)
    with place.store() as store:
        store.create("d", "a", {"pattern": "^a"})
    for call in (lambda: upgrade_file(place.file, 2, place.program),
                 lambda: grow(place.file, place.path("new"), 8192, place.program, version=2),
                 lambda: copy_file(place.file, place.path("new"), 8192, place.program, version=2)):
        ended = raised(Ended, call)
        assert (ended.name, ended.number) == ("newer-schema", 76), ended
    # It grows, and is copied, in its format.
    assert grow_file(place.file, 8192, place.program).sectors == 8192
    assert copy_file(place.file, place.path("new"), 512, place.program).sectors == 512
    for file in (place.file, place.path("new")):
        assert upgrade_file(file, 3, place.program) == 3
        with Store(file, program=place.program) as store:
            assert store.schema("d") == {"pattern": "^a"}
    assert b"stay in format 3" in place.run("upgrade", place.file, "--format", "2", status=1).stderr
    with place.store() as store:
        assert store.schema("d") == {"pattern": "^a"}
        refused = raised(Invalid, store.patch, "d", [{"op": "replace", "path": "", "value": "b"}])
        assert [fault.keyword for fault in refused.why()] == ["/pattern"]
        store.set_schema("d", True)
    assert upgrade_file(place.file, 2, place.program) == 3


def test_over_1024_documents_keep_the_store_in_format_3(place):
    place.format(version=3)
    with place.store() as store:
        assert store.status().most_documents == 65_536
        store.transaction([create(f"d{number}", number) for number in range(1_024)])
        store.create("e", 1)
    for call in (lambda: upgrade_file(place.file, 2, place.program),
                 lambda: copy_file(place.file, place.path("new"), 8192, place.program, version=2)):
        ended = raised(Ended, call)
        assert (ended.name, ended.number) == ("too-many", 22), ended
    grow_file(place.file, 8192, place.program)
    with place.store() as store:
        assert store.status().documents == 1_025
        store.delete("d7")
    assert upgrade_file(place.file, 2, place.program) == 3
    with place.store() as store:
        assert (store.status().most_documents, store.status().documents) == (1_024, 1_024)
        assert raised(Refused, store.create, "d7", 7).number == 22


def test_large_tables_are_told_with_what_helps(place):
    place.format(version=3)
    with place.store() as store:
        refused = raised(Refused, store.create, "d", "a", {"pattern": r"^\p{L}{1,1000}$"})
        assert refused.number == 44 and "by `maxLength`" in refused.advice
        refused = raised(Refused, store.create, "d", {}, {"patternProperties": {r"^\p{L}{1,1000}$": True}})
        assert refused.number == 44 and "by `maxLength`" in refused.advice
        store.create("d", "a", {"pattern": r"^\p{L}+$", "maxLength": 1000})
    plain = refusal_of({"number": 44, "error": "schema-size", "ok": False}, {"cmd": "list"})
    assert "by `maxLength`" not in plain.advice


def test_an_upgrade_is_advised_where_it_helps(place):
    with place.made() as store:
        for schema, helps in (({"pattern": "a"}, True), ({"patternProperties": {"a": {}}}, True),
                              ({"unevaluatedItems": True}, False), ({"items": {"$id": "pattern"}}, False)):
            refused = raised(Refused, store.create, "d", {}, schema)
            assert (refused.number, "upgrade" in refused.advice) == (41, helps), refused.advice


def test_a_dump_goes_into_format_3_alone(place):
    place.format(version=3)
    with place.store() as store:
        store.create("d", "a", {"pattern": "^a"})
    dumped = place.run("dump", place.file).stdout
    place.format(file=place.path("second"))
    place.format(file=place.path("third"), version=3)
    refused = place.run("load", place.path("second"), given=dumped, status=6).stderr
    assert b"`pattern` needs a store of format 3" in refused
    place.run("load", place.path("third"), given=dumped)
    with Store(place.path("third"), program=place.program) as store:
        assert store.schema("d") == {"pattern": "^a"}
