"""Random requests for tests/gate/fuzz_http.py, each with the answer that docs/use/HTTP.md promises over the model of the store."""
import collections
import json
import pathlib
import re
from urllib.parse import quote

from differential import NAMES, NUMBERS, document, normalized, random_operation, random_query
from store_model import (
    MOST_LEVELS, SCHEMAS, WRONG_SCHEMAS, Refusal, Revision, Store, levels_of, merged, patched, same, text_of, value_at_pointer,
)

PAGE = pathlib.Path(__file__).resolve().parents[2] / "docs" / "use" / "HTTP.md"
JSON, PATCH, MERGE = "application/json", "application/json-patch+json", "application/merge-patch+json"

# Above these a document is not patched any more, but replaced.
MOST_BYTES, MOST_NESTED = 4000, 12

WRONG_NAMES = ["a b", "é", "x" * 65, "a~b", "a:b", "q?"]
WRONG_POINTERS = ["a", "/~", "/a~2", "~0"]
WRONG_QUERIES = [("", 50), ("a", 50), ("$[", 50), (" $", 50), ("$.a[?count(1) > 0]", 50), ("$[?match(@.a, 'a')]", 51), ("$[?@ > 1.5]", 51),
                 ("$" + "[0]" * 400, 52)]
WRONG_OPERATIONS = [
    5, {}, {"op": "add", "path": "/a"}, {"op": "add", "value": 1}, {"op": "none", "path": ""}, {"op": "move", "path": "/a"},
    {"op": "add", "path": 5, "value": 1}, {"op": "remove", "path": "a"}, {"op": "test", "path": "/~", "value": 1},
    {"op": "copy", "from": "b", "path": ""}, {"op": "move", "from": "", "path": "/a"}, {"op": "move", "from": "/a", "path": "/a/b"},
]
WRONG_CONDITIONS = ["5", '"5', '"1" "2"', ",", "*, *", "w/\"5\""]
NEVER = 10 ** 17

# Each client asks again with its last keys: the store keeps 1,024 of all clients.
MOST_KEYS = 12


class Difference(Exception):
    """An answer that isn't what it should be."""


def expect(holds, what):
    """Raises the difference if something doesn't hold."""
    if not holds:
        raise Difference(what)


def table_of_page():
    """The status and the name of each refusal, as docs/use/HTTP.md has them."""
    rows = re.findall(r"^\| (\d{3}) [\w ]+ \| (\d\d [^|]*) \|$", PAGE.read_text(encoding="utf-8"), re.M)
    return {int(number): (int(status), name) for status, cell in rows for number, name in re.findall(r"(\d+) ([\w-]+)", cell)}


TABLE = table_of_page()


class Asked:
    """A request, what its answer must be, and the documents that it leaves if it is accepted, in the order of the changes."""

    def __init__(self, method, target, body=None, fields=(), changes=()):
        self.method, self.target, self.body, self.fields, self.changes = method, target, body, list(fields), list(changes)
        self.expects = self.answer = None

    def wanting(self, expects):
        """The same with what its answer must be: what `expects` raises is a difference."""
        self.expects = expects
        return self


def refused(number, status=None, **members):
    """The answer to a request that the store refuses."""
    of_table, name = TABLE[number]

    def expects(answer):
        expect_problem(answer, status or of_table, name)
        if answer.content is None:
            return
        told = json.loads(answer.content)
        expect(told.get("number") == number, f"the number is {told.get('number')}, and not {number}")
        for member in ("op", "change", *["rev"] * (number == 24)):
            wanted = members.get(member)
            wanted = wanted.number if isinstance(wanted, Revision) else wanted
            expect(told.get(member) == wanted, f"{member} is {told.get(member)}, and not {wanted}")
    return expects


def problem(status, name):
    """The answer to a request that the gateway refuses itself."""
    return lambda answer: expect_problem(answer, status, name)


def expect_problem(answer, status, name):
    """The answer is this problem (RFC 9457)."""
    expect(answer.status == status, f"the status is {answer.status}, and not {status}")
    if answer.content is None:
        return
    expect(answer.fields["content-type"].startswith("application/problem+json"), "it is no problem")
    told = json.loads(answer.content)
    expect((told["status"], told["name"]) == (status, name), f"it is {told['name']}, and not {name}")


def either(*alternatives):
    """The answer is one of several, if more than one rule says something of the request."""
    def expects(answer):
        differences = []
        for each in alternatives:
            try:
                return each(answer)
            except Difference as difference:
                differences.append(str(difference))
        raise Difference(" or ".join(differences))
    return expects


def made(status, name=None):
    """The answer to an accepted change, of a document if it is named."""
    def expects(answer):
        expect(answer.status == status, f"the status is {answer.status}, and not {status}")
        seq = json.loads(answer.content)["seq"]
        expect(json.loads(answer.content) == {"seq": seq}, "the answer has more than `seq`")
        if name is not None:
            expect(answer.fields["etag"] == f'"{seq}"', f"the tag is {answer.fields['etag']}, and the number {seq}")
            expect((answer.fields.get("location") == f"/documents/{name}") == (status == 201), "the location is wrong")
        return seq
    return expects


def read(text, revision, name, status=200):
    """The answer that has a document, or a part of it."""
    def expects(answer):
        expect(answer.status == status, f"the status is {answer.status}, and not {status}")
        expect(answer.content is None or answer.content == text, f"the content is not {text[:200]!r}")
        expect(answer.fields["etag"] == f'"{revision.number}"', f"the tag is {answer.fields['etag']}, and not {revision.number}")
        expect(answer.fields["link"] == f'</schemas/{name}>; rel="describedby"', "the link is wrong")
        if status == 200:
            expect(int(answer.fields["content-length"]) == len(text), "the length is wrong")
    return expects


def of_change(answer):
    """What an answer says of a change, by which it is the same as another one."""
    return answer.status, answer.content, [answer.fields.get(name) for name in ("etag", "location", "link", "content-type")]


# ---- texts


def json_text(choose, value):
    """A text of a value with blanks, escapes, members in any order, and now and then a member that is there twice."""
    if isinstance(value, str):
        return string_text(choose, value)
    if isinstance(value, list):
        return blanks(choose) + "[" + ",".join(json_text(choose, each) for each in value) + blanks(choose) + "]"
    if isinstance(value, dict):
        return blanks(choose) + "{" + ",".join(members_text(choose, value)) + blanks(choose) + "}" + blanks(choose)
    return blanks(choose) + json.dumps(value) + blanks(choose)


def members_text(choose, value):
    names = choose.sample(sorted(value), len(value))
    for name in names:
        if choose.random() < 0.03:
            # The last one counts.
            yield string_text(choose, name) + ":" + json_text(choose, choose.choice([None, 7, "first", [1]]))
        yield string_text(choose, name) + blanks(choose) + ":" + json_text(choose, value[name])


def blanks(choose):
    return "".join(choose.choice(" \t\r\n") for _ in range(choose.randrange(1, 4))) if choose.random() < 0.05 else ""


def string_text(choose, text):
    if len(text) > 1000 or choose.random() < 0.7:
        return json.dumps(text, ensure_ascii=choose.random() < 0.5)
    return '"' + "".join(character_text(choose, each) for each in text) + '"'


def character_text(choose, character):
    if character in '"\\\n' and choose.random() < 0.7:
        return json.dumps(character)[1:-1]
    if character in '"\\' or character < " " or choose.random() < 0.05:
        return "".join(f"\\u{unit:04{choose.choice('xX')}}" for unit in units_of(character))
    return "\\/" if character == "/" and choose.random() < 0.3 else character


def units_of(character):
    """The code units of a character in UTF-16."""
    coded = character.encode("utf-16-be")
    return [int.from_bytes(coded[at:at + 2], "big") for at in range(0, len(coded), 2)]


def broken_text(choose, value):
    """A body that is not JSON, or has what the store doesn't take, with the numbers that it may be refused with."""
    text = json_text(choose, [value, "end"]).strip().encode()
    kind = choose.randrange(8)
    if kind == 0:
        return text[:choose.randrange(len(text))], (11,)
    if kind == 1:
        return text + choose.choice([b",", b"]", b"1", b"x", b"\x00", b"//", b"\xef\xbb\xbf"]), (11,)
    if kind == 2:
        return b"[" + choose.choice([b"'a'", b"01", b"+1", b".5", b"1.", b"-", b"tru", b"\"\x01\"", b"\"\\x\"", b"\"\\u12\"", b",", b"1,",
                                     b"\"\xff\"", b"\"\xc3\"", b"\"\xed\xa0\x80\""]) + b"]", (11,)
    if kind == 3:
        return b"[" * choose.choice([128, 200, 5000]) + b"1", (11,)
    if kind == 4:
        return b"[" + choose.choice([b"1.5", b"1e2", b"1.0", b"9223372036854775808", b"-9223372036854775809", b"1E400", b"9" * 5000]) + b"]", (12,)
    if kind == 5:
        return b"[1.5" + text, (11,)
    if kind == 6:
        return b"[" + choose.choice([b"NaN", b"Infinity", b"-Infinity", b'"\\ud800"', b'"\\udc00\\ud800"']) + b"]", (11, 12)
    return b"\xef\xbb\xbf" + text, (11,)


def encoded(choose, text, plain=""):
    """A text percent-encoded, also here and there where it need not be."""
    if choose.random() < 0.6:
        return quote(text, safe=plain)
    return "".join(quote(each, safe=plain) if choose.random() > 0.1 else "".join(f"%{byte:02{choose.choice('xX')}}" for byte in each.encode())
                   for each in text)


# ---- conditions


class Condition:
    """The fields `If-Match` and `If-None-Match` of a request, each `*`, tags, or absent."""

    def __init__(self, match=None, none_match=None):
        self.match, self.none_match = match, none_match

    @property
    def given(self):
        """Whether there is one at all."""
        return self.match is not None or self.none_match is not None

    @property
    def costs(self):
        """Whether it takes a number of its own before a deletion or a schema: a condition on a revision does."""
        return self.given and not (self.match == "*" and self.none_match is None)

    def fields(self):
        """The fields."""
        named = (("If-Match", self.match), ("If-None-Match", self.none_match))
        return [(name, value if value == "*" else tags_text(value)) for name, value in named if value is not None]

    def fault(self, document):
        """What a request that changes is refused with at this document, or without one; None if the condition holds."""
        rev = None if document is None else document.revision
        if self.match is not None and not matches(self.match, rev, weakly=False):
            return refused(21, 412) if document is None else refused(24, rev=rev)
        if self.none_match is not None and matches(self.none_match, rev, weakly=True):
            return refused(20, 412) if self.none_match == "*" else refused(24, rev=rev)
        return None

    def seen(self, document):
        """Whether a reader has the newest revision already."""
        return self.none_match is not None and matches(self.none_match, document.revision, weakly=True)


def matches(tags, rev, weakly):
    if rev is None or tags == "*":
        return rev is not None
    return any(number == rev.number and (weakly or not weak) for weak, number in tags)


def tags_text(tags):
    return ", ".join(f'{"W/" if weak else ""}"{number}"' for weak, number in tags)


# ---- requests


class Requests:
    """Random requests for the documents of one client, whose names begin with its prefix, and the model of them."""

    def __init__(self, choose, prefix, has_keys=False):
        self.store, self.last = Store(), 0
        self._choose, self._prefix = choose, prefix
        self._has_keys, self._keys, self._keyed = has_keys, 0, collections.deque(maxlen=MOST_KEYS)
        self._names = [f"{prefix}{name}" for name in ("a", "b", "c", "D", "e.e", "f_f", "0", "-")]
        # What may be asked for, each with how often.
        self._kinds = {
            self._get: 16, self._pointer: 8, self._query: 5, self._get_schema: 3, self._list: 3, self._lines: 1, self._put: 18,
            self._put_with_schema: 4, self._patch: 16, self._merge: 10, self._delete: 4, self._put_schema: 4, self._transact: 8,
            self._broken: 6, self._wrong: 8, self._facts: 2,
        }

    def next(self):
        """A further request. The model goes on as if it were answered as it expects."""
        if self._keyed and self._choose.random() < 0.05:
            return self._again()
        kind, = self._choose.choices(list(self._kinds), self._kinds.values())
        asked = kind()
        if self._has_keys and asked.changes and self._choose.random() < 0.2:
            self._give_key(asked)
        return asked

    def _give_key(self, asked):
        """Gives an `Idempotency-Key` to a request that changes something, and keeps what it is answered."""
        self._keys += 1
        asked.fields.append(("Idempotency-Key", f'"{self._prefix}{self._keys}"'))
        judge = asked.expects

        def expects(answer):
            asked.answer = of_change(answer)
            return judge(answer)
        self._keyed.append(asked.wanting(expects))

    def _again(self):
        """A request that was made once more, which is answered as it was then; or another one that has its key."""
        first = self._choose.choice(self._keyed)
        if self._choose.random() < 0.3:
            fields = [first.fields[-1], ("If-Match", f'"{NEVER}"')]
            return Asked("DELETE", self._path(self._name()), fields=fields).wanting(problem(422, "idempotency-key-reused"))

        def expects(answer):
            expect(of_change(answer) == first.answer, f"it is not answered as before: {first.answer}")
        return Asked(first.method, first.target, first.body, first.fields).wanting(expects)

    def _name(self, only_there=False):
        there = list(self.store.documents)
        if there and (only_there or self._choose.random() < 0.7):
            return self._choose.choice(there)
        if self._choose.random() < 0.02:
            return self._choose.choice(WRONG_NAMES)
        return self._choose.choice(self._names)

    def _path(self, name, of="documents"):
        return f"/{of}/" + encoded(self._choose, name, "")

    def _value(self):
        chance = self._choose.random()
        if chance < 0.003:
            return "x" * self._choose.choice([60_000, 70_000, 300_000])
        if chance < 0.006:
            return nested(self._choose.choice([MOST_LEVELS, MOST_LEVELS + 1]))
        return document(self._choose, 3)

    def _condition(self, document):
        choose = self._choose
        if choose.random() < 0.6:
            return Condition()
        number = document.revision.number if document else None
        tags = [(False, choose.choice([0, NEVER, (number or 1) - 1]))]
        if number is not None and choose.random() < 0.6:
            tags.insert(choose.randrange(2), (choose.random() < 0.15, number))
        value = "*" if choose.random() < 0.3 else tags[:choose.choice([1, 2])]
        return Condition(value) if choose.random() < 0.6 else Condition(None, value)

    def _changed(self, asked, commands, status, name=None, also=None):
        """The request that makes changes: what the model makes of them is what must be answered."""
        try:
            documents = self.store.transaction(commands)
        except Refusal as refusal:
            return asked.wanting(self._refused(refusal, len(commands), name, also))
        asked.changes = [(command["name"], document) for command, document in zip(commands, documents)]
        return asked.wanting(made(status, name))

    @staticmethod
    def _refused(refusal, count, name, also):
        members = dict(refusal.members)
        if name is not None or count == 1:
            # A single change, with or without a condition before it.
            members.pop("change")
        wanted = refused(refusal.number, **members)
        return either(wanted, *also) if also else wanted

    # Reading.

    def _get(self):
        name, path = self._name(), self._path
        method = self._choose.choice(["GET", "GET", "GET", "HEAD"])
        return self._read(method, path(name), name, lambda document: text_of(document.value))

    def _get_schema(self):
        name = self._name()
        return self._read("GET", self._path(name, "schemas"), name, lambda document: text_of(document.schema))

    def _pointer(self):
        name, choose = self._name(), self._choose
        document = self.store.documents.get(name)
        pointer = choose.choice(WRONG_POINTERS) if choose.random() < 0.05 else ""
        if document and not pointer:
            pointer = random_operation(choose, document.value)["path"]
        target = self._path(name) + "?pointer=" + encoded(choose, pointer, "/")
        return self._read("GET", target, name, lambda document: text_of(value_at_pointer(document.value, pointer)))

    def _read(self, method, target, name, text):
        try:
            document = self.store.there(name)
            content = text(document)
        except Refusal as refusal:
            return Asked(method, target).wanting(refused(refusal.number))
        condition = self._condition(document)
        asked = Asked(method, target, fields=condition.fields())
        if condition.match is not None and not matches(condition.match, document.revision, weakly=False):
            return asked.wanting(refused(24, rev=document.revision))
        return asked.wanting(read(content, document.revision, name, 304 if condition.seen(document) else 200))

    def _query(self):
        name, choose = self._name(only_there=True), self._choose
        document = self.store.documents.get(name)
        text, listed = random_query(choose, document.value if document else None, 2, "$")
        number = 52 if len(text.encode()) > 1024 else None
        if choose.random() < 0.1:
            text, number = choose.choice(WRONG_QUERIES)
        asked = Asked("GET", self._path(name) + "?query=" + encoded(choose, text, "$"))
        faults = [number] if number else []
        if document is None:
            faults.append(21 if name in self._names else 15)
        if faults:
            return asked.wanting(either(*map(refused, faults)))
        nodes = [{"path": normalized(at), "value": value} for at, value in listed(document.value)]

        def expects(answer):
            expect(answer.status == 200, f"the status is {answer.status}, and not 200")
            expect(same(json.loads(answer.content), nodes), f"the nodes of {text} are not {nodes}")
            expect(answer.fields["etag"] == f'"{document.revision.number}"', "the tag is wrong")
        return asked.wanting(expects)

    def _list(self):
        prefix = self._prefix + self._choose.choice(["", "", "a", "e.", "none"])
        names = [name for name in self.store.documents if name.startswith(prefix)]

        def expects(answer):
            expect((answer.status, json.loads(answer.content)) == (200, names), f"the names are not {names}")
        return Asked("GET", "/documents?prefix=" + encoded(self._choose, prefix)).wanting(expects)

    def _lines(self):
        documents = dict(self.store.documents)

        def expects(answer):
            expect(answer.status == 200, f"the status is {answer.status}, and not 200")
            wanted = [{"doc": document.value, "name": name, "rev": document.revision.number, "schema": document.schema}
                      for name, document in documents.items()]
            lines = [json.loads(line) for line in answer.content.splitlines()]
            expect(same(lines, wanted), f"the lines are not {wanted}")
            last = max((document.revision.number for document in documents.values()), default=0)
            expect(int(answer.fields["jpstore-seq"]) >= last, "`Jpstore-Seq` is too small")
        return Asked("GET", "/documents?prefix=" + self._prefix, fields=[("Accept", "application/x-ndjson")]).wanting(expects)

    # Changing.

    def _put(self):
        name, value = self._name(), self._value()
        document = self.store.documents.get(name)
        condition = self._condition(document)
        asked = Asked("PUT", self._path(name), self._text(value), [("Content-Type", self._json_type()), *condition.fields()])
        fault = condition.fault(document)
        if fault and name in self._names:
            return asked.wanting(fault)
        if document is None:
            also = [refused(24), refused(21, 412)] if condition.given else []
            return self._changed(asked, [{"cmd": "create", "name": name, "doc": value, "schema": True}], 201, name, also)
        whole = [{"op": "replace", "path": "", "value": value}]
        if levels_of(value) > MOST_LEVELS:
            return asked.wanting(either(refused(13), refused(13, op=0), refused(36)))
        return self._changed(asked, [{"cmd": "patch", "name": name, "ops": whole}], 200, name)

    def _put_with_schema(self):
        name, choose = self._name(), self._choose
        value, schema = document(choose, 2), self._schema()
        fields, target = [("Content-Type", JSON)], self._path(name)
        linked = [other for other in self.store.documents if other != name]
        if linked and choose.random() < 0.3:
            other = choose.choice(linked)
            schema, fields = self.store.documents[other].schema, [*fields, ("Link", f'</schemas/{other}>; rel="describedby"')]
        else:
            target += "?schema=" + encoded(choose, json_text(choose, schema))
        asked = Asked("PUT", target, self._text(value), fields)
        if name not in self.store.documents:
            return self._changed(asked, [{"cmd": "create", "name": name, "doc": value, "schema": schema}], 201, name)
        whole = {"cmd": "patch", "name": name, "ops": [{"op": "replace", "path": "", "value": value}]}
        under = [{"cmd": "schema", "name": name, "schema": each} for each in (True, schema)]
        return self._changed(asked, [under[0], whole, under[1]], 200, name)

    def _schema(self):
        if self._choose.random() < 0.2:
            return self._choose.choice(WRONG_SCHEMAS)[0]
        # Those that accept all are met most, so that few documents are refused.
        return self._choose.choices(SCHEMAS, [6, 3, *[1] * (len(SCHEMAS) - 2)])[0]

    def _operations(self, value):
        """A patch whose result is no larger than others."""
        choose, operations = self._choose, []
        for _ in range(choose.choice([0, 1, 1, 1, 2, 3, 5])):
            each = random_operation(choose, value)
            try:
                after = patched(value, [each])
            except Refusal:
                return [*operations, each]
            if len(text_of(after)) < MOST_BYTES and levels_of(after) < MOST_NESTED:
                operations, value = [*operations, each], after
        if choose.random() < 0.06:
            operations.insert(choose.randrange(len(operations) + 1), choose.choice(WRONG_OPERATIONS))
        return operations

    def _patch(self):
        name = self._name()
        document = self.store.documents.get(name)
        operations = self._operations(document.value if document else None)
        condition = self._condition(document)
        body = self._text(5 if self._choose.random() < 0.01 else operations)
        asked = Asked("PATCH", self._path(name), body, [("Content-Type", PATCH), *condition.fields()])
        command = {"cmd": "patch", "name": name, "ops": json.loads(body)}
        return self._conditional(asked, condition, document, [command])

    def _merge(self):
        name, choose = self._name(), self._choose
        document = self.store.documents.get(name)
        patch = merge_patch(choose, document.value if document else None)
        condition = self._condition(document)
        asked = Asked("PATCH", self._path(name), self._text(patch), [("Content-Type", MERGE), *condition.fields()])
        value = merged(document.value, patch) if document else None
        if len(text_of(value)) > MOST_BYTES or levels_of(value) > MOST_NESTED:
            return self._put()
        command = {"cmd": "patch", "name": name, "ops": [{"op": "replace", "path": "", "value": value}]}
        return self._conditional(asked, condition, document, [command])

    def _conditional(self, asked, condition, document, commands):
        """A change of a document that must be there, at a condition."""
        fault = condition.fault(document) if document else None
        if not fault:
            return self._changed(asked, commands, 200, commands[-1]["name"])
        try:
            # A request that would be refused anyway may be refused for that (RFC 9110, section 13.2.1).
            Store(self.store.documents).transaction(commands)
        except Refusal as refusal:
            return asked.wanting(either(fault, self._refused(refusal, 1, commands[0]["name"], [])))
        return asked.wanting(fault)

    def _delete(self):
        name = self._name()
        document = self.store.documents.get(name)
        condition = self._condition(document)
        asked = Asked("DELETE", self._path(name), fields=condition.fields())
        asked = self._conditional(asked, condition, document, [*self._guard(condition, name), {"cmd": "delete", "name": name}])
        if asked.changes:
            asked.expects = made(200)
        return asked

    def _put_schema(self):
        name, schema = self._name(), self._schema()
        document = self.store.documents.get(name)
        condition = self._condition(document)
        kind = self._choose.choice(["application/schema+json", JSON])
        asked = Asked("PUT", self._path(name, "schemas"), self._text(schema), [("Content-Type", kind), *condition.fields()])
        return self._conditional(asked, condition, document, [*self._guard(condition, name), {"cmd": "schema", "name": name, "schema": schema}])

    @staticmethod
    def _guard(condition, name):
        return [{"cmd": "patch", "name": name, "ops": []}] if condition.costs else []

    def _transact(self):
        commands, trial = [], Store(self.store.documents)
        for _ in range(self._choose.choice([1, 2, 2, 3, 4, 8])):
            commands.append(self._command(trial))
            try:
                trial.change(commands[-1])
            except Refusal:
                break
        asked = Asked("POST", "/transactions", self._text({"changes": commands}), [("Content-Type", JSON)])
        asked = self._changed(asked, commands, 200)
        if not asked.changes:
            asked.expects = self._of_transaction(commands)
        return asked

    def _of_transaction(self, commands):
        """The refusal of a transaction, in which a document or revision that is not there is a conflict."""
        try:
            Store(self.store.documents).transaction(commands)
        except Refusal as refusal:
            status = 409 if TABLE[refusal.number][0] in (404, 412) else None
            return refused(refusal.number, status, **refusal.members)
        raise AssertionError("the model refuses it once, and then not")

    def _command(self, trial):
        choose = self._choose
        there = list(trial.documents)
        name = choose.choice(there) if there and choose.random() < 0.8 else choose.choice(self._names)
        kind = choose.random()
        if name not in trial.documents and kind < 0.85:
            return {"cmd": "create", "name": name, "doc": document(choose, 2), "schema": choose.choice(SCHEMAS[:2])}
        if kind < 0.15:
            return {"cmd": "delete", "name": name}
        if kind < 0.3:
            return {"cmd": "schema", "name": name, "schema": self._schema()}
        known = trial.documents.get(name)
        command = {"cmd": "patch", "name": name, "ops": self._operations(known.value if known else None)}
        if known and known.revision.number is not None and choose.random() < 0.3:
            command["if_rev"] = choose.choice([known.revision.number] * 3 + [0])
        return command

    # What is refused whatever the documents are.

    def _text(self, value):
        return json_text(self._choose, value).encode()

    def _json_type(self):
        return self._choose.choice([JSON, JSON, "application/vnd.x+json", "Application/JSON; charset=UTF-8", 'application/json;charset="utf-8"'])

    def _broken(self):
        name, choose = self._name(only_there=True), self._choose
        body, numbers = broken_text(choose, document(choose, 2))
        method, target, kind = choose.choice([("PUT", self._path(name), JSON), ("PATCH", self._path(name), PATCH),
                                              ("PATCH", self._path(name), MERGE), ("POST", "/transactions", JSON),
                                              ("PUT", self._path(name, "schemas"), JSON)])
        return Asked(method, target, body, [("Content-Type", kind)]).wanting(either(*map(refused, numbers)))

    def _wrong(self):
        method, target, body, fields, expects = self._choose.choice(self._wrongs())
        return Asked(method, target, body, fields).wanting(expects)

    def _wrongs(self):
        choose, name = self._choose, self._name(only_there=True)
        path, typed = self._path(name), [("Content-Type", JSON)]
        body = self._text(document(choose, 2))
        hidden = b"DELETE " + path.encode() + b" HTTP/1.1\r\nHost: localhost\r\n\r\n"
        return [
            ("GET", "/nothing", None, [], problem(404, "request")), ("POST", path, body, typed, problem(405, "request")),
            ("DELETE", "/documents", hidden, [], problem(405, "request")), ("PUT", "/status", hidden, typed, problem(405, "request")),
            ("PUT", path, hidden, [("Content-Type", "text/plain")], problem(415, "media-type")),
            ("PATCH", path, body, typed, problem(415, "media-type")),
            ("PUT", path, body, [("Content-Type", JSON + "; charset=latin-1")], problem(415, "media-type")),
            ("PUT", path, hidden, [*typed, ("Content-Encoding", "gzip")], problem(415, "coding")),
            ("GET", path + "?none=1", None, [], problem(400, "parameter")), ("GET", path + "?pointer=&pointer=", None, [], problem(400, "parameter")),
            ("GET", path + "?pointer=%zz", None, [], problem(400, "parameter")), ("GET", path + "?pointer=%FF", None, [], problem(400, "parameter")),
            ("GET", path + "?pointer=&query=$", None, [], problem(400, "parameter")), ("DELETE", path + "?x", None, [], problem(400, "parameter")),
            ("GET", path, None, [("Origin", "http://example.org")], problem(403, "origin")),
            ("PUT", path, hidden, [*typed, ("Origin", "null")], problem(403, "origin")),
            ("DELETE", path, None, [("Host", "example.org")], problem(421, "host")),
            ("PUT", path, body, [*typed, ("If-Match", choose.choice(WRONG_CONDITIONS))], problem(400, "condition")),
            ("POST", "/transactions", body, [*typed, ("If-Match", '"1"')], problem(412, "condition")),
            ("POST", "/transactions", b'{"changes":[]}', typed, refused(14)), ("POST", "/transactions", b"[]", typed, refused(14)),
            ("POST", "/transactions", b'{"changes":[{"cmd":"status"}]}', typed, refused(14)),
            ("POST", "/transactions", b'{"changes":[{"cmd":"delete"}]}', typed, refused(14)),
            ("POST", "/transactions", b'{"changes":[],"more":1}', typed, refused(14)),
            ("GET", "/changes?from=x", None, [], problem(400, "parameter")), ("GET", f"/changes?from={NEVER}", None, [], problem(410, "gone")),
            ("PUT", path + "?schema=%7B", body, typed, refused(11)),
            ("PUT", path, body, [*typed, ("Link", '<http://example.org/s>; rel="describedby"')], problem(400, "link")),
        ]

    def _facts(self):
        def status(answer):
            told = json.loads(answer.content)
            expect(answer.status == 200 and told["seq"] >= self.last and told["documents"] >= len(there), "the status is wrong")

        def healthy(answer):
            expect((answer.status, json.loads(answer.content)) == (200, {"ok": True}), "it is not healthy")

        def ready(answer):
            expect(answer.status in (200, 204) and (answer.content is None or answer.content), "it is not answered")
        there = list(self.store.documents)
        choices = [("GET", "/status", status), ("GET", "/healthz", healthy), ("GET", "/metrics", ready), ("GET", "/openapi.json", ready),
                   ("GET", "/problems/depth", ready), ("OPTIONS", "/documents/" + self._names[0], ready)]
        method, target, expects = self._choose.choice(choices)
        return Asked(method, target).wanting(expects)


def nested(levels):
    """A value of this many levels."""
    value = 1
    for _ in range(levels):
        value = [value]
    return value


def merge_patch(choose, value):
    """A merge patch that has to do with a value."""
    if not isinstance(value, dict) or choose.random() < 0.15:
        return document(choose, 2)
    names = choose.sample([*value, *NAMES[:4]], min(len(value) + 4, choose.randrange(4)))
    return {name: choose.choice([None, choose.choice(NUMBERS), document(choose, 1), merge_patch(choose, value.get(name))]) for name in names}


def accepted(asked, seq):
    """Notes the revisions of the documents that an accepted request made; answers each change's number, name and document."""
    first = seq - len(asked.changes) + 1
    for number, (_, made_document) in enumerate(asked.changes, first):
        if made_document is not None:
            made_document.revision.number = number
    return [(number, *change) for number, change in enumerate(asked.changes, first)]
