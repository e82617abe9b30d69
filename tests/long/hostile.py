#!/usr/bin/env python3
"""Sessions that a hostile client would try, against a built program.

    hostile.py PROGRAM [--before OTHER] [--group GROUP] [--only WORD] [--seconds N]

Each row of the table is a session: lines, and the replies that must come. It is served over memory and from a file,
each time with the row's stack (8 MB, or 2 MB for the deepest inputs), 2 GB of address space and 5 seconds; all must end
with these replies and status 0, and `check` must open the file afterwards. With `--before` the same sessions are given
to another program, with the same limits, and what each of the two took is shown side by side.

Each line of what it prints says what the session took: first, if that is known, with the program before queries went
by plans and moves carried their lengths, and then now. `tests/data/hostile.txt` has one run.

A row is `Row(group, name, lines, replies)`: `lines` are commands (or bytes, sent as they are), `replies` what is
answered to each: an object, or the number of a refusal. What is wanted is worked out here and never taken from a program.
"""
import argparse
import json
import os
import resource
import subprocess
import sys
import tempfile
import time
from dataclasses import dataclass

MEGABYTE = 1 << 20
LINE = 1048576
SECTORS = 32768


@dataclass
class Row:
    group: str
    name: str
    lines: list
    replies: list
    stack: int = 8
    before: str = ""


def create(doc, schema=True, name="d"):
    return {"cmd": "create", "doc": doc, "name": name, "schema": schema}


def query(path, name="d"):
    return {"cmd": "query", "name": name, "path": path}


def get(name, path=""):
    return {"cmd": "get", "name": name, "path": path}


def done(seq=1):
    return {"ok": True, "seq": seq}


def found(*nodes):
    return {"nodes": [{"path": path, "value": value} for path, value in nodes], "ok": True}


def asked(group, name, doc, path, reply, stack=8, before=""):
    """A session of one document and one query."""
    return Row(group, name, [create(doc), query(path)], [done(), reply], stack, before)


def nested(inner, depth):
    """A value within this many lists."""
    for _ in range(depth):
        inner = [inner]
    return inner


def within(depth):
    """The path of the element 0 of the element 0, and so on."""
    return "$" + "[0]" * depth


def below_long_names(depth, letters, count):
    """Zeros below objects of one member each, whose names are long."""
    doc = [0] * count
    for level in range(depth):
        doc = {chr(97 + level % 26) * letters: doc}
    return doc


# ---- queries

def absolute(levels):
    return "$" + "[?$" * levels + "]" * levels


def below(levels):
    """Filters of all that is below, within one another. Of this many, the outermost holds if `levels - 1` values are
    below one another."""
    return "$..[?@" + "..[?@" * (levels - 1) + "]" * levels


def doubled(levels):
    """Filters of doubled lists, within one another: each is tried twice wherever the one around it is tried."""
    return "$[?@" + "[*,*][?@" * (levels - 1) + "]" * levels


def twice(index, times, levels):
    """Segments that each select the child at that index as often as this."""
    return ("[" + ",".join([str(index)] * times) + "]") * levels


def below_one_name(inner, depth):
    """A value within this many objects, each in the member `a` of the next."""
    for _ in range(depth):
        inner = {"a": inner}
    return inner


def counted(levels):
    """Counts of all that is below and is counted in turn. Of this many, the outermost is above 0 if `levels` values are
    below one another."""
    return "$..[?" + "count(@..[?" * (levels - 1) + "count(@..*)>0" + "])>0" * (levels - 1) + "]"


def negated(levels):
    """Filters within one another, each of which holds if none below holds; the innermost holds everywhere. Of two and more,
    the outermost holds if nothing is below."""
    return "$..[?" + "!@..[?" * (levels - 1) + "!@..x" + "]" * levels


def queries():
    two = found(("$[0]", 0), ("$[1]", 0))
    one = found(("$[0]", 0))
    none = found()
    items = {"a": 3, "items": [{"b": n % 10} for n in range(60000)]}
    threes = found(*(("$['items'][%d]" % n, {"b": 3}) for n in range(3, 60000, 10)))
    zeros = [0] * 100000
    every = found(*(("$[%d]" % n, 0) for n in range(100000)))
    long_lists = {"a": [0] * 130000, "b": [0] * 130000, "c": [0] * 99999}
    long_texts = {"a": "x" * 300000, "b": "x" * 300000, "c": [0] * 99999}
    many = [0] * 400000
    at_the_end = found(("$" + "['a']" * 17, many))
    group = "queries"
    return [
        asked(group, "60 absolute filters within one another", [0, 0], absolute(60), two, before="over 5 s"),
        asked(group, "a filter by one value of the document", items, "$.items[?@.b == value($..a)]", threes, before="over 5 s"),
        asked(group, "all below long names", below_long_names(62, 13000, 99900), "$..*", 54, before="63"),
        asked(group, "509 parentheses", [0], "$[?" + "(" * 509 + "@" + ")" * 509 + "]", one, 2),
        asked(group, "339 negations", [0], "$[?" + "!(" * 339 + "@" + ")" * 339 + "]", none, 2),
        asked(group, "127 lengths of lengths", [0], "$[?" + "length(" * 127 + "@" + ")" * 127 + "==0]", none, 2),
        asked(group, "255 absolute filters within one another", [0], absolute(255), one, 2),
        asked(group, "255 relative filters within one another", nested(0, 63), "$" + "[?@" * 255 + "]" * 255, none, 2),
        asked(group, "63 relative filters within one another", nested(0, 63), "$" + "[?@" * 63 + "]" * 63,
              found(("$[0]", nested(0, 62))), 2),
        asked(group, "60 relative filters within one another", [0, 0], "$" + "[?@" * 60 + "]" * 60, none, 2),
        asked(group, "4 filters of all below within one another", nested(0, 63), below(4),
              found(*((within(depth), nested(0, 63 - depth)) for depth in range(1, 61)))),
        asked(group, "10 filters of all below within one another", nested(0, 63), below(10),
              found(*((within(depth), nested(0, 63 - depth)) for depth in range(1, 55)))),
        asked(group, "10 counts of all below within one another", nested(0, 63), counted(10),
              found(*((within(depth), nested(0, 63 - depth)) for depth in range(1, 54)))),
        asked(group, "10 negated filters of all below within one another", nested(0, 63), negated(10), found((within(63), 0))),
        asked(group, "30 filters of doubled lists within one another", nested(0, 63), doubled(30), found(("$[0]", nested(0, 62)))),
        asked(group, "a filter of all below in another, 100,000 zeros 60 deep", nested(zeros, 60), "$..[?@..[?@..x]]", none),
        asked(group, "an absolute filter in one of 100,000 zeros", zeros, "$[?$[?$]]", every),
        asked(group, "absolute filters beside one another", [0, 0],
              "$[?" + " && ".join("$[?$[?$]]" for _ in range(70)) + "]", two),
        asked(group, "a count of all, at each of 100,000", zeros, "$[?count($[*]) == 100000]", every),
        asked(group, "two long lists compared, at each of 99,999", long_lists, "$[?count($.c[?$.a == $.b]) == 0]", none),
        asked(group, "two long texts in order, at each of 99,999", long_texts, "$[?count($.c[?$.a <= $.b]) == 0]", none),
        asked(group, "a long text's length, at each of 99,999", long_texts, "$[?count($.c[?length($.a) > 5]) == 0]", none),
        asked(group, "a list too long, at a filter that is tried", [zeros, 0], "$[?$[0][0,1:] || $[0][*,*]]", 53),
        asked(group, "a list too long, at a filter that isn't tried", [0, zeros], "$[0][?count($[1][*,*]) > 0]", none),
        asked(group, "doubled selectors at zeros", [0, 0], "$[*,*]" + "[*,*]" * 3, none),
        asked(group, "17 doublings", nested(0, 17), "$" + "[*,*]" * 17, 53),
        asked(group, "16 doublings", nested(0, 16), "$" + "[*,*]" * 16, found(*[(within(16), 0)] * 65536)),
        asked(group, "all descendants of 63 lists", nested(0, 63), "$..*",
              found(*((within(depth), nested(0, 63 - depth)) for depth in range(1, 64)))),
        asked(group, "all below one list, 2,116 times", nested(many, 2), "$" + twice(0, 46, 2) + "..x", none, before="12 s"),
        asked(group, "all below one list, 97,336 times", nested(many, 3), "$" + twice(0, 46, 3) + "..x", none, before="over 18 s"),
        asked(group, "a filter on the elements of one list, 500 times", nested(many, 1), "$" + twice(0, 500, 1) + "[?@==1]", none, before="5.6 s"),
        asked(group, "all below one list, 2,116 times, in a filter", nested(many, 3), "$[?@" + twice(0, 46, 2) + "..x]", none, before="over 18 s"),
        asked(group, "all below one list, 2,116 times, in an absolute query", nested(many, 2), "$[?$" + twice(0, 46, 2) + "..x]", none, before="over 18 s"),
        asked(group, "filters of all below in an absolute query, 50,000 zeros 60 deep", nested(zeros[:50000], 60), "$[?$..[?@..[?@..x]]]", none, before="over 5 s"),
        asked(group, "17 segments of all below 17 objects around a list", below_one_name(many, 17), "$" + "..a" * 17, at_the_end, before="over 16 s"),
        asked(group, "an element that isn't there, at one list 97,336 times", nested(0, 3), "$" + twice(0, 46, 3) + twice(9, 300, 1), none),
        asked(group, "one member of 90,000, at one object 2,116 times", nested({"%05d" % n: 0 for n in range(90000)}, 2),
              "$" + twice(0, 46, 2) + twice("'89999'", 45, 1) + "[?@]", none, before="over 18 s"),
        asked(group, "a slice of the largest step", zeros, "$[0:100000:9007199254740991]", one),
        asked(group, "a slice from behind the front", zeros, "$[-9007199254740991:1]", one),
        asked(group, "a path of 1,026 bytes", [0], "$" + "[0]" * 341 + "  ", 52),
    ]


# ---- texts

def texts():
    group = "texts"
    deep = b"[" * 1000000
    long_name = {"n" * 500000: 0}
    return [
        Row(group, "a million brackets", [deep], [11]),
        Row(group, "127 lists in a line", [b"[" * 127 + b"]" * 127], [14], 2),
        Row(group, "128 lists in a line", [b"[" * 128 + b"]" * 128], [11], 2),
        Row(group, "127 objects in a line", [b'{"a":' * 126 + b"{}" + b"}" * 126], [14], 2),
        # Numbers that `serde_json` doesn't read are no JSON text to the store, as `docs/inside/DECISIONS.md` says.
        Row(group, "a number of a million digits", [b"1" * 1000000], [11]),
        Row(group, "an exponent of a million digits", [b"1e" + b"9" * 1000000], [11]),
        Row(group, "a text of a million escapes", [b'"' + b"\\n" * 500000 + b'"'], [14]),
        Row(group, "a text of surrogates alone", [b'"' + b"\\ud800" * 170000 + b'"'], [11]),
        Row(group, "bytes that are no text", [b"\xff" * 1000000], [11]),
        Row(group, "a line over the limit, and a next one", [b"[" + b" " * LINE, {"cmd": "list"}], [10, {"names": [], "ok": True}]),
        Row(group, "a line of blanks, which has no reply", [b" " * 1000000, {"cmd": "list"}], [None, {"names": [], "ok": True}]),
        Row(group, "a list of half a million", [create([0] * 500000), get("d", "/499999")], [done(), {"ok": True, "value": 0}]),
        Row(group, "an object of 60,000 members", [create({"%06d" % n: n for n in range(60000)}), get("d", "/059999")],
            [done(), {"ok": True, "value": 59999}]),
        Row(group, "a member's name of half a million letters", [create(long_name), get("d")], [done(), {"ok": True, "value": long_name}]),
        Row(group, "64 lists in a document", [create(nested(0, 63)), get("d", "/0" * 63)], [done(), {"ok": True, "value": 0}], 2),
        Row(group, "65 lists in a document", [create(nested(0, 65))], [13], 2),
        Row(group, "a pointer of half a million steps", [create([0]), get("d", "/0" * 500000)], [done(), 37]),
        Row(group, "a pointer of signs alone", [create([0]), get("d", "/" + "~1" * 500000)], [done(), 37]),
    ]


# ---- names

def names():
    group = "names"
    longest = "n" * 64
    listed = {"names": ["%04d" % n for n in range(1024)], "ok": True}
    return [
        Row(group, "a name of 64 letters", [create(0, name=longest), get(longest)], [done(), {"ok": True, "value": 0}]),
        Row(group, "a name of 65 letters", [create(0, name=longest + "n")], [15]),
        Row(group, "a name of a million letters", [create(0, name="n" * 1000000)], [15]),
        Row(group, "a name of no letters", [create(0, name="")], [15]),
        Row(group, "a name that is a path", [create(0, name="../../etc/passwd")], [15]),
        Row(group, "names of dots", [create(0, name=".."), get("..")], [done(), {"ok": True, "value": 0}]),
        Row(group, "a name with a zero byte", [create(0, name="a\0b")], [15]),
        Row(group, "a name of letters that look alike", [create(0, name="\u0430")], [15]),
        Row(group, "a query of a name of a million letters", [query("$", name="n" * 1000000)], [15]),
        Row(group, "1,025 documents", [create(0, name="%04d" % n) for n in range(1025)] + [{"cmd": "list"}],
            [done(n + 1) for n in range(1024)] + [22, listed]),
        # In a file each change waits for two syncs, which is the disk's time.
        Row(group, "one name made and deleted 250 times",
            [line for _ in range(250) for line in (create(0), {"cmd": "delete", "name": "d"})],
            [done(n + 1) for n in range(500)]),
        Row(group, "10,000 names that no document has", [get("n%d" % n) for n in range(10000)], [21] * 10000),
    ]


def patch(ops, name="d"):
    return {"cmd": "patch", "name": name, "ops": ops}


def move(source, target):
    return {"from": source, "op": "move", "path": target}


def patched(group, name, doc, ops, reply, pointer=None, value=None, stack=8, before=""):
    """A session of one document and one patch, and of the value at a pointer after it."""
    lines, replies = [create(doc), patch(ops)], [done(), reply]
    if pointer is not None:
        lines.append(get("d", pointer))
        replies.append({"ok": True, "value": value})
    return Row(group, name, lines, replies, stack, before)


def patches():
    group = "patches"
    letters = "a" * 1048000
    to_and_fro = [move("/a", "/b"), move("/b", "/a")] * 2048
    deeper = [move("/a", "/b/a"), move("/b/a", "/a")] * 2048
    high = {"a": [0] * 500000, "b": {}, "c": nested(0, 62)}
    # At the front of a list all elements move: 16 MB for each of these operations.
    fronts = [{"op": "remove", "path": "/0"}, {"op": "add", "path": "/0", "value": 0}] * 128
    backs = [{"op": "remove", "path": "/499999"}, {"op": "add", "path": "/-", "value": 0}] * 2048
    halves = [{"from": "/a", "op": "copy", "path": "/b"}, {"op": "remove", "path": "/b"}] * 2048
    members = {"%06d" % n: n for n in range(60000)}
    swaps = [move("/000000", "/x"), move("/x", "/000000")] * 2048
    return [
        patched(group, "4,096 moves of one long text", {"a": letters}, to_and_fro, done(2), "/a", letters, before="10 s"),
        patched(group, "4,096 moves of a long list", {"a": [0] * 500000}, to_and_fro, done(2), "/a/499999", 0),
        patched(group, "2,048 moves deeper of a long text", {"a": letters, "b": {}}, deeper, done(2), "/a", letters),
        patched(group, "2,048 moves deeper of a long list, in a document 63 high", high, deeper, done(2), "/b", {}),
        patched(group, "128 pairs at the front of a long list", [0] * 500000, fronts, done(2), "/499999", 0),
        patched(group, "2,048 pairs at the end of a long list", [0] * 500000, backs, done(2), "/499999", 0),
        patched(group, "2,048 copies of half a document, each removed", {"a": "a" * 500000}, halves, done(2), "/a", "a" * 500000),
        patched(group, "4,096 moves of one of 60,000 members", members, swaps, done(2), "/059999", 59999),
        patched(group, "4,096 tests of one long text", {"a": letters}, [{"op": "test", "path": "/a", "value": ""}] * 4096, 34),
        patched(group, "a patch 66 high", 0, [{"op": "add", "path": "", "value": nested(0, 64)}], done(2), "/0" * 64, 0, 2),
        patched(group, "a patch of 66 lists", [], nested([], 65), 30, stack=2),
        patched(group, "a patch of 67 lists", [], nested([], 66), 36, stack=2),
        patched(group, "a document made 65 high", nested([], 63), [{"op": "add", "path": "/0" * 63 + "/-", "value": []}], 13, stack=2),
        patched(group, "4,097 operations", 0, [{"op": "test", "path": "", "value": 0}] * 4097, 36),
        Row(group, "10,000 patches that ask for another revision", [create(0)] + [dict(patch([]), if_rev=2)] * 10000,
            [done()] + [24] * 10000),
        Row(group, "a patch for a revision of a million digits",
            [create(0), b'{"cmd":"patch","if_rev":' + b"1" * 1000000 + b',"name":"d","ops":[]}'], [done(), 11]),
        patched(group, "64 copies of the whole into itself", {"a": 1}, [{"from": "", "op": "copy", "path": "/x"}] * 64, 13, stack=2),
        patched(group, "doubled until it is too large", ["a" * 1000], [{"from": "", "op": "copy", "path": "/-"}] * 11, 23),
        patched(group, "a pointer of 200,000 steps", [0], [{"op": "remove", "path": "/0" * 200000}], 32),
        patched(group, "a pointer of a million signs", [0], [{"op": "remove", "path": "/" + "~1" * 500000}], 32),
        patched(group, "a move into itself, 400,000 steps deep", [0], [move("/0" * 200000, "/0" * 200001)], 33),
        patched(group, "an index of a million digits", [0], [{"op": "remove", "path": "/" + "1" * 1000000}], 32),
    ]


def transaction(changes):
    return {"changes": changes, "cmd": "transaction"}


def transactions():
    group = "transactions"
    # Each patch keeps the document before it, some 16 MB, to take it back.
    ones = [1] * 520000
    documents = [create(0, name="d%d" % n) for n in range(1024)]
    return [
        Row(group, "1,024 patches of a document of 1 MB", [create(ones), transaction([patch([])] * 1024), get("d", "/9")],
            [done(), 63, {"ok": True, "value": 1}]),
        Row(group, "32 patches of a document of 1 MB", [create(ones), transaction([patch([])] * 32)], [done(), done(33)]),
        Row(group, "1,024 creations, of which the last is refused", [transaction(documents[:-1] + documents[:1]), get("d0")], [20, 21]),
        Row(group, "1,024 creations, and another", [transaction(documents), transaction([create(0, name="e")])], [done(1024), 22]),
        Row(group, "a transaction of 500,000 numbers", [transaction([0] * 500000)], [14]),
        Row(group, "transactions within one another, 40 deep", [nested_transactions(40)], [14]),
    ]


def nested_transactions(depth):
    line = create(0)
    for _ in range(depth):
        line = transaction([line])
    return line


def table():
    return queries() + texts() + names() + patches() + transactions()


# ---- running

def limited(stack):
    def limit():
        resource.setrlimit(resource.RLIMIT_STACK, (stack * MEGABYTE, stack * MEGABYTE))
        resource.setrlimit(resource.RLIMIT_AS, (2 << 30, 2 << 30))
        resource.setrlimit(resource.RLIMIT_CORE, (0, 0))
    return limit


def run(words, given, stack, seconds):
    """What the program wrote, what is wrong with its end if anything, and the seconds that it took."""
    begun = time.monotonic()
    try:
        ended = subprocess.run(words, input=given, capture_output=True, timeout=seconds, preexec_fn=limited(stack))
    except subprocess.TimeoutExpired:
        return b"", "over %g s" % seconds, seconds
    took = time.monotonic() - begun
    if ended.returncode != 0:
        return ended.stdout, "status %d" % ended.returncode, took
    return ended.stdout, None, took


def bytes_of(line):
    return line if isinstance(line, bytes) else json.dumps(line, separators=(",", ":")).encode()


def fits(reply, wanted):
    if isinstance(wanted, int):
        return reply.get("ok") is False and reply.get("number") == wanted
    return reply == wanted


def judged(written, wanted):
    """What is wrong with the replies, if anything. A line whose wanted reply is None has none."""
    wanted = [reply for reply in wanted if reply is not None]
    replies = [json.loads(line) for line in written.splitlines()]
    for number, (reply, want) in enumerate(zip(replies, wanted)):
        if not fits(reply, want):
            return "reply %d is %.80s" % (number, json.dumps(reply))
    if len(replies) != len(wanted):
        return "%d replies in place of %d" % (len(replies), len(wanted))
    return None


def on_file(program, row, given, seconds):
    """The same in a file, which `check` must open afterwards."""
    with tempfile.TemporaryDirectory() as folder:
        file = os.path.join(folder, "store")
        _, wrong, _ = run([program, "format", file, "--sectors", str(SECTORS)], b"", row.stack, seconds)
        if wrong:
            return "format: " + wrong, 0.0
        written, wrong, took = run([program, "serve", file], given, row.stack, seconds)
        wrong = wrong or judged(written, row.replies)
        if not wrong:
            _, wrong, _ = run([program, "check", file], b"", row.stack, seconds)
            wrong = wrong and "check: " + wrong
    return wrong, took


def tried(program, row, seconds):
    """What is wrong with the session over memory or in a file, if anything, and the longer of the two."""
    given = b"".join(bytes_of(line) + b"\n" for line in row.lines)
    written, wrong, took = run([program, "mem", "--sectors", str(SECTORS)], given, row.stack, seconds)
    wrong = wrong or judged(written, row.replies)
    if wrong:
        return wrong, took
    wrong, filed = on_file(program, row, given, seconds)
    return (wrong and "in a file: " + wrong), max(took, filed)


def shown(wrong, took):
    return wrong or "%.2f s" % took


def main():
    words = argparse.ArgumentParser(description="Tries sessions of a hostile client.")
    words.add_argument("program")
    words.add_argument("--before", help="another program, for comparison")
    words.add_argument("--group", help="only the rows of this group")
    words.add_argument("--only", help="only the rows with this word in their name")
    words.add_argument("--seconds", type=float, default=5)
    given = words.parse_args()
    failed = 0
    for row in table():
        if (given.group and row.group != given.group) or (given.only and given.only not in row.name):
            continue
        wrong, took = tried(os.path.abspath(given.program), row, given.seconds)
        failed += wrong is not None
        before = row.before if not given.before else shown(*tried(os.path.abspath(given.before), row, given.seconds))
        print("%-8s %-60s %-10s %s" % (row.group, row.name, before, shown(wrong, took)), flush=True)
    print("%d failed" % failed)
    return 1 if failed else 0


if __name__ == "__main__":
    sys.exit(main())
