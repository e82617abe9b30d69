#!/usr/bin/env python3
"""How much stack a built program takes for the lines that take the most of it.

    stack.py PROGRAM [--most KIB] [--all] [--only WORD] [--seconds N] [--library]

Each case is a session of lines: the deepest documents, the schemas with the most nodes and counters, the longest queries
and patches. The program serves it from a new file, with as much stack as it likes, and then a second process opens that
file again, which judges every change anew. The kernel says how far down the stack of each process has grown (`VmStk` in
`/proc/PID/status`, in steps of 4 KiB; a process begins with 132). A case prints both numbers, and fails if its lines
aren't answered as they must be: one that is refused for another reason measures nothing.

With `--most` a case fails if it takes more than this many KiB. The case that takes the most is then served once more by
a process whose stack is limited to that (`ulimit -s`), and must be answered as before. `--all` adds every schema at the
edges of nodes and counters, and the sessions of `hostile.py` and `hostile_schemas.py`. With `--library` PROGRAM is
`clients/c/tests/deep.c` over a built library: it is fed the case of each kind that takes the most, which needs seconds, and
says how much of the library's own stack was touched. No process takes more than N seconds of a processor (60), or ten times
that on the clock, as on a machine that others use too. The last line is `N passed, M failed`; the status is 2 if all that
failed was too slow.
"""
import argparse
import json
import math
import os
import resource
import signal
import subprocess
import sys
import tempfile
import threading
import time
from dataclasses import dataclass, field

SECTORS = 65536

# What a schema's text, a line and a query may have, in bytes.
SCHEMA_BYTES, LINE_BYTES, QUERY_BYTES = 262144, 1048576, 1024

LEVELS = 64

# How many seconds on the clock a process may take for each that it may take of a processor.
CLOCK = 10


@dataclass
class Case:
    name: str
    # Commands, or bytes that are sent as they are.
    lines: list
    # The number of the refusal that the first line is answered with; 0: it is done.
    refused: int = 0
    # Further words of `serve`.
    options: list = field(default_factory=list)


def create(doc, schema=True, name="d"):
    return {"cmd": "create", "doc": doc, "name": name, "schema": schema}


def patch(*ops, name="d"):
    return {"cmd": "patch", "name": name, "ops": list(ops)}


def lists(levels, inner):
    for _ in range(levels):
        inner = [inner]
    return inner


def objects(levels, inner):
    for _ in range(levels):
        inner = {"a": inner}
    return inner


def mixed(levels, inner):
    for level in range(levels):
        inner = [inner] if level % 2 else {"a": inner}
    return inner


def compact(value):
    return json.dumps(value, separators=(",", ":"), ensure_ascii=False)


# ---- schemas

COUNTER = {"contains": {}, "minContains": 0}


def counters(count, deep):
    """Schemas with this many counters, each in the one before as far as `deep` says."""
    made = []
    while count > 0:
        levels = min(deep, count)
        inner = {}
        for _ in range(levels):
            inner = {"contains": inner, "minContains": 0}
        made.append(inner)
        count -= levels
    return made


def schema_of(nodes, counted, asked, deep=1):
    """A schema with about this many nodes and counters, for lists within one another and distinct elements.

    It goes down by the first element alone, so that long lists don't cost time. If its nodes are `asked` they are at
    each list, else they are the schema of a member that no document has. What its text has no room for is left out."""
    parts = counters(counted, deep)
    parts += [{}] * (nodes - 2 * counted - 4)
    schema = {"prefixItems": [{"$ref": "#"}], "uniqueItems": True, "additionalProperties": {"$ref": "#"}}
    holder = schema if asked else schema.setdefault("properties", {}).setdefault("none", {})
    holder["allOf"] = parts
    spare = SCHEMA_BYTES - len(compact(schema))
    if spare < 0:
        holder["allOf"] = parts[:spare // 3 - 1]
    return schema


def worked(doc, schema):
    """The lines that judge a document under a schema in each way: made, patched, put under it again, asked."""
    return [create(doc, schema), patch({"op": "test", "path": "", "value": doc}) if len(compact(doc)) < 200000 else patch(),
            {"cmd": "schema", "name": "d", "schema": schema}, {"cmd": "get-schema", "name": "d"},
            {"cmd": "pump", "max": 1000}, {"cmd": "snapshot"}, {"cmd": "get", "name": "d", "path": ""}]


def schema_case(nodes, counted, inner, asked, levels=LEVELS - 1, deep=1, within=lists):
    name = "%s nodes, %s counters%s, %s numbers in %d %s" % (
        nodes, counted, "" if asked else " that aren't asked", inner, levels, within.__name__)
    return Case(name, worked(within(levels, list(range(inner))), schema_of(nodes, counted, asked, deep)))


def schemas():
    # What a schema's text has room for; the first 1,024 and 16,384 are edges of today's sizes.
    most_nodes, most_counters = 87000, 8900
    return [
        schema_case(17500, 1100, 100, True),
        schema_case(most_nodes, 1100, 17000, False),
        schema_case(most_nodes, 1100, 100000, False),
        schema_case(20000, most_counters, 100000, False, deep=56),
        schema_case(20000, most_counters, 10, True),
        schema_case(20000, most_counters, 1100, False, deep=56, within=mixed),
        schema_case(20000, most_counters, 0, False, deep=56, within=objects),
        schema_case(most_nodes, 0, 100000, False),
        schema_case(most_nodes, 0, 0, False, within=objects),
        schema_case(16000, 1024, 17000, False),
        schema_case(9000, 4000, 17000, False, deep=56),
        schema_case(4096, 1024, 100000, False),
        schema_case(1024, 64, 1000, True),
        schema_case(64, 0, 140000, True),
        Case("names judged below 63 objects", worked(objects(62, {"a": 0}), {
            "propertyNames": {"$ref": "#"}, "additionalProperties": {"$ref": "#"}, "properties": {"none": {"allOf": [{}] * 80000}}})),
        Case("60 documents in one another told apart, below 63 lists", worked(
            lists(2, [lists(59, number) for number in range(1000)]),
            {"prefixItems": [{"$ref": "#"}], "uniqueItems": True, "properties": {"none": {"allOf": [{}] * 80000}}})),
        Case("a deep value among deep values", worked(mixed(63, 1), {"enum": [mixed(60, number) for number in range(100)] + [mixed(60, 0)], "not": False}), 45),
        Case("63 schemas in one another", worked(0, within_keyword(61))),
        Case("62 schemas in one another, 30,000 required names in the innermost", worked(0, within_keyword(
            59, {"required": ["%04x" % number for number in range(30000)]}, "items"))),
        Case("63 schemas in one another, refused in the innermost", [create(0, within_keyword(61, {"pattern": "x"}))], 41),
        Case("65 schemas in one another", [create(0, within_keyword(70))], 44),
        Case("8,500 references, one after another", worked(0, chained(8500, {}))),
        Case("8,500 references, a loop", [create(0, chained(8500, {"$ref": "#/$defs/aaa"}))], 43),
        Case("references and negations, one after another", worked(0, negated_chain(451, 56))),
        Case("two creations in one batch", [create(lists(63, []), schema_of(20000, 8900, False, 56)),
                                           create(lists(63, []), schema_of(20000, 8900, False, 56), "e")],
             options=["--batch", "64", "--pump", "64"]),
    ]


def within_keyword(levels, inner=True, other="not"):
    for level in range(levels):
        inner = {other: inner} if level % 2 else {"items": inner}
    return inner


def chained(count, last):
    names = [letters(number) for number in range(count)]
    made = {name: {"$ref": "#/$defs/" + after} for name, after in zip(names, names[1:])}
    made[names[-1]] = last
    # Two bytes each are left for the names that are longer.
    return {"$defs": made, "$ref": "#/$defs/" + names[0]}


def negated_chain(count, deep):
    names = [letters(number) for number in range(count)]
    made = {}
    for name, after in zip(names, names[1:]):
        inner = {"$ref": "#/$defs/" + after}
        for _ in range(deep):
            inner = {"not": inner}
        made[name] = inner
    made[names[-1]] = True
    return {"$defs": made, "$ref": "#/$defs/" + names[0]}


def letters(number):
    alphabet = "abcdefghijklmnopqrstuvwxyz"
    return alphabet[number // 676] + alphabet[number // 26 % 26] + alphabet[number % 26]


# At these numbers the sets of nodes and of counters may change their size.
EDGES_OF_NODES = [64, 65, 128, 256, 512, 1024, 2048, 4096, 4097, 8192, 16384, 16385, 32768, 65536, 87000]
EDGES_OF_COUNTERS = [0, 1, 64, 65, 256, 1024, 1025, 4096, 8900]


def edges():
    """Every number of nodes with every number of counters that a schema's text has room for."""
    return [schema_case(17500, 1100, 17000, True)] + [schema_case(nodes, counted, inner, False, deep=56)
            for nodes in EDGES_OF_NODES for counted in EDGES_OF_COUNTERS for inner in (1000, 17000, 100000)
            if 2 * counted + 4 <= nodes and 30 * counted + 3 * (nodes - 2 * counted) < SCHEMA_BYTES]


# ---- documents, patches, queries, texts

def documents():
    deep = mixed(63, 0)
    many = ["%05d" % number for number in range(60000)]
    moves = [{"op": "move", "from": "/a", "path": "/b"}, {"op": "move", "from": "/b", "path": "/a"}] * 2048
    return [
        Case("64 levels, all operations", [
            create({"a": mixed(62, 0)}),
            patch({"op": "copy", "from": "/a", "path": "/b"}, {"op": "test", "path": "/b", "value": mixed(62, 0)},
                  {"op": "move", "from": "/a", "path": "/c"}, {"op": "replace", "path": "/b", "value": mixed(62, 1)},
                  {"op": "remove", "path": "/b"}, {"op": "add", "path": "/a", "value": mixed(62, 2)}),
            {"cmd": "get", "name": "d", "path": ""}, {"cmd": "snapshot"}]),
        Case("64 lists", [create(lists(64, 0))]),
        Case("65 lists", [create(lists(65, 0))], 13),
        Case("a list of 500,000", [create([0] * 500000), patch({"op": "add", "path": "/-", "value": 1}),
                                   {"cmd": "get", "name": "d", "path": ""}, {"cmd": "query", "name": "d", "path": "$[0:100000]"}]),
        Case("60,000 members", [create({name: 0 for name in many}), patch({"op": "add", "path": "/x", "value": 1}),
                                {"cmd": "get", "name": "d", "path": ""}, {"cmd": "query", "name": "d", "path": "$..*"}]),
        Case("4,096 moves of a deep value", [create({"a": mixed(62, 0)}), patch(*moves)]),
        Case("4,096 operations, the last one refused", [create({"a": mixed(62, 0)}), patch(*moves[:-1], {"op": "remove", "path": "/x"})]),
        Case("4,097 operations", [create(deep), patch(*[{"op": "test", "path": "", "value": 0}] * 4097)]),
        Case("a patch of 66 levels, and of 67", [create({}), patch({"op": "add", "path": "/a", "value": mixed(62, 0)}),
                                                 patch({"op": "add", "path": "/a", "value": mixed(65, 0)})]),
        Case("a text of a million bytes", [create("x" * 1000000, {"minLength": 3, "maxLength": 1000000}),
                                           {"cmd": "get", "name": "d", "path": ""}]),
        Case("a text of escapes", [create("\n\"" * 260000), {"cmd": "get", "name": "d", "path": ""}]),
        Case("a name of half a million bytes", [create({"n" * 500000: 0}), {"cmd": "query", "name": "d", "path": "$..*"}]),
        Case("a pointer of half a million steps", [{"cmd": "get", "name": "d", "path": "/0" * 500000}], 21),
        Case("1,024 documents, a snapshot", [create(mixed(60, number), {"type": ["object", "array"]}, "d%d" % number) for number in range(1024)]
             + [{"cmd": "pump", "max": 1000000}, {"cmd": "snapshot"}, {"cmd": "list"}]),
        Case("1,024 changes in a batch", [create(mixed(60, number), True, "d%d" % number) for number in range(1024)],
             options=["--batch", "1024", "--pump", "1000"]),
        Case("a million brackets", [b"[" * 1000000], 11),
        Case("127 levels", [b"[" * 127 + b"]" * 127], 14),
        Case("128 levels", [b'{"a":' * 128 + b"0" + b"}" * 128], 11),
        Case("a number of a million digits", [b"1" * 1000000], 11),
        Case("a line that is too long", [b"[" * (LINE_BYTES + 1)], 10),
    ]


def queries():
    deep = mixed(63, 0)
    most = QUERY_BYTES
    paths = [
        ("509 parentheses", "$[?" + "(" * 509 + "@" + ")" * 509 + "]"),
        ("339 negations", "$[?" + "!(" * 339 + "@" + ")" * 339 + "]"),
        ("127 lengths", "$[?" + "length(" * 127 + "@" + ")" * 127 + "==0]"),
        ("255 absolute filters", "$" + "[?$" * 255 + "]" * 255),
        ("255 relative filters", "$" + "[?@" * 255 + "]" * 255),
        ("170 filters of all below", "$" + "..[?@" * 170 + "]" * 170),
        ("all below, again and again", "$" + "..*" * 8),
        ("filters in 84 functions", "$[?" + "count(@[?" * 84 + "@" + "])>0" * 84 + "]"),
        ("340 comparisons", "$[?" + "||".join(["@==0"] * ((most - 4) // 6)) + "]"),
        ("1,000 selectors", "$[" + ",".join("0" for _ in range(510)) + "]"),
        ("340 steps", "$" + "[*]" * 63),
        ("a filter at each level", "$" + "[?@.a]" * 63),
        ("deep values compared", "$..[?@==$.a]"),
        ("deep values compared in filters", "$..[?$..[?@==$.a]]"),
    ]
    documents_of = [create(deep, name="deep"), create({"a": [lists(40, 0)] * 50, "b": [0] * 1000}, name="wide")]
    return [Case("query: " + what, documents_of + [{"cmd": "query", "name": name, "path": path} for name in ("deep", "wide")])
            for what, path in paths]


# Of each kind of lines the case that takes the most, by words of its name.
DEEPEST = ["17500 nodes", "87000 nodes, 1100 counters that aren't asked, 100000", "20000 nodes, 8900 counters that aren't asked, 100000",
           "references and negations", "4,096 moves", "query: 509 parentheses", "query: 255 absolute filters"]


def deepest():
    return [case for case in schemas() + documents() + queries() if any(words in case.name for words in DEEPEST)]


def hostile():
    """The sessions of the other scripts, whose replies those look at."""
    sys.path.insert(0, os.path.join(os.path.dirname(os.path.abspath(__file__)), "..", "long"))
    import hostile as sessions
    import hostile_schemas
    rows = [row for name, rows in vars(sessions).items() if name in ("queries", "texts", "names", "patches") for row in rows()]
    cases = [Case("hostile: " + row.name, [line for line, reply in zip(row.lines, row.replies) if reply is not None], -1) for row in rows]
    cases += [Case("hostile: " + case[0], [create(case[2], case[1])] + case[3], -1) for case in hostile_schemas.CASES]
    return cases


# ---- running

class Failed(Exception):
    """A case that isn't as it must be."""


def line_bytes(line):
    return line if isinstance(line, bytes) else compact(line).encode()


def all_bytes(lines):
    # The line at the end has waiting changes made.
    return b"".join(line_bytes(line) + b"\n" for line in lines) + b'{"cmd":"status"}\n'


class Slow(Failed):
    """A case that takes too long, of which nothing is known."""


def limited(seconds, stack=None):
    """Sets the limits of a child: its seconds of a processor, and its stack. What is let grow for the measuring is far from
    what any line takes."""
    def set_them():
        if stack is not None:
            resource.setrlimit(resource.RLIMIT_STACK, (stack, resource.getrlimit(resource.RLIMIT_STACK)[1]))
        resource.setrlimit(resource.RLIMIT_CPU, (math.ceil(seconds), math.ceil(seconds) + 5))
        resource.setrlimit(resource.RLIMIT_CORE, (0, 0))
    return set_them


def ended(status, seconds, more=""):
    """The failure of a process that ended with this status."""
    if status == -signal.SIGXCPU:
        return Slow("over %g seconds of a processor" % seconds)
    if status == -signal.SIGKILL:
        return Slow("killed, as after %g seconds on the clock%s" % (CLOCK * seconds, more))
    return Failed("ended with status %d%s" % (status, more))


def stack_of(process):
    """How far the stack of the process has grown, in KiB."""
    with open("/proc/%d/status" % process.pid) as status:
        return next(int(line.split()[1]) for line in status if line.startswith("VmStk:"))


def served(program, store, options, lines, stack, seconds):
    """The replies to the lines, and how far the stack had grown then."""
    # An empty environment, since its words lie on the same stack.
    process = subprocess.Popen([program, "serve", store, *options], stdin=subprocess.PIPE, stdout=subprocess.PIPE,
                               stderr=subprocess.DEVNULL, env={}, preexec_fn=limited(seconds, stack))
    killer = threading.Timer(CLOCK * seconds, process.kill)
    killer.start()
    writer = threading.Thread(target=given, args=(process.stdin, all_bytes(lines)), daemon=True)
    writer.start()
    try:
        replies = [process.stdout.readline() for _ in range(len(lines) + 1)]
        if not replies[-1]:
            raise ended(process.wait(), seconds, " after %d replies" % sum(map(bool, replies)))
        grown = stack_of(process)
        writer.join()
        process.stdin.close()
        process.wait()
    finally:
        killer.cancel()
        process.kill()
        process.wait()
        process.stdout.close()
    return replies, grown


def given(stream, data):
    try:
        stream.write(data)
        stream.flush()
    except (BrokenPipeError, ValueError):
        pass


def look_at(case, replies):
    first = json.loads(replies[0])
    got = 0 if first["ok"] else first["number"]
    if case.refused >= 0 and got != case.refused:
        raise Failed("the first line is answered %s" % replies[0][:100].decode().strip())
    for reply in replies[:-1]:
        if json.loads(reply).get("number") in (61, 62, 63):
            raise Failed("a line is answered %s" % reply[:100].decode().strip())


def measured(program, case, stack, seconds):
    """What a session takes, and what opening its store again takes."""
    with tempfile.TemporaryDirectory() as folder:
        store = os.path.join(folder, "s")
        subprocess.run([program, "format", store, "--sectors", str(SECTORS)], check=True, stdout=subprocess.DEVNULL)
        replies, session = served(program, store, case.options, case.lines, stack, seconds)
        look_at(case, replies)
        _, opening = served(program, store, [], [], stack, seconds)
    return session, opening


def fed(program, case, seconds):
    """What the case takes of the library's stack, and 0 for an opening: the store is in memory."""
    with tempfile.NamedTemporaryFile() as file:
        file.write(all_bytes(case.lines))
        file.flush()
        try:
            done = subprocess.run([program, file.name], stdout=subprocess.PIPE, stderr=subprocess.PIPE, timeout=CLOCK * seconds,
                                  preexec_fn=limited(seconds), check=False)
        except subprocess.TimeoutExpired:
            raise Slow("over %g seconds on the clock" % (CLOCK * seconds)) from None
    if done.returncode:
        raise ended(done.returncode, seconds)
    look_at(case, done.stdout.splitlines())
    return int(done.stderr), 0


def attempt(measure, case, most):
    """Prints a case, and answers what it takes, whether it is as it must be, and whether it is too slow."""
    begin = time.monotonic()
    try:
        session, opening = measure(case)
    except Failed as why:
        print("%-74s FAILED: %s" % (case.name, why), flush=True)
        return 0, False, isinstance(why, Slow)
    over = most is not None and max(session, opening) > most
    print("%-74s %6d %6d %4.1f s%s" % (case.name, session, opening, time.monotonic() - begin, "  FAILED: over %d" % most if over else ""), flush=True)
    return max(session, opening), not over, False


def holds(program, case, most, seconds):
    """Whether the case is served with a stack of this many KiB."""
    name = "with a stack of %d KiB: %s" % (most, case.name)
    try:
        measured(program, case, most * 1024, seconds)
    except Failed as why:
        print("%-74s FAILED: %s" % (name, why))
        return False
    print("%-74s served" % name)
    return True


def main():
    parser = argparse.ArgumentParser(description=__doc__, formatter_class=argparse.RawDescriptionHelpFormatter)
    parser.add_argument("program")
    parser.add_argument("--most", type=int, metavar="KIB")
    parser.add_argument("--all", action="store_true")
    parser.add_argument("--only", default="", metavar="WORD")
    parser.add_argument("--seconds", type=float, default=60)
    parser.add_argument("--library", action="store_true")
    words = parser.parse_args()
    program = os.path.abspath(words.program)
    cases = deepest() if words.library else schemas() + documents() + queries() + (edges() + hostile() if words.all else [])
    cases = [case for case in cases if words.only in case.name]
    print("%-74s %6s %6s   KiB of stack, and the seconds of both processes" % ("", "lines", "opens"))

    def measure(case):
        return fed(program, case, words.seconds) if words.library else measured(program, case, 1 << 30, words.seconds)

    found = [(*attempt(measure, case, words.most), case) for case in cases]
    passed = [well for _, well, _, _ in found]
    if found:
        taken, _, _, worst = max(found, key=lambda each: each[0])
        print("at most %d KiB: %s" % (taken, worst.name))
        if words.most is not None and not words.library:
            passed.append(holds(program, worst, words.most, words.seconds))
    print("%d passed, %d failed" % (sum(passed), len(passed) - sum(passed)))
    slow = sum(is_slow for _, _, is_slow, _ in found)
    return 0 if all(passed) else 2 if slow == len(passed) - sum(passed) else 1


if __name__ == "__main__":
    sys.exit(main())
