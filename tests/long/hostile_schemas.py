#!/usr/bin/env python3
"""Schemas that are small and look dear: a program must answer each session, whatever it answers, with its stack and in its time.

    hostile_schemas.py PROGRAM [--only WORD] [--stack BYTES] [--seconds S] [--memory BYTES]

PROGRAM is a built `jpstore`. Each case is sent in memory (`mem`), then to a new file (`serve`), and the file is opened
again (`check`), each by a process of its own with 8 MiB of stack and 5 seconds. A case fails if a process ends by a
signal, takes too long, or answers another than the wanted replies. Schemas with patterns, or with references by pointers, go to stores of format 3, whose
processes have 1 GiB of memory.
"""
import argparse
import json
import os
import resource
import subprocess
import sys
import tempfile
import time

OK, INVALID, TOO_LARGE, FORM, MEMORY, DANGLING, LOOP = True, 45, 44, 40, 63, 42, 43


def nest(height, value=None):
    document = {} if value is None else value
    for _ in range(height):
        document = {'x': document}
    return document


def short(number):
    digits = '0123456789abcdefghijklmnopqrstuvwxyz'
    made = ''
    for _ in range(3):
        number, rest = divmod(number, 36)
        made = digits[rest] + made
    return made


def chain_of_references(names, last):
    definitions = {name: {'$ref': '#/$defs/' + after} for name, after in zip(names, names[1:])}
    definitions[names[-1]] = last
    return {'$defs': definitions, '$ref': '#/$defs/' + names[0]}


def negations(depth, inner):
    for _ in range(depth):
        inner = {'not': inner}
    return inner


def chain_of_negations(definitions, depth, last):
    made = {'a%d' % i: negations(depth, {'$ref': '#/$defs/a%d' % (i + 1)}) for i in range(definitions)}
    made['a%d' % definitions] = last
    return {'$defs': made, '$ref': '#/$defs/a0'}


def doubling(keyword, count):
    made = {'a%d' % i: {keyword: [{'$ref': '#/$defs/a%d' % (i + 1)}] * 2} for i in range(count - 1)}
    made['a%d' % (count - 1)] = {'type': 'object'}
    return {'$defs': made, '$ref': '#/$defs/a0'}


def conditions(count, last):
    made = {'a%d' % i: {'if': {'type': 'object'}, 'then': {'$ref': '#/$defs/a%d' % (i + 1)}, 'else': {'$ref': '#/$defs/a%d' % (i + 1)}} for i in range(count)}
    made['a%d' % count] = last
    return {'$defs': made, '$ref': '#/$defs/a0'}


def nested_conditions(depth, inner):
    for _ in range(depth):
        inner = {'if': inner, 'then': True, 'else': False}
    return inner


def twice_by_condition(count):
    made = {'a%d' % i: {'if': {'$ref': '#/$defs/a%d' % (i + 1)}, 'then': {'$ref': '#/$defs/a%d' % (i + 1)}} for i in range(count - 1)}
    made['a%d' % (count - 1)] = {'type': 'object'}
    return {'$defs': made, '$ref': '#/$defs/a0'}


def lists(height, each, inner):
    for _ in range(height):
        inner = [inner] + list(range(each))
    return inner


def counting(count, depth):
    made = []
    for _ in range(count):
        inner = True
        for _ in range(depth):
            inner = {'contains': inner, 'minContains': 0}
        made.append(inner)
    return made


def by_name(schema):
    return {'properties': {'x': schema}}


AGAIN = by_name({'$ref': '#'})

NAMES = [short(i) for i in range(8500)]
REQUIRED = ['n%s' % short(i) for i in range(30000)]

# name, schema, document, further lines, the replies wanted after the creation's
CASES = [
    ('8,500 chained references, 64 high', chain_of_references(NAMES, AGAIN), nest(63), [], OK),
    ('the same, each to the name before it', chain_of_references(NAMES[::-1], AGAIN), nest(63), [], OK),
    ('8 definitions of 57 negations each, 63 high', chain_of_negations(8, 57, AGAIN), nest(63), [], OK),
    ('450 definitions of 57 negations each', chain_of_negations(450, 57, AGAIN), nest(3), [], OK),
    ('twice below each name, 63 high', {'allOf': [AGAIN], 'properties': {'x': {'$ref': '#'}}}, nest(62), [], OK),
    ('60 definitions, each twice the next, by allOf', doubling('allOf', 60), {}, [], OK),
    ('60 definitions, each twice the next, by anyOf', doubling('anyOf', 60), {}, [], OK),
    ('60 definitions, each twice the next, by oneOf', doubling('oneOf', 60), {}, [], INVALID),
    ('2,000 chained conditions, 64 high', conditions(2000, AGAIN), nest(63), [], OK),
    ('60 definitions, each twice the next, by if and then', twice_by_condition(60), {}, [], OK),
    ('57 conditions in one another, 63 high', nested_conditions(57, AGAIN), nest(62), [], OK),
    ('500 chained schemas of names, 30,000 names', {'$defs': chain_of_references(NAMES[:500], {'minLength': 1})['$defs'], 'propertyNames': {'$ref': '#/$defs/' + NAMES[0]}},
     {name: 0 for name in REQUIRED}, [], OK),
    ('schemas of names in one another, 62 high', {'propertyNames': {'$ref': '#'}, 'additionalProperties': {'$ref': '#'}}, nest(62), [], OK),
    ('twice in each element, 62 high', {'contains': {'$ref': '#'}, 'maxContains': 9, 'allOf': [{'contains': {'$ref': '#'}}]}, lists(62, 0, [7]), [], OK),
    ('elements of elements, 62 high, each of 1,100', {'contains': {'$ref': '#'}, 'minContains': 1, 'maxContains': 2000}, lists(62, 1100, [7]), [], OK),
    ('9,000 schemas that count, one in another', {'allOf': counting(150, 60)}, [], [], OK),
    ('7,600 schemas that count at each of 62 levels', {'items': {'$ref': '#'}, 'allOf': [{'contains': True, 'minContains': 0}] * 7600}, lists(62, 0, [7]), [], OK),
    ('each of 100,000 elements by a schema that counts', {'contains': {'type': 'integer'}, 'minContains': 100000}, [0] * 100000, [], OK),
    ('each of 1,000 elements by 2,000 schemas that count', {'allOf': [{'contains': {}, 'maxContains': 1000}] * 2000}, [0] * 1000, [], OK),
    ('140,000 distinct numbers', {'uniqueItems': True}, list(range(140000)), [], OK),
    ('500,000 zeros', {'uniqueItems': True}, [0] * 500000, [], INVALID),
    ('62 lists in one another, each of 1,100 numbers', {'uniqueItems': True, 'items': {'$ref': '#'}}, lists(62, 1100, []), [], OK),
    ('140,000 distinct numbers below 62 lists', {'uniqueItems': True, 'items': {'$ref': '#'}}, lists(62, 0, list(range(140000))), [], OK),
    ('30,000 required names, twenty patches', {'required': REQUIRED},
     {name: 0 for name in REQUIRED}, [{'cmd': 'patch', 'name': 'd', 'ops': []}] * 20, OK),
    ('1,000 unused definitions, twenty patches', {'$defs': {'u%d' % i: {'type': 'object', 'required': ['a', 'b']} for i in range(1000)}},
     {}, [{'cmd': 'patch', 'name': 'd', 'ops': []}] * 20, OK),
    ('80,000 schemas in one allOf', {'allOf': [{}] * 80000}, {}, [], OK),
    ('100,000 elements among 37,000 numbers', {'items': {'enum': list(range(37000))}}, [number % 37000 for number in range(100000)], [], OK),
    ('380,000 elements among 131,000 values, all but one equal', {'items': {'enum': [0] * 131000 + [1]}}, [1] * 380000, [], OK),
    ('250,000 elements not among 131,000 values', {'items': {'not': {'enum': [0] * 131000}}}, [10] * 250000, [], OK),
    ('30,000 names, each among these', {'propertyNames': {'enum': REQUIRED}}, {name: 0 for name in REQUIRED}, [], OK),
    ('each element by 20,000 schemas', {'items': {'allOf': [{}] * 20000}}, [0] * 100, [], OK),
]


def patterned(pattern):
    return {'pattern': pattern}


def dependent(depth):
    made = {'maxProperties': 1}
    for _ in range(depth):
        made = {'dependentSchemas': {'a': made}}
    return made


def by_patterns(count, schema):
    return {'patternProperties': {'^%s.*%d$' % (short(i)[1:], i % 10): schema for i in range(count)}}


def long_pointers(count, depth):
    inner = {'properties': {}}
    for _ in range(depth):
        inner = {'properties': {'x': inner}}
    return {'$defs': {'d': inner}, 'allOf': [{'properties': {'a': {'$ref': '#/$defs/d' + '/properties/x' * depth}}}] * count}


def escaped_pointers(count, letters):
    return {'$defs': {'~' * letters: {'type': 'integer'}}, 'allOf': [{'properties': {'x': {'$ref': '#/%24defs/' + '%7E0' * letters}}}] * count}


def short_pointers(count, depth):
    inner = {}
    for _ in range(depth):
        inner = {'not': inner}
    return {'$defs': {'d': inner}, 'allOf': [{'$ref': '#/$defs/d' + '/not' * depth}] * count}


def chained_pointers(count, last):
    return {'allOf': [{'$ref': '#/allOf/%d' % (i + 1)} for i in range(count)] + [last]}


def among_anchors(count):
    return {'$defs': {'d%d' % i: {'$anchor': 'a%d' % i} for i in range(count)}, 'allOf': [{'$ref': '#a%d' % i} for i in range(count)]}


def among_names(count):
    return {'$defs': {'n%d' % i: {} for i in range(count)}, 'allOf': [{'$ref': '#/$defs/n%d' % i} for i in range(count)]}


MEGABYTE = 1000000
MEMBERS = {'%s%d' % (short(i), i % 10): 0 for i in range(46656)}
OTHER_MEMBERS = {'-%s' % name: 0 for name in MEMBERS}
MEMBER_PATCHES = [{'cmd': 'patch', 'name': 'd', 'ops': [{'op': 'add', 'path': '/a%d' % i, 'value': 1}]} for i in range(200)]

# The same of patterns, in stores of format 3. A text of 1 MB is searched for what takes the most steps.
PATTERN_CASES = [
    ('10,000 patterns', {'allOf': [patterned('a%d' % i) for i in range(10000)]}, 'a', [], TOO_LARGE),
    ('65 patterns', {'allOf': [patterned('a')] * 65}, 'a', [], TOO_LARGE),
    ('64 patterns', {'allOf': [patterned('a%d?' % (i % 10)) for i in range(64)]}, 'a', [], OK),
    ('64 patterns, each of 900 bytes', {'allOf': [patterned('(?:%s)?' % ('ab' * 448))] * 64}, 'a', [], (OK, MEMORY)),
    ('64 patterns of names, 10,000 names',
     {'propertyNames': {'not': {'anyOf': [patterned('^%s.*%d$' % (short(i), i % 10)) for i in range(64)]}}},
     {name: 0 for name in REQUIRED[:10000]}, [], (OK, INVALID)),
    ('a pattern of 4,096 bytes', patterned('a' * 4096), 'a' * 4096, [], (OK, MEMORY)),
    ('a pattern of 4,097 bytes', patterned('a' * 4097), 'a' * 4097, [], TOO_LARGE),
    ('249 groups in one another', patterned('(' * 249 + 'a' + ')' * 249), 'a', [], OK),
    ('251 groups in one another', patterned('(' * 251 + 'a' + ')' * 251), 'a', [], FORM),
    ('2,000 groups in one another', patterned('(' * 2000 + 'a' + ')' * 2000), 'a', [], FORM),
    ('counts in counts in counts', patterned('((a{100}){100}){100}'), 'a', [], MEMORY),
    ('counts of any sign in counts', patterned('(((.{99}){99}){99})'), 'a', [], MEMORY),
    ('1,000 signs of words', patterned('\\w{1000}'), 'a', [], MEMORY),
    ('a count of four billion', patterned('a{4294967295}'), 'a', [], MEMORY),
    ('a count over four billion', patterned('a{4294967296}'), 'a', [], FORM),
    ('64 counts in counts', {'allOf': [patterned('((a{100}){100}){100}%d' % i) for i in range(64)]}, 'a', [], MEMORY),
    ('a star of a star', patterned('(a*)*b'), 'a' * MEGABYTE, [], INVALID),
    ('one or two', patterned('(a|aa)+$'), 'a' * MEGABYTE + 'b', [], INVALID),
    ('a bounded name', patterned('^[a-z0-9-]{1,63}$'), 'a' * MEGABYTE, [], INVALID),
    ('14 signs after', patterned('[ab]*a[ab]{14}c'), 'ab' * (MEGABYTE // 2), [], INVALID),
    ('200 signs after', patterned('[ab]*a[ab]{200}c'), 'ab' * (MEGABYTE // 2), [], INVALID),
    ('500 signs after', patterned('a[ab]{500}c'), 'ab' * (MEGABYTE // 2), [], (INVALID, MEMORY)),
    ('1,000 times perhaps a sign', patterned('(.?){1000}b'), 'a' * MEGABYTE, [], (INVALID, MEMORY)),
    ('900 stars', patterned('x*y*z*' * 300 + '$' + 'a'), 'xyz' * (MEGABYTE // 3), [], (INVALID, MEMORY)),
    ('up to 500 signs, twice', patterned('(.{0,500}a.{0,500}b)c'), 'ab' * (MEGABYTE // 2), [], (INVALID, MEMORY)),
    ('a text of other letters', patterned('^(\\w|\\W)*\\b!$'), '\u00e9' * (MEGABYTE // 2), [], (INVALID, MEMORY)),
    ('the same pattern for 100,000 texts', {'items': patterned('^(a|b)*c$')}, ['abc'] * 100000, [], OK),
    ('64 patterns for 10,000 texts', {'items': {'allOf': [patterned('^(a|b)*c$')] * 64}}, ['abc'] * 10000, [], OK),
    ('a name of 1 MB', {'propertyNames': {'not': patterned('(a|aa)+$')}}, {'a' * (MEGABYTE - 10) + 'b': 0}, [], OK),
    ('64 patterns of members, 46,656 members', by_patterns(64, {'type': 'integer'}), MEMBERS, [], OK),
    ('the same, other members refused', {**by_patterns(64, True), 'additionalProperties': False}, MEMBERS, [], INVALID),
    ('64 patterns, 46,656 other members', {**by_patterns(64, False), 'additionalProperties': {'type': 'integer'}}, OTHER_MEMBERS, [], OK),
    ('200 patches of a member among 46,656', by_patterns(64, {'type': 'integer'}), MEMBERS, MEMBER_PATCHES, OK),
    ('65 patterns of members', by_patterns(65, True), {}, [], TOO_LARGE),
    ('10,000 patterns of members', {'patternProperties': {'a%d' % i: True for i in range(10000)}}, {}, [], TOO_LARGE),
    ('64 times one pattern of members', {'allOf': [{'patternProperties': {'^(a|b|c)*0$': {'type': 'integer'}}}] * 64}, MEMBERS, [], OK),
    ('10,000 names, 63 patterns and no others', {'properties': dict.fromkeys(list(OTHER_MEMBERS)[:10000], True), **by_patterns(63, True), 'additionalProperties': False},
     dict.fromkeys(list(OTHER_MEMBERS)[:10000], 0), [], OK),
    ('twice below each name by two patterns, 62 high', {'patternProperties': {'x': {'$ref': '#'}, '^.$': {'$ref': '#'}}}, nest(62), [], OK),
    ('the same, with others', {'patternProperties': {'x': {'$ref': '#'}, 'y': {'$ref': '#'}}, 'additionalProperties': {'$ref': '#'},
                               'propertyNames': {'$ref': '#'}}, nest(62), [], OK),
    ('10,000 objects of four members by 64 patterns', {'items': by_patterns(64, {'type': 'integer'})}, [{'aa0': 0, 'ab1': 1, 'b': 2, 'c': 3}] * 10000, [], OK),
    ('a name of 1 MB by a pattern', {'patternProperties': {'(a|aa)+$': False}}, {'a' * (MEGABYTE - 10) + 'b': 0}, [], OK),
    ('a name of 1 MB by 64 patterns', {'patternProperties': {'(%s|aa)+$' % ('a' * (i + 1)): False for i in range(64)}}, {'a' * (MEGABYTE - 10) + 'b': 0}, [], OK),
    ('1,000 references by pointers of 32 tokens', long_pointers(1000, 15), {}, [], OK),
    ('400 references by a pointer of 520 bytes, escaped', escaped_pointers(400, 130), {'x': 0}, [], OK),
    ('5,000 references by pointers of nine tokens', short_pointers(5000, 7), {}, [], OK),
    ('5,000 references with broken escapes', {'$defs': {'%%4': {}}, 'allOf': [{'$ref': '#/$defs/%%4'}] * 5000}, {}, [], OK),
    ('5,000 chained pointers', chained_pointers(5000, {}), {}, [], OK),
    ('a loop of 5,000 pointers', chained_pointers(4999, {'$ref': '#/allOf/0'}), {}, [], LOOP),
    ('8,000 references that lead nowhere', {'allOf': [{'$ref': '#/properties/a%d' % i} for i in range(8000)]}, {}, [], DANGLING),
    ('a reference of 200,000 bytes', {'items': {'$ref': '#' + '/not' * 50000}}, [], [], DANGLING),
    ('a reference of 66,000 bytes that are no UTF-8', {'items': {'$ref': '#/' + '%ff' * 66000}}, [], [], DANGLING),
    ('5,000 references among 5,000 anchors', among_anchors(5000), {}, [], OK),
    ('13,000 equal anchors', {'allOf': [{'$anchor': 'a'}] * 13000}, {}, [], FORM),
    ('an anchor of 200,000 bytes', {'$anchor': 'a' * 200000}, {}, [], OK),
    ('7,000 references among 7,000 names', among_names(7000), {}, [], OK),
    ('31 schemas that depend on one name', dependent(31), {'a': 0}, [], OK),
    ('20,000 names with a schema each', {'dependentSchemas': {name: False for name in REQUIRED[:20000]}}, {name: 0 for name in REQUIRED[20000:20500]}, [], OK),
    ('200 patches of a text of 100,000 letters', patterned('^(a|aa)+$'), 'a' * 100000, [{'cmd': 'patch', 'name': 'd', 'ops': []}] * 200, OK),
]


def chain_of_pointers(names, last):
    definitions = {name: {'$ref': '#/%24defs/' + after} for name, after in zip(names, names[1:])}
    definitions[names[-1]] = last
    return {'$defs': definitions, '$ref': '#/%24defs/' + names[0]}


def chain_through_nots(names, last):
    made = {name: {'not': {'$ref': '#/$defs/%s/not' % after}} for name, after in zip(names, names[1:])}
    made[names[-1]] = {'not': last}
    return {'$defs': made, 'not': {'$ref': '#/$defs/%s/not' % names[0]}}


# References by pointers. A schema has at most 262,144 bytes.
PATTERN_CASES += [
    ('7,000 chained pointers, 64 high', chain_of_pointers(NAMES[:7000], AGAIN), nest(63), [], OK),
    ('the same, each to the name before it', chain_of_pointers(NAMES[6999::-1], AGAIN), nest(63), [], OK),
    ('7,000 chained pointers in a ring', chain_of_pointers(NAMES[:7000], {'$ref': '#/%24defs/' + NAMES[0]}), 1, [], LOOP),
    ('5,500 pointers through a schema of each name', chain_through_nots(NAMES[:5500], True), 1, [], INVALID),
    ('1,150 pointers through 50 schemas each', {**negations(50, True), 'allOf': [{'$ref': '#' + '/not' * 50}] * 1150}, 1, [], OK),
    ('5,000 pointers past 10,000 members', {**{'a%s' % short(i): 0 for i in range(10000)}, 'properties': {'z': True}, 'allOf': [{'$ref': '#/properties/z'}] * 5000}, 1, [], OK),
    ('5,000 pointers to the last of 8,500 definitions', {'$defs': dict.fromkeys(sorted(NAMES)[:8500] + ['zzzz'], True), 'allOf': [{'$ref': '#/%24defs/zzzz'}] * 5000}, 1, [], OK),
    ('5,500 pointers to the last of 10,000 schemas', {'prefixItems': [True] * 10000, 'allOf': [{'$ref': '#/prefixItems/9999'}] * 5500}, 1, [], OK),
    ('an escape of one digit', {'not': {'$ref': '#/%2'}}, 1, [], DANGLING),
    ('80,000 escapes', {'not': {'$ref': '#/' + '%41' * 80000}}, 1, [], DANGLING),
    ('120,000 steps', {'not': {'$ref': '#' + '/a' * 120000}}, 1, [], DANGLING),
    ('an identifier of 100 bytes before each of 1,800 pointers', {'$id': 'i' * 100, 'properties': {'z': True}, 'allOf': [{'$ref': 'i' * 100 + '#/properties/z'}] * 1800}, 1, [], OK),
    ('an identifier with a fragment', {'$id': 'http://x/#', 'properties': {'z': True}, 'not': {'$ref': 'http://x/#/properties/z'}}, 1, [], INVALID),
]


def anchored(names, targets):
    return {'allOf': [{'$anchor': name, '$ref': '#' + target} for name, target in zip(names, targets)]}


# References by anchors.
ANCHORS = ['a' + short(i) for i in range(7500)]
PATTERN_CASES += [
    ('7,500 chained anchors, 64 high', {'$anchor': 'z', 'additionalProperties': {'$ref': '#z'}, **anchored(ANCHORS[:-1], ANCHORS[1:]), 'items': {'$anchor': ANCHORS[-1]}}, nest(63), [], OK),
    ('the same, each to the anchor before it', {**anchored(ANCHORS[:0:-1], ANCHORS[-2::-1]), 'items': {'$anchor': ANCHORS[0]}}, 1, [], OK),
    ('7,500 chained anchors in a ring', anchored(ANCHORS, ANCHORS[1:] + ANCHORS[:1]), 1, [], LOOP),
    ('7,000 references to the last of 7,000 anchors', {**anchored(ANCHORS[:7000], ['z'] * 7000), 'items': {'$anchor': 'z', 'type': 'integer'}}, 1, [], OK),
    ('7,400 references to no anchor', anchored(ANCHORS[:7400], ['b' + anchor for anchor in ANCHORS]), 1, [], DANGLING),
    ('7,500 anchors, the last as the first', anchored(ANCHORS[:-1] + ANCHORS[:1], ANCHORS), 1, [], FORM),
]


def compact(value):
    return json.dumps(value, separators=(',', ':'), ensure_ascii=False)


def lines_of(case):
    _, schema, document, more, _ = case
    created = {'cmd': 'create', 'doc': document, 'name': 'd', 'schema': schema}
    return [compact(line) for line in [created] + more]


def limits(stack, memory):
    def set_them():
        resource.setrlimit(resource.RLIMIT_STACK, (stack, stack))
        if memory:
            resource.setrlimit(resource.RLIMIT_AS, (memory, memory))
        resource.setrlimit(resource.RLIMIT_CORE, (0, 0))
    return set_them


class Failed(Exception):
    pass


def run(words, data, args, memory=0):
    start = time.monotonic()
    try:
        done = subprocess.run(words, input=data.encode(), capture_output=True, timeout=args.seconds, preexec_fn=limits(args.stack, memory))
    except subprocess.TimeoutExpired:
        raise Failed('over %g seconds' % args.seconds)
    if done.returncode < 0:
        raise Failed('ended by signal %d' % -done.returncode)
    return done, time.monotonic() - start


def look_at(case, out):
    wanted = [case[4]] + [True] * len(case[3])
    replies = [json.loads(line) for line in out.decode().splitlines()]
    if len(replies) != len(wanted):
        raise Failed('%d replies, not %d' % (len(replies), len(wanted)))
    for reply, want in zip(replies, wanted):
        got = True if reply['ok'] else reply['number']
        if got != want and (not isinstance(want, tuple) or got not in want):
            raise Failed('answered %s' % compact(reply)[:120])


def attempt(case, args):
    data = '\n'.join(lines_of(case)) + '\n'
    times = []
    has_patterns = case in PATTERN_CASES
    memory, format_3 = (args.memory, ['--format', '3']) if has_patterns else (0, [])
    with tempfile.TemporaryDirectory() as folder:
        store = os.path.join(folder, 'store')
        if not has_patterns:
            done, took = run([args.program, 'mem', '--sectors', '65536'], data, args)
            look_at(case, done.stdout)
            times.append(took)
        run([args.program, 'format', store, '--sectors', '65536', *format_3], '', args)
        done, took = run([args.program, 'serve', store], data, args, memory)
        look_at(case, done.stdout)
        times.append(took)
        done, took = run([args.program, 'check', store], '', args, memory)
        if done.returncode != 0:
            raise Failed('check: %s' % done.stderr.decode()[:120])
        times.append(took)
    return times


def main():
    parser = argparse.ArgumentParser(description=__doc__, formatter_class=argparse.RawDescriptionHelpFormatter)
    parser.add_argument('program', nargs='?')
    parser.add_argument('--only', default='')
    parser.add_argument('--stack', type=int, default=8 * 1024 * 1024)
    parser.add_argument('--seconds', type=float, default=5.0)
    parser.add_argument('--memory', type=int, default=1 << 30)
    args = parser.parse_args()
    failed = 0
    for case in CASES + PATTERN_CASES:
        if args.only not in case[0]:
            continue
        try:
            print('%-50s %s' % (case[0], ' '.join('%.3f s' % t for t in attempt(case, args))))
        except Failed as why:
            failed += 1
            print('%-50s FAILED: %s' % (case[0], why))
    print('%d cases failed' % failed)
    return 1 if failed else 0


if __name__ == '__main__':
    sys.exit(main())
