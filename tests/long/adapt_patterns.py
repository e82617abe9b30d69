#!/usr/bin/env python3
"""Compares patterns of ECMA-262 in node with what `adapt` makes of them in a store, over made texts.

    adapt_patterns.py [--random N] [--seed N] [--texts N] (--program PROGRAM | --crate) PATH..

Each PATH is a JSON file, or a folder with some: each `pattern` and each name in `patternProperties` is taken, and
changed patterns and random ones are made beside. A pattern must be told as none, or find the same texts in both. Needs
node. With --crate Rust's crate `regex` takes the store's place, by cargo with Debian's librust-regex-dev. The last line is
`N passed, M failed`.
"""
import argparse
import collections
import json
import os
import pathlib
import random
import re
import resource
import subprocess
import sys
import tempfile

HERE = pathlib.Path(__file__).resolve().parent
sys.path.insert(0, str(HERE.parents[1] / "clients" / "python"))

from jpstore.patterns import NoPattern, read_dialect, read_ecma, same, written  # noqa: E402
from jpstore.patterns.tokens import Kind  # noqa: E402

# What the store answers of a text without the pattern, and of what is no pattern.
INVALID, FORM = 45, 40

# So many patterns go to node at once, for so much processor time.
AT_ONCE, SECONDS = 400, 3

# By a count of a count node tries very many ways: such a pattern gets short texts.
COUNTED_TWICE = re.compile(r"[*+}]\??\)+(?:[*+]|\{)")

DEBIAN = "/usr/share/cargo/registry"
SIGNS = ("\n\r\u2028\u2029\u0085\v\f \t\u00a0\ufeff\u1680\u180e\u2003\u3000\u00e9\u017f\u212a\u0663\u0966\u00f1_-.[]&~^$\\/azAZ09\0\x1c"
         "\x1f\x7f\ue000\ud7ff\u203f\u00aa\u2177\u200d\u0301:@\uffff\u2e80\u03b1\u0416")
FAR = "\U0001f600\U0010ffff\U0001d7d8\U00010000"
PIECES = ["a", "b", "-", "_", " ", "\u00e9", "\U0001f600", "/", "\\/", "\\.", "\\-", "\\_", "\\\\", "\\d", "\\D", "\\w", "\\W", "\\s", "\\S",
          "\\b", "\\B", "\\cA", "\\cj", "\\0", "\\x41", "\\x0a", "\\u0061", "\\u{1F600}", "\\ud83d\\ude00", "\\ud83d", "\\t\\n", "\\v\\f\\r",
          ".", "^", "$", "[a-f]", "[^a-f]", "[\\d_]", "[^\\s]", "[\\w-.]", "[.-\\w]", "[a-]", "[-a]", "[--a]", "[[]", "[a&&b]", "[a--b]",
          "[~~]", "[]", "[^]", "[\\]]", "[\\b]", "[\\S\\s]", "[^\\W\\d]", "[\\u0020-\\ud7ff\\ue000-\\ufffd\\ud800\\udc00-\\udbff\\udfff]",
          "[\\ud800-\\udbff]", "[\\^a]", "[a^]", "[#]", "#", "&", "~", "]", "}", "{", "\\{", "\\p{L}", "\\P{Lu}", "[\\p{Nd}-]", "[^\\p{L}\\P{Ll}]",
          "\\p{Script=Greek}", "\\p{ASCII}", "\\p{Alphabetic}", "\\p{White_Space}", "(", ")", "(?:", "(?<n>", "(?=", "(?!", "(?<=", "(?i)", "|", "|",
          "*", "+", "?", "{2}", "{1,}", "{0,2}", "{2,1}", "*?", "+?", "??", "{1,2}?", "\\1", "\\k<n>", "\\Z", "\\A", "\\a", "\\<", "\\>", "\\#",
          "\\&", "\\~", "\\ ", "\\\"", "\\c", "\\x4", "\\u00", "[z-a]", "[a-\\d]", "\\u{110000}", "\\n", "[\\n]", "[\\-]", "[a\\-z]", "[\\x2d-z]"]


def patterns_in(paths):
    """Each pattern in the files, once."""
    for path in paths:
        files = [path] if os.path.isfile(path) else sorted(map(str, pathlib.Path(path).rglob("*.json")))
        for file in files:
            try:
                with open(file, encoding="utf-8") as opened:
                    yield from patterns_of(json.load(opened))
            except (OSError, ValueError, RecursionError):
                continue


def patterns_of(value):
    waiting = [value]
    while waiting:
        part = waiting.pop()
        if isinstance(part, dict):
            named = part.get("patternProperties")
            yield from [part["pattern"]] if isinstance(part.get("pattern"), str) else []
            yield from named if isinstance(named, dict) else []
            waiting.extend(part.values())
        elif isinstance(part, list):
            waiting.extend(part)


def some_pattern(chance, known):
    """A random pattern: of pieces, or a known one with a letter less or more."""
    if not known or chance.random() < 0.7:
        return "".join(chance.choice(PIECES) for _ in range(chance.randint(1, 7)))
    letters = list(chance.choice(known))
    for _ in range(chance.randint(1, 3)):
        place = chance.randint(0, len(letters))
        letters[place:place + chance.randint(0, 1)] = chance.choice(PIECES) if chance.random() < 0.6 else ""
    return "".join(letters)


class Maker:
    """Makes texts that match, by the parts of a pattern."""

    def __init__(self, tokens, chance):
        self.tokens, self.chance, self.at = tokens, chance, 0

    def tree(self):
        branches = [[]]
        while self.at < len(self.tokens):
            token = self.tokens[self.at]
            self.at += 1
            if token.kind is Kind.CLOSE:
                break
            if token.kind is Kind.OR:
                branches.append([])
            elif token.kind is Kind.COUNT:
                branches[-1][-1] = (branches[-1][-1], token.value)
            elif token.kind is Kind.OPEN:
                branches[-1].append(self.tree())
            elif token.kind is Kind.CHARACTERS:
                branches[-1].append(token.value)
        return branches

    def text(self, node, room):
        if isinstance(node, list):
            return "".join(self.text(part, room) for part in self.chance.choice(node))
        if isinstance(node, tuple):
            part, (least, most) = node
            count = self.chance.choice([least, least + 1, most or least + 3, min(least + 2, most or least + 2)])
            return "".join(self.text(part, room // max(1, count)) for _ in range(min(count, max(1, room))))
        if node.properties or not node.ranges or node.is_negated:
            return self.chance.choice(SIGNS + FAR)
        low, high = self.chance.choice(node.ranges)
        code = self.chance.choice([low, high, self.chance.randint(low, high), self.chance.randint(low, min(high, low + 0x60))])
        return "" if 0xD800 <= code <= 0xDFFF else chr(code)


def texts_for(tokens, chance, signs, count, longest):
    """Texts that match, and such with a few other signs."""
    maker = Maker(tokens, chance)
    tree = maker.tree()
    made = ["", chance.choice(signs), "a\n", "\n"]
    while len(made) < count:
        text = maker.text(tree, 80)[:longest]
        made.append(text)
        for _ in range(chance.randint(1, 3)):
            letters = list(text)
            for _ in range(chance.randint(1, 2)):
                place = chance.randint(0, len(letters))
                letters[place:place + chance.randint(0, 1)] = chance.choice(signs) * chance.randint(0, 1)
            made.append("".join(letters))
    if signs is not FAR and signs == SIGNS:
        made = ["".join(sign for sign in text if sign < "\U00010000") for text in made]
    return made


def line_of(pattern, texts):
    # A lone half of a pair is not in a line: node would read another sign.
    return " ".join(each.encode("utf-8", "surrogatepass").hex() for each in (pattern, *texts)) + "\n"


def answered(words, lines):
    done = subprocess.run(words, input="".join(lines), stdout=subprocess.PIPE, text=True, check=True)
    return done.stdout.splitlines()


def by_node(lines):
    """What node answers to each line; `~` where it takes too long, since it searches by trying."""
    found = []
    while len(found) < len(lines):
        given = lines[len(found):len(found) + AT_ONCE]
        done = subprocess.run(["node", str(HERE / "node_patterns.js")], input="".join(given), stdout=subprocess.PIPE, text=True,
                              preexec_fn=lambda: resource.setrlimit(resource.RLIMIT_CPU, (SECONDS, SECONDS)))
        answers = done.stdout.splitlines()[:len(given)]
        found += answers + ["~"] * (len(answers) < len(given))
    return found


def rust(folder):
    """Rust's program, built without a network."""
    options = ["--config", "source.crates-io.replace-with='debian'", "--config", f"source.debian.directory='{DEBIAN}'"]
    target = os.environ.get("CARGO_TARGET_DIR", folder)
    manifest = str(HERE / "rust_patterns" / "Cargo.toml")
    subprocess.run(["cargo", "build", "-q", "--release", "--offline", *options, "--manifest-path", manifest, "--target-dir", target], check=True)
    return os.path.join(target, "release", "rust-patterns")


def by_store(program, folder, cases):
    """What a store of format 3 says of each pattern and its texts, each a document under it; `-` if it is no pattern, and
    `+` if it is too large."""
    file, lines = os.path.join(folder, "store"), []
    subprocess.run([program, "format", file, "--sectors", "65536", "--format", "3"], stdout=subprocess.DEVNULL, check=True)
    for _, made, texts in cases:
        for text in texts:
            lines += [{"cmd": "create", "doc": text, "name": "d", "schema": {"pattern": made}}, {"cmd": "delete", "name": "d"}]
    replies = map(json.loads, answered([program, "serve", file], (json.dumps(line) + "\n" for line in lines)))
    found = []
    for _, _, texts in cases:
        said = [next(replies).get("number", 0) for _ in range(2 * len(texts))][::2]
        refused = set(said) - {0, INVALID}
        found.append("".join(str(int(not number)) for number in said) if not refused else "-" if refused == {FORM} else "+")
    return found


def compared(case, by_node, by_store):
    """How a pattern came through; None if the two differ."""
    pattern, made, _ = case
    if by_node == "-":
        return None
    if by_node == "~":
        return "node takes too long"
    if by_store == "+":
        return "too large"
    if by_store == "-" and "\\B" in made:
        return "only read by later editions of the crate"
    return ("the same as it stands" if made == pattern else "the same, rewritten") if by_node.lstrip("!") == by_store else None


def shown(case, by_node, by_store):
    pattern, made, texts = case
    differs = [text for text, one, other in zip(texts, by_node.lstrip("!"), by_store) if one != other]
    return f"{pattern!r} made {made!r}: node {by_node[:1]}, store {by_store[:1]}, {len(differs)} texts differ: {differs[:2]!r}"


def cases_of(patterns, chance, count):
    """Each pattern that is rewritten, with what is made of it and so many texts; and how many are written wrongly."""
    cases, failed = [], 0
    for pattern in patterns:
        try:
            read = read_ecma(pattern)
        except NoPattern:
            continue
        made = written(read.tokens)
        if not same(read_dialect(made), read.tokens) and "(?" not in made:
            failed += 1
            print(f"{pattern!r} is written as {made!r}, which this client reads in another way")
        signs = SIGNS if any("beyond" in note for note in read.notes) else SIGNS + FAR
        longest = 14 if COUNTED_TWICE.search(pattern) else 100
        cases.append((pattern, made, texts_for(read.tokens, chance, signs, count, longest)))
    return cases, failed


def main():
    parser = argparse.ArgumentParser(description=__doc__, formatter_class=argparse.RawDescriptionHelpFormatter)
    parser.add_argument("paths", nargs="+")
    parser.add_argument("--random", type=int, default=5000)
    parser.add_argument("--seed", type=int, default=73)
    parser.add_argument("--texts", type=int, default=40)
    judge = parser.add_mutually_exclusive_group(required=True)
    judge.add_argument("--program")
    judge.add_argument("--crate", action="store_true")
    args = parser.parse_args()
    chance, counts = random.Random(args.seed), collections.Counter()
    known = list(dict.fromkeys(each for each in patterns_in(args.paths) if len(each) <= 4096))
    patterns = dict.fromkeys([*known, *(some_pattern(chance, known) for _ in range(args.random))])
    cases, failed = cases_of(patterns, chance, args.texts)
    counts["told"] = len(patterns) - len(cases)
    with tempfile.TemporaryDirectory(prefix="jpstore-") as folder:
        of_node = by_node([line_of(case[0], case[2]) for case in cases])
        if args.program:
            of_store = by_store(args.program, folder, cases)
        else:
            of_store = answered([rust(folder)], [line_of(case[1], case[2]) for case in cases])
    assert len(of_node) == len(of_store) == len(cases)
    for case, node, other in zip(cases, of_node, of_store):
        how = compared(case, node, other)
        counts[how or "differs"] += 1
        failed += how is None
        if how is None:
            print(shown(case, node, other))
    texts = sum(len(case[2]) for case in cases)
    print(f"{len(known)} patterns of the files, {args.random} made, {texts} texts; found in " +
          f"{sum(row.count('1') for row in of_node)}")
    for how, count in counts.items():
        print(f"{count:6} {how}")
    print(f"{len(cases) - failed} passed, {failed} failed")
    return 1 if failed else 0


if __name__ == "__main__":
    sys.exit(main())
