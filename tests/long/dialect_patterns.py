#!/usr/bin/env python3
"""Compares how the Python client reads the store's dialect of patterns, and searches by it, with a store.

    dialect_patterns.py PROGRAM [--rounds N] [--seed N]

Random patterns are made of pieces of the dialect, right ones and wrong ones. The client must tell those that the store
refuses (40), and find what the store finds. Names of properties that only the store's tables have are left out of the
comparison, and so are patterns that are too large. The last line is `N passed, M failed`.
"""
import argparse
import random
import sys
import tempfile

from adapt_patterns import by_store
from jpstore.patterns import NoPattern, finds, read_dialect, script_in

PIECES = [
    *"abc-_ /.^$|#]{}*+?()kKsS\n\r", "\u00e9", "\U0001f600", "\u212a", "\u017f", "\\/", "\\.", "\\-", "\\_", "\\\\", "\\d", "\\D", "\\w", "\\W",
    "\\s", "\\S", "\\b", "\\B", "\\A", "\\z", "\\Z", "\\<", "\\>", "\\b{start}", "\\b{end}", "\\b{start-half}", "\\b{end-half}", "\\b{foo}",
    "\\b{2}", "(?-u:\\b)", "(?-u:\\w)", "(?-u:\\W)", "(?-u:.)", "(?-u:[^a])", "(?-u)", "(?u)", "\\x41", "\\x4", "\\x{1F600}", "\\x{110000}",
    "\\x{d800}", "\\u0061", "\\u{61}", "\\U0001F600", "\\t", "\\n", "\\v", "\\f", "\\r", "\\a", "\\0", "\\1", "\\cA", "\\e", "\\q", "\\#", "\\&",
    "\\~", "\\ ", "\\\u00e9", "[a-f]", "[^a-f]", "[a-", "[", "[[a]b]", "[a&&b]", "[a-c&&[^b]]", "[a--b]", "[a-c~~b-d]", "[]a]", "[^]a]", "[]",
    "[-a]", "[a-]", "[--a]", "[a-b-c]", "[\\d-z]", "[a-\\d]", "[\\w&&[^_]]", "[[:alpha:]]", "[[:^digit:]]", "[[:foo:]]", "[:alpha:]", "[\\b]",
    "[\\x41-\\x43]", "[z-a]", "[a&&&&b]", "[&&a]", "[a&&]", "[^\\W]", "[\\S\\s]", "[^\\S\\s]", "[~]", "[&]", "(?:", "(?P<n>", "(?<n>", "(?<m>",
    "(?P<1>", "(?P<n", "(?i)", "(?-i)", "(?i:", "(?s)", "(?m)", "(?x)", "(?U)", "(?R)", "(?mR)", "(?ii)", "(?i-)", "(?)", "(?z)", "(?=a)",
    "(?!a)", "(?<=a)", "(?>a)", "(?#c)", "{2}", "{1,}", "{0,2}", "{2,1}", "{,2}", "{ 1 , 2 }", "{a}", "{1", "*?", "+?", "??", "{1,2}?", "**",
    "#c\n", "\\p{L}", "\\pL", "\\p{Lu}", "\\P{L}", "\\p{^L}", "\\p{Greek}", "\\p{sc=Greek}", "\\p{Script=Latin}", "\\p{gc=Nd}", "\\p{foo}",
    "\\p{", "\\p", "\\p{any}", "\\p{ascii}", "\\p{White_Space}", "\\p{Alphabetic}",
]
SIGNS = "abcABCkKsS019_-. \n\r/#&~^$\\\u00e9\U0001f600\u212a\u017f\u0663\u2028\ufeff\0\t"
TEXTS = 8


def is_read(pattern):
    """Whether the client reads a text as a pattern; None if only the store can say."""
    try:
        read_dialect(pattern)
    except NoPattern:
        return False
    return None if script_in(pattern) else True


def differences(pattern, texts, said):
    """What the client says otherwise than the store."""
    is_known = is_read(pattern)
    if said == "+" or is_known is None:
        return []
    if is_known != (said != "-"):
        return [f"{pattern!r} is {'a' if is_known else 'no'} pattern to the client, and not so to the store"]
    if not is_known:
        return []
    found = [finds(pattern, text) for text in texts]
    return [f"{pattern!r} in {text!r}: {one} to the client" for text, one, other in zip(texts, found, said)
            if one is not None and one != (other == "1")]


def main():
    parser = argparse.ArgumentParser(description=__doc__, formatter_class=argparse.RawDescriptionHelpFormatter)
    parser.add_argument("program")
    parser.add_argument("--rounds", type=int, default=5000)
    parser.add_argument("--seed", type=int, default=73)
    args = parser.parse_args()
    chance, failed = random.Random(args.seed), 0
    patterns = ["".join(chance.choices(PIECES, k=chance.randint(1, 6))) for _ in range(args.rounds)]
    cases = [(None, pattern, ["".join(chance.choices(SIGNS, k=chance.randint(0, 5))) for _ in range(TEXTS)]) for pattern in patterns]
    with tempfile.TemporaryDirectory(prefix="jpstore-") as folder:
        answers = by_store(args.program, folder, cases)
    for (_, pattern, texts), said in zip(cases, answers):
        differing = differences(pattern, texts, said)
        failed += bool(differing)
        print(*differing, sep="\n", end="\n" if differing else "")
    print(f"{len(cases) - failed} passed, {failed} failed")
    return 1 if failed else 0


if __name__ == "__main__":
    sys.exit(main())
