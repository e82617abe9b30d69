#!/usr/bin/env python3
"""Counts the words of the pages: a sentence's average and longest by page, the words to avoid, and the total. Without pages it
also looks for words to avoid in the comments of the crates.

    count_words.py [--check | --long | --avoid] [PAGE..]

With --check it says only what is over a limit; its last line is `N passed, M failed`: each page is a test, and so are the total
and the comments. With --long it shows the sentences over the limit, and with --avoid the sentences with a word to avoid.
Without pages it counts all pages (*.md) of the repository, and reads the comments of crates/*/src and crates/*/specs.

A page's words are what `wc -w` counts, and so is the total that is limited. In a sentence a word is what has a letter or a digit
between blanks, code included. The cells of tables and headings are judged by the longest sentence alone, since short cells would lower
the average.
"""
import argparse
import pathlib
import re
import sys

ROOT = pathlib.Path(__file__).resolve().parent.parent
MOST_ON_AVERAGE = 20
MOST_IN_A_SENTENCE = 40
MOST_README_LINES = 100
MOST_WORDS = 25_000
# Folders of which nothing is a page of the repository: what is built, and hidden ones.
MADE = re.compile(r"target|out|dist|build|debian|\..*")

# Words that ask for a second reading, each with what to say instead.
AVOID = {
    r"want of memory": "out of memory",
    r"stands?|stood|standing": "is, holds, exists",
    r"mend(s|ed|ing)?": "correct, repair",
    r"wants?": "needs, asks for",
    r"(done|said|told|answered|takes|tried|found|ends) so": "in this way",
    r"alike": "the same, similar",
    r"is of|are of": "has, belongs to",
    r"is to be (read|tried|taken)": "must be",
}
ON_PAGES = {
    r"behind": "after",
    r"where(?! (to|things)\b)": "if, in which, exactly when",
    r"lives": "runs, histories",
}
# Right in a comment are the place where something begins or is, the lives of a disk, and `!behind`, a word of the transcripts.
IN_COMMENTS = {
    r"(?<!!)behind": "after",
    r"(?<!from )(?<!to )where(?! ((it|they|the \w+) )?(begins?|began|ends?|ended|is|are)\s*([.,;:(]|$))": "if, in which, exactly when",
    r"lives (in|at|on)": "is in",
    r"so many": "that many, or the number by its name",
    r"tells?|told|telling": "says, gives, has",
    r"(refused|judged|spelled|written|went|named) so": "in this way",
}
COMMENT = re.compile(r"\s*(?://[/!]?|--) ?(.*)")
# The head of a file names what is in it: `The status of a store`, not `What a store says of itself`.
ANSWERS = re.compile(r"(For the clauses within the crate: )?(What|Why|Which|Whether|How|When|Where|Who)\b", re.I)


def compiled(patterns):
    return {re.compile(rf"\b({pattern})\b", re.I): rather for pattern, rather in patterns.items()}


AVOIDED_ON_PAGES = compiled({**AVOID, **ON_PAGES})
AVOIDED_IN_COMMENTS = compiled({**AVOID, **IN_COMMENTS})


def pages():
    found = [path.relative_to(ROOT) for path in ROOT.rglob("*.md")]
    return [ROOT / path for path in sorted(found) if not any(map(MADE.fullmatch, path.parts))]


def sources():
    return sorted([*ROOT.glob("crates/*/src/**/*.rt"), *ROOT.glob("crates/*/specs/**/*.antt")])


def without_fences(text):
    return re.sub(r"^```.*?^```$", "", text, flags=re.M | re.S)


def without_blocks(text):
    """The text without code blocks and without comments."""
    text = re.sub(r"<!--.*?-->", "", without_fences(text), flags=re.S)
    return re.sub(r"^    .*$", "", text, flags=re.M)


def words_of(text):
    return [word for word in text.split() if re.search(r"\w", word)]


def parts_of(text):
    """The parts of a page that sentences don't cross: (part, whether it counts for the average)."""
    paragraph = []
    for line in text.splitlines() + [""]:
        line = line.strip()
        begins = re.match(r"([-*]|\d+\.) ", line)
        if (not line or begins or line.startswith(("|", "#"))) and paragraph:
            yield " ".join(paragraph), True
            paragraph = []
        if line.startswith("|"):
            for cell in re.split(r"(?<!\\)\|", line.strip("|")):
                yield cell.strip(), False
        elif line.startswith("#"):
            yield line.lstrip("# "), False
        elif line:
            paragraph.append(line[begins.end():] if begins else line)


def sentences_of(part):
    """A sentence ends at a full stop, a question mark or an exclamation mark before a blank and a new beginning."""
    ended = re.split(r"(?<=[.!?])[*)`\"]*\s+(?=[\"`*(\[]*[A-Z0-9`{])", re.sub(r"\.\. ", "… ", part))
    return [sentence for sentence in ended if words_of(sentence)]


def uses_in(sentence, avoided):
    """Each use of a word to avoid, outside of code: (word, what to say instead)."""
    plain = re.sub(r"`[^`]*`", "", sentence)
    for pattern, rather in avoided.items():
        for use in pattern.finditer(plain):
            yield use.group(), rather


def comments_of(path):
    """Each comment of a file: (the number of its first line, its text)."""
    lines, first = [], 0
    for number, line in enumerate([*path.read_text(encoding="utf-8").splitlines(), ""], 1):
        found = COMMENT.fullmatch(line)
        if found and found[1]:
            first = first if lines else number
            lines.append(found[1].strip())
        elif lines:
            yield first, " ".join(lines)
            lines = []


def faults_of_comments():
    """Each fault of the comments: (its file and line, the fault, the sentence)."""
    for path in sources():
        for number, text in comments_of(path):
            place = f"{path.relative_to(ROOT).as_posix()}:{number}"
            for sentence in sentences_of(text):
                for word, rather in uses_in(sentence, AVOIDED_IN_COMMENTS):
                    yield place, f"`{word}`: say {rather}", sentence
            if number == 1 and ANSWERS.match(text):
                yield place, "the head of a file names what is in it", text


class Page:
    def __init__(self, path):
        self.name = path.resolve().relative_to(ROOT).as_posix()
        text = path.read_text(encoding="utf-8")
        self.lines = len(text.splitlines())
        self.words = len(text.split())
        prose = without_blocks(text)
        judged = [(sentence, counts) for part, counts in parts_of(prose) for sentence in sentences_of(part)]
        self.sentences = [sentence for sentence, _ in judged]
        lengths = [len(words_of(sentence)) for sentence, counts in judged if counts]
        self.average = sum(lengths) / max(len(lengths), 1)
        self.longest = max((len(words_of(sentence)) for sentence in self.sentences), default=0)

    def avoided(self):
        """Each use of a word to avoid, outside of code, with its sentence."""
        for sentence in self.sentences:
            for word, rather in uses_in(sentence, AVOIDED_ON_PAGES):
                yield word, rather, sentence

    def faults(self):
        if self.average >= MOST_ON_AVERAGE:
            yield f"{self.average:.1f} words a sentence on average, under {MOST_ON_AVERAGE} is wanted"
        if self.longest > MOST_IN_A_SENTENCE:
            yield f"a sentence of {self.longest} words, at most {MOST_IN_A_SENTENCE} are wanted (--long shows it)"
        for word, rather, _ in self.avoided():
            yield f"`{word}`: say {rather} (--avoid shows the sentence)"
        if self.name == "README.md" and self.lines > MOST_README_LINES:
            yield f"{self.lines} lines, at most {MOST_README_LINES} are wanted"


def words_in_all(counted):
    return sum(page.words for page in counted)


def check(counted, whole):
    faults = [(page.name, fault) for page in counted for fault in page.faults()]
    total = words_in_all(counted)
    if whole and total > MOST_WORDS:
        faults.append(("all pages", f"{total:,} words, at most {MOST_WORDS:,} are wanted"))
    if whole:
        faults += [("comments", f"{place}: {fault}") for place, fault, _ in faults_of_comments()]
    for name, fault in faults:
        print(f"{name}: {fault}")
    failed = len({name for name, _ in faults})
    print(f"{len(counted) + 2 * whole - failed} passed, {failed} failed")
    return 1 if failed else 0


def show(counted):
    print(f"{'page':28} {'lines':>6} {'words':>6} {'average':>8} {'longest':>8} {'to avoid':>9}")
    for page in counted:
        avoided = len(list(page.avoided()))
        print(f"{page.name:28} {page.lines:6} {page.words:6} {page.average:8.1f} {page.longest:8} {avoided:9}")
    print(f"{'all pages':28} {'':6} {words_in_all(counted):6}")


def main():
    parser = argparse.ArgumentParser(description="Counts the words of the pages.")
    parser.add_argument("--check", action="store_true", help="say only what is over a limit")
    parser.add_argument("--long", action="store_true", help="show the sentences that are too long")
    parser.add_argument("--avoid", action="store_true", help="show the sentences with a word to avoid")
    parser.add_argument("pages", nargs="*", type=pathlib.Path)
    asked = parser.parse_args()
    counted = [Page(path) for path in asked.pages or pages()]
    if asked.check:
        return check(counted, not asked.pages)
    for page in counted:
        if asked.long:
            for sentence in page.sentences:
                if len(words_of(sentence)) > MOST_IN_A_SENTENCE:
                    print(f"{page.name}: {len(words_of(sentence))}: {sentence}\n")
        if asked.avoid:
            for word, rather, sentence in page.avoided():
                print(f"{page.name}: `{word}`, say {rather}: {sentence}\n")
    if asked.avoid and not asked.pages:
        for place, fault, sentence in faults_of_comments():
            print(f"{place}: {fault}: {sentence}\n")
    if not (asked.long or asked.avoid):
        show(counted)
    return 0


if __name__ == "__main__":
    sys.exit(main())
