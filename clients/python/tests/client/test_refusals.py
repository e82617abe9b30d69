"""The names of refusals are those of docs/use/PROTOCOL.md, and each refusal has a family.

The complaints of the program are those of its manual page, packaging/jpstore.1.
"""
import os
import re

import pytest
from jpstore import REFUSALS, Refused, errors
from jpstore.refusals import ADVICE, COMPLAINTS, table
from support import PACKAGE

_TOP = os.path.join(PACKAGE, "..", "..")


def _text(*names):
    with open(os.path.join(_TOP, *names), encoding="utf-8") as opened:
        return opened.read()


def _plain(lines):
    """The words of lines of a manual page, without its macros, in one line."""
    words = re.sub(r"^\.(?:Cm|Pa|Ql|Xr) |^\.(?=Fl)", "", lines, flags=re.M).replace("Fl Fl ", "--")
    return re.sub(r" ([,;:.])(?=\s|$)", r"\1", " ".join(words.split()))


def test_the_refusals_are_those_of_the_protocol():
    names = {number: row.name for number, row in REFUSALS.items()}
    listed = re.search(r"^<!-- refusals: .*\n```text\n(.*?)^```$", _text("docs", "use", "PROTOCOL.md"), re.M | re.S)[1]
    # The others are those of an opening.
    assert listed.split() == [word for number in names if number < 70 for word in (str(number), names[number])]


def test_the_table_has_what_each_refusal_means():
    shown = [row.split(" | ")[1:] for row in table().splitlines()[2:]]
    assert shown == [[row.meaning, f"{row.advice} |"] for row in REFUSALS.values()]


def test_the_complaints_are_those_of_the_manual_page():
    text = _text("packaging", "jpstore.1").partition(".Ss Refusals of an opening")[0]
    entries = re.findall(r"^\.It Ql jpstore: ([a-z-]+).*\n((?:.+\n)+?)(?=\.It |\.El)", text, re.M)
    told = {word: _plain(means) for word, means in entries}
    assert told == {word: means.replace("`", "") for word, means in COMPLAINTS.items()}


def test_the_complaints_of_the_server_are_those_of_the_package():
    with open(os.path.join(PACKAGE, "..", "server", "src", "program", "complaints.rs"), encoding="utf-8") as opened:
        complaints = re.findall(r'^    \("([a-z-]+)", "(.*)"\),$', opened.read(), re.M)
    assert len(complaints) == 6 and set(complaints) <= set(ADVICE.items())


def test_each_refusal_of_a_line_has_a_family():
    for number, row in REFUSALS.items():
        refused = errors.refusal_of({"number": number, "error": row.name, "ok": False})
        # From 70 on the library and the opening refuse, and no line.
        if (type(refused) is Refused) != (number >= 70):
            pytest.fail(f"{number} is a {type(refused).__name__}")


def test_a_refusal_that_the_table_lacks_is_one():
    refused = errors.refusal_of({"number": 99, "error": "later", "ok": False, "op": 2})
    assert (type(refused), refused.number, refused.name, refused.op) == (Refused, 99, "later", 2)
    assert str(refused) == "99 later, operation 2"
