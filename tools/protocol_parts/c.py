"""The numbers and the names of refusals, and the kinds of changes, in the header of the library and beside it."""
import textwrap

from .parts import Block
from .table import constant

HEADER, NAMES = "clients/c/jpstore.h", "clients/c/src/refusals.c"
WIDTH = 128
# The members of a cause that tell more.
MORE = {"rev": "cause->rev", "mark": "cause->mark"}


def _number(row):
    """The name of a refusal's number."""
    return "JPSTORE_REFUSAL_" + constant(row["name"])


def _numbered(rows):
    """The lines of an enumeration: (name, number, comment) each."""
    heads = [f"    {name} = {number}{',' if place < len(rows) else ''}" for place, (name, number, _) in enumerate(rows, 1)]
    width = max(map(len, heads)) + 1
    return "".join(head.ljust(width) + _comment(comment, width) for head, (_, _, comment) in zip(heads, rows))


def _comment(comment, column):
    lines = textwrap.wrap(comment, WIDTH - column - 6, break_long_words=False, break_on_hyphens=False)
    return "/* " + ("\n" + " " * column + " * ").join(lines) + " */\n"


def _refusals(table):
    rows = table.refusals.values()
    numbered = _numbered([(_number(row), row["number"], row.get("brief", row["meaning"]).format(**MORE)) for row in rows])
    return f"enum jpstore_refusal {{\n{numbered}}};\n"


def _kinds(table):
    rows = [(f"JPSTORE_{row.get('c_name', constant(word))}", row["number"], _members(row)) for word, row in table.commands.items()
            if "number" in row]
    return f"enum jpstore_change_kind {{\n{_numbered(rows)}}};\n"


def _members(row):
    """The members of a change in C: an optional number is asked for by itself, and a list has its count beside it."""
    names = [each["name"] for each in row["members"] if not each.get("optional")]
    names += [f"{each['name']}_count" for each in row["members"] if each["is"] == "changes"]
    optional = [f"{each['name']} with {each['name'].rpartition('_')[2]}" for each in row["members"] if each.get("optional")]
    return ", ".join(names) + "".join(f", and perhaps {each}" for each in optional)


def _names(table):
    return "".join(f'    [{_number(row)}] = "{row["name"]}",\n' for row in table.refusals.values())


def parts(table):
    """The parts of the library's sources."""
    return [Block(HEADER, "refusals", _refusals(table)), Block(HEADER, "kinds of changes", _kinds(table)), Block(NAMES, "names", _names(table))]
