"""The tables of the pages: commands, keywords and names of refusals of PROTOCOL, statuses of HTTP, families of GUIDE; and of the manual
pages what refusals of an opening and of lines mean."""
import re
import textwrap

from .parts import Block
from .table import OPENINGS

PROTOCOL, HTTP, GUIDE = (f"docs/use/{name}.md" for name in ("PROTOCOL", "HTTP", "GUIDE"))
MANUAL, REFUSALS = "packaging/jpstore.1", "packaging/jpstore-refusals.7"


def _table(heads, rows):
    lines = ["| " + " | ".join(heads) + " |", "|" + "---|" * len(heads)]
    return "\n".join(lines + ["| " + " | ".join(cells) + " |" for cells in rows]).replace("|  |", "| |") + "\n"


def _line(row):
    """The form of a command, and beside it the members that may be left out."""
    members = {"cmd": f'"{row["word"]}"', **{each["name"]: each["shown"] for each in row["members"] if not each.get("optional")}}
    line = ",".join(f'"{name}":{members[name]}' for name in sorted(members))
    also = [f'`"{each["name"]}":{each["shown"]}`' for each in row["members"] if each.get("optional")]
    return f"`{{{line}}}`" + (f", also with {' and '.join(also)}" if also else "")


def _commands(table):
    shown = [row for row in table.commands.values() if "does" in row]
    rows = [(_line(row), row["does"], row["reply"], ", ".join(map(str, row["refused"]))) for row in shown]
    return _table(("Line", "Does", "Reply", "May be refused with"), rows)


def _keywords(table):
    sections = {}
    for row in table.keywords.values():
        if "section" in row:
            sections.setdefault(row["section"], []).append(row)
    width = max(map(len, sections)) + 2
    return "```text\n" + "".join(_section(name.ljust(width), rows) for name, rows in sections.items()) + "```\n"


def _section(head, rows):
    names = [row["name"] + ("*" if row["format"] == 3 else "") for row in rows if not row.get("root")]
    roots = [row["name"] for row in rows if row.get("root")]
    return head + "  ".join(names) + (f"  (at the root also {'  '.join(roots)})" if roots else "") + "\n"


def _left_out(table):
    rows = [(row.get("what") or ", ".join(f"`{name}`" for name in row["keywords"]), row["why"]) for row in table.left_out]
    return _table(("Refused (41)", "Why"), rows)


def _refusals(table):
    names = textwrap.wrap("  ".join(f"{row['number']}\xa0{row['name']}" for row in table.of_lines()), 120, break_on_hyphens=False)
    return "```text\n" + "\n".join(names).replace("\xa0", " ") + "\n```\n"


def _sentence(text):
    """A text as a sentence of a manual page, whose code is in quotes."""
    quoted = re.sub(r"`([^`]*)`", r"\\(oq\1\\(cq", text[0].upper() + text[1:] + ".")
    return "\n".join(part for sentence in re.split(r"(?<=\.) (?=[A-Z])", quoted) for part in textwrap.wrap(sentence, 78)) + "\n"


def _listed(rows, head):
    """A list of a manual page: each refusal with what it means, and what to do."""
    return "".join(f".It {head.format(**row)}\n{_sentence(row['meaning'])}{_sentence(row['advice'])}" for row in rows)


def _opening(table):
    return _listed((row for row in table.refusals.values() if row["number"] >= OPENINGS), "Ql jpstore: {name} ({number})")


def _statuses(table):
    rows = []
    for status, phrase in table.statuses.items():
        refused = [f"{row['number']} {row['name']}" for row in table.of_lines() if row["status"] == status]
        rows += [(f"{status} {phrase}", ", ".join(refused))] if refused else []
    return _table(("Status", "Refusals"), rows)


def _families(table):
    lines = []
    for name, row in table.families.items():
        if "exit" in row:
            numbers = " ".join(str(each["number"]) for each in table.of_family(name))
            lines.append(f"{name:10} {row['exit']:<3} {numbers}: {row['says']}\n")
    return "```text\n" + "".join(lines) + "```\n"


def parts(table):
    """The parts of the pages."""
    return [
        Block(PROTOCOL, "commands", _commands(table)),
        Block(PROTOCOL, "keywords", _keywords(table)),
        Block(PROTOCOL, "keywords that are refused", _left_out(table)),
        Block(PROTOCOL, "refusals", _refusals(table)),
        Block(MANUAL, "refusals of an opening", _opening(table)),
        Block(REFUSALS, "refusals of lines", _listed(table.of_lines(), "{number} {name}")),
        Block(HTTP, "statuses", _statuses(table)),
        Block(GUIDE, "families", _families(table)),
    ]
