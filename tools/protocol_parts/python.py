"""The tables of the Python package: jpstore/protocol.py and jpstore/wire/limits.py."""
import textwrap

from .parts import WRITTEN, Whole
from .table import constant

PROTOCOL, LIMITS = "clients/python/jpstore/protocol.py", "clients/python/jpstore/wire/limits.py"
WIDTH = 120
TABLES = ("COMMANDS", "EARLIER", "ELSEWHERE", "KEYWORDS", "OWN_REFUSALS", "REFUSALS")

HEAD = '''"""The tables of the protocol, WRITTEN.

They have its refusals, its commands, and the keywords of schemas.
"""
from typing import Dict, NamedTuple, Optional, Tuple

NAMES


class Member(NamedTuple):
    """What the value of a member is, the most that a number may be, and whether the member may be left out."""

    kind: str
    most: Optional[int] = None
    optional: bool = False


class Command(NamedTuple):
    """What a command asks for, and its members."""

    kind: str
    members: Dict[str, Member]


class Keyword(NamedTuple):
    """How the value of a keyword holds schemas, and the first format that reads it.

    `refused` ones are refused by each format, and those of no format have no effect. `instead` is what is nearest to a
    keyword that a format refuses, and one `in_place` leads to a schema for the same value.
    """

    holds: str = ""
    format: Optional[int] = None
    refused: bool = False
    instead: str = ""
    in_place: bool = False


'''


def _all(names):
    """The public names of a module."""
    lines = textwrap.wrap(", ".join(f'"{name}"' for name in names) + ",", WIDTH - 4)
    return "__all__ = [\n" + textwrap.indent("\n".join(lines), "    ") + "\n]"


def text(value, column, after=1):
    """A text in quotes from this column on, over several lines if it is long; `after` it something follows on its line."""
    quoted = '"' + value.replace("\\", "\\\\").replace('"', '\\"') + '"'
    if column + len(quoted) + after <= WIDTH:
        return quoted
    words = textwrap.wrap(quoted[1:-1], WIDTH - column - 2 - after, break_long_words=False, break_on_hyphens=False, drop_whitespace=False)
    return ("\n" + " " * column).join(f'"{part}"' for part in words)


def _refusals(table):
    rows = []
    for row in table.refusals.values():
        head = f'    ({row["number"]}, "{row["name"]}", "{row.get("family", "")}",\n'
        rows.append(head + f'     {text(row["meaning"], 5)},\n     {text(row["advice"], 5, 2)}),\n')
    kind = "Tuple[Tuple[int, str, str, str, str], ...]"
    return f"#: The number, name, family, meaning and advice of each refusal.\nREFUSALS: {kind} = (\n{''.join(rows)})\n"


def _dictionary(name, kind, comment, rows):
    lines = "".join(f'    "{key}": {value},\n' for key, value in rows.items())
    return f"#: {comment}\n{name}: Dict[str, {kind}] = {{\n{lines}}}\n"


def _numbers(table):
    rows = {**table.refusals, **table.own_refusals}.items()
    return "# The numbers of refusals.\n" + "".join(f"{constant(row['name'])} = {number}\n" for number, row in rows)


def _own(table):
    rows = "".join(f'    {number}: "{row["name"]}",\n' for number, row in table.own_refusals.items())
    return f"#: The names of the refusals of a hub or a node that no store has.\nOWN_REFUSALS: Dict[int, str] = {{\n{rows}}}\n"


def _member(table, row):
    words = [f'"{row["is"]}"']
    if "most" in row:
        words.append(str(table.limits[row["most"]]["value"]))
    return f"Member({', '.join(words + ['optional=True'] * row.get('optional', False))})"


def _command(table, row):
    members = {"cmd": 'Member("text")', **{each["name"]: _member(table, each) for each in row["members"]}}
    words = [f'"{name}": {value}' for name, value in members.items()]
    line = f'Command("{row["kind"]}", {{{", ".join(words)}}})'
    if len(f'    "{row["word"]}": {line},') <= WIDTH:
        return line
    return f'Command("{row["kind"]}", {{\n' + "".join(f"        {word},\n" for word in words) + "    })"


def _keyword(name, row):
    words = [f'"{row["holds"]}"'] if "holds" in row else []
    words += [f"{key}={row[key]}" for key in ("format", "refused", "in_place") if key in row]
    words += [f"instead={text(row['instead'], 16)}"] if "instead" in row else []
    line = f"Keyword({', '.join(words)})"
    if len(f'    "{name}": {line},') <= WIDTH and "\n" not in line:
        return line
    return "Keyword(\n" + "".join(f"        {word},\n" for word in words) + "    )"


def _protocol(table):
    commands = {word: _command(table, row) for word, row in table.commands.items()}
    keywords = {name: _keyword(name, row) for name, row in table.keywords.items()}
    own = sorted([*TABLES, *(constant(row["name"]) for row in (*table.refusals.values(), *table.own_refusals.values()))])
    return HEAD.replace("WRITTEN", WRITTEN).replace("NAMES", _all([*own, "Command", "Keyword", "Member"])) + "\n".join((
        _refusals(table), _numbers(table), _own(table),
        _dictionary("COMMANDS", "Command", "The commands by their words.", commands),
        _dictionary("KEYWORDS", "Keyword", "The keywords of JSON Schema 2020-12, and words beside them that name no mistake.", keywords),
        _dictionary("EARLIER", "str", "Keywords of earlier drafts without an effect, with those of 2020-12 that say the same.",
                    {name: text(same, 0) for name, same in table.earlier.items()}),
        _dictionary("ELSEWHERE", "str", "What a keyword is called elsewhere.", {name: text(same, 0) for name, same in table.elsewhere.items()}),
    ))


def _limits(table):
    head = f'"""The limits of the program, {WRITTEN}."""\n\n{_all(sorted(table.limits))}\n'
    return head + "".join(f"\n#: {row['says']}\n{name} = {row['value']:_}\n" for name, row in table.limits.items())


def parts(table):
    """The modules of the package."""
    return [Whole(PROTOCOL, _protocol(table)), Whole(LIMITS, _limits(table))]
