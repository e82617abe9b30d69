"""What clients spell by hand: commands, exit statuses and statuses of HTTP, compared with docs/protocol.toml."""
import ast
import re

from .parts import text_of
from .rattle import difference
from .table import ROOT

CALLS, LINES = "clients/c/src/typed_calls.c", "clients/c/src/line.c"
SERVER, PACKAGE = "clients/server/src", "clients/python/jpstore"
STATUSES, EXITS = "clients/server/src/http/problem.rs", "clients/python/jpstore/cli/command_line.py"
# What a line of changes may have beside its form.
MARKING = {"mark", "if_mark"}


def _fault(table, place, word, names):
    """What is wrong with a command of this word and these members beside `cmd`; empty if it is one."""
    if word not in table.commands:
        return f"{place}: there is no command {word}"
    members = {each["name"]: each.get("optional", False) for each in table.commands[word]["members"]}
    wrong = sorted(set(names) - set(members) - MARKING) + sorted(name for name in members if not members[name] and name not in names)
    return f"{place}: `{word}` has other members than {', '.join(wrong)}" if wrong else ""


def _in_c(table):
    for path, begin, end in ((CALLS, r'begin_command\(store, "([^"]*)"\)', r"^\}"), (LINES, r'line_begin\(line, "([^"]*)"\)', "return true")):
        for found in re.finditer(rf"{begin}(.*?)(?:{end})", text_of(path), re.S | re.M):
            names = re.findall(r'line_add_\w+\(&?\w+(?:\.line)?, "(\w+)"', found[2]) + re.findall(r"add_(changes)\(", found[2])
            yield _fault(table, path, found[1], names)


def _in_server(table):
    for file in sorted((ROOT / SERVER).rglob("*.rs")):
        if file.name == "tests.rs":
            continue
        path = file.relative_to(ROOT).as_posix()
        source = text_of(path).partition("#[cfg(test)]")[0]
        for literal in re.findall(r'"((?:[^"\\]|\\.)*)"', source):
            plain = literal.replace('\\"', '"')
            word = re.match(r'\{\{?(?:"changes":.*)?"cmd":"([^"]*)"', plain)
            if word and plain.rstrip("\\n").endswith("}"):
                yield _fault(table, path, word[1], set(re.findall(r'"(\w+)":', plain)) - {"cmd"})


def _in_python(table):
    for file in sorted((ROOT / PACKAGE).rglob("*.py")):
        path = file.relative_to(ROOT).as_posix()
        source = text_of(path)
        for line, members in _dictionaries(source) if '"cmd": "' in source else ():
            word = members.pop("cmd", None)
            if isinstance(word, ast.Constant):
                yield _fault(table, f"{path}:{line}", word.value, members)


def _dictionaries(source):
    """The dictionaries of constant names in a source: the line, and the members."""
    for node in ast.walk(ast.parse(source)):
        if isinstance(node, ast.Dict) and all(isinstance(key, ast.Constant) for key in node.keys):
            yield node.lineno, {key.value: value for key, value in zip(node.keys, node.values)}


def _statuses(table):
    found = {int(status): phrase for status, phrase in re.findall(r'^ +(\d{3}) => "([A-Za-z ]+)",', text_of(STATUSES), re.M)}
    yield from difference(STATUSES, "the status", {status: found.get(status) for status in table.statuses}, table.statuses)


def _exits(table):
    found = re.search(r"^_EXIT: .*?= \[(.*?)^\]", text_of(EXITS), re.S | re.M)
    exits = {name: int(status) for name, status in re.findall(r"\((\w+), (\d+)\)", found[1] if found else "")}
    wanted = {name: row["exit"] for name, row in table.families.items() if "exit" in row}
    yield from difference(EXITS, "the exit status of", {name: exits.get(name) for name in wanted}, wanted)


def faults(table):
    """What differs: an iterable for each comparison."""
    return [filter(None, compare(table)) for compare in (_in_c, _in_server, _in_python, _statuses, _exits)]
