"""The crates' own tables, which contracts cite: compared with docs/protocol.toml."""
import re

from .parts import text_of
from .table import constant

NUMBERS, NAMES, NAMED = (f"crates/refusals/{name}" for name in ("src/numbers.rt", "src/names.rt", "specs/Names.antt"))
REQUESTS, OBJECTS, SHAPE = "crates/protocol/src/request.rt", "crates/protocol/specs/Request.antt", "crates/record_text/src/shape.rt"
KEYWORDS, SPECIFIED, HOLDING = (f"crates/schema_rules/{name}" for name in ("src/names.rt", "specs/Keywords.antt", "src/keyword.rt"))
PROFILES = "crates/schema_rules/src/profile.rt"


def difference(path, what, found, wanted):
    """What a file has else than the table, by key: missing, unknown, or with another value."""
    for key in [*wanted, *(key for key in found if key not in wanted)]:
        if found.get(key) != wanted.get(key):
            yield f"{path}: {what} {key}: {found.get(key, 'none')}, and {wanted.get(key, 'none')} in the table"


def _refusals(table):
    numbers = {name: int(number) for name, number in re.findall(r"^pub const (\w+): u16 = (\d+);", text_of(NUMBERS), re.M)}
    wanted = {constant(row["name"]): number for number, row in table.refusals.items()}
    yield difference(NUMBERS, "the refusal", numbers, wanted)
    names = dict(re.findall(r'^ +([A-Z_]+) => "([a-z-]+)",', text_of(NAMES), re.M))
    yield difference(NAMES, "the name of", names, {name: name.replace("_", "-").lower() for name in wanted})
    named = {int(number): name for number, name in re.findall(r'\((\d+), codes "([a-z-]+)"\)', text_of(NAMED))}
    yield difference(NAMED, "the name of", named, {number: row["name"] for number, row in table.refusals.items()})


def _functions(text):
    """The bodies of the functions of a source by name."""
    found = re.split(r"^(?:pub )?fn (\w+)", text, flags=re.M)
    return dict(zip(found[1::2], found[2::2]))


def _taken(body):
    """The members that a function takes out of a command, in their order, each with its kind."""
    kinds = {"take": "any", "take_text": "text", "take_number": "count"}
    taken = [(name, kinds[how]) for how, name in re.findall(r'\.(take(?:_text|_number)?)\("(\w+)"\)', body)]
    last = re.search(r'last_two\(\w+, "(\w+)"\)', body)
    return dict(taken + ([("name", "text"), (last[1], "any")] if last else []))


def _wanted(row):
    """The members of a command beside `cmd` in byte order of their names, with their kinds as the crates have them."""
    kinds = {each["name"]: "count" if each["is"] == "up_to" else each["is"] for each in row["members"]}
    return dict(sorted(kinds.items()))


def _commands(table):
    functions = {path: _functions(text_of(path)) for path in (REQUESTS, SHAPE)}
    for path, entry, kinds in ((REQUESTS, "alone", ("question", "snapshot")), (SHAPE, "command_with", ("change",))):
        words = dict(re.findall(r'^ +"([a-z-]+)" => (\w+)\(others\)', functions[path].get(entry, ""), re.M))
        found = {word: list(_taken(functions[path][name]).items()) for word, name in words.items()}
        wanted = {word: list(_wanted(table.commands[word]).items()) for word in table.of_kind(*kinds) if word != "transaction"}
        yield difference(path, "the members of", found, wanted)
    text = re.search(r"object_of : Request → Doc\n(.*?)\n\n", text_of(OBJECTS), re.S)
    spelled = set(re.findall(r'command_object \(codes "([a-z-]+)"\)', text[1] if text else ""))
    yield difference(OBJECTS, "the command", dict.fromkeys(spelled, True), dict.fromkeys(table.of_kind("question", "snapshot"), True))


def _limits(table):
    for limit in table.limits.values():
        for crate, name in (named.split("::") for named in limit.get("crates", [])):
            path = f"crates/{crate}/src/limits.rt"
            found = re.search(rf"^pub const {name}: \w+ = ([\d_]+);", text_of(path), re.M)
            yield difference(path, "the limit", {name: int(found[1]) if found else None}, {name: limit["value"]})


def _keywords(table):
    read = {name for name, row in table.keywords.items() if "format" in row}
    refused = {name for name, row in table.keywords.items() if row.get("refused")}
    wanted = {**dict.fromkeys(read, "read"), **dict.fromkeys(refused, "refused")}
    constants = dict(re.findall(r'"([$\w]+)" => Some\(Keyword::(\w+)\)', text_of(KEYWORDS)))
    specified = dict(re.findall(r'\(codes "([$\w]+)", (\w+)\)', text_of(SPECIFIED)))
    for path, found in ((KEYWORDS, constants), (SPECIFIED, specified)):
        yield difference(path, "the keyword", {name: "refused" if known == "LeftOut" else "read" for name, known in found.items()}, wanted)
    in_two = re.search(r"Profile::Two,(.*?)\) =>", text_of(PROFILES), re.S)
    later = set(re.findall(r"Keyword::(\w+)", in_two[1] if in_two else ""))
    formats = {name: 3 if known in later else 2 for name, known in constants.items() if name in read}
    yield difference(PROFILES, "the first format of", formats, {name: table.keywords[name]["format"] for name in read})
    yield difference(HOLDING, "the shape of", _shapes(constants, read), {name: table.keywords[name].get("holds", "plain") for name in read})


def _shapes(constants, read):
    """How the crates have the values of keywords hold schemas."""
    shapes = {}
    for keywords, shape in re.findall(r"((?:Keyword::\w+\s*\|?\s*)+)=> Shape::(\w+)", text_of(HOLDING)):
        shapes.update(dict.fromkeys(re.findall(r"Keyword::(\w+)", keywords), shape.lower()))
    return {name: shapes.get(known, "plain") for name, known in constants.items() if name in read}


def _options(table):
    text = text_of("crates/command_line/src/command.rt")
    texts = _functions(text)
    flags = {name: re.search(r'(?:text_option|number_option|flag)\(\s*alloc,\s*"([\w-]+)"', body) for name, body in texts.items()}
    flags = {name: found[1] for name, found in flags.items() if found and not name.endswith("_command")}
    found = {}
    for body in texts.values():
        word = re.search(r'Command::new\(alloc, "([a-z]+)"\)', body)
        if word and word[1] in table.programs:
            found[word[1]] = [flags[name] for name in re.findall(r"\.arg\((\w+)\(", body) if name in flags]
    wanted = {word: [table.options[name].get("flag", name) for name in row["options"]] for word, row in table.programs.items()}
    yield difference("crates/command_line/src/command.rt", "the options of", found, wanted)


def faults(table):
    """What differs: an iterable for each comparison."""
    return [found for compare in (_refusals, _commands, _limits, _keywords, _options) for found in compare(table)]
