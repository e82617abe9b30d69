"""The table docs/protocol.toml, with what must hold within it."""
import pathlib
import tomllib

ROOT = pathlib.Path(__file__).resolve().parent.parent.parent
SOURCE = "docs/protocol.toml"

# From here on a refusal is one of an opening, and no line is answered it.
OPENINGS = 70

MEMBER_KINDS = {"any", "text", "count", "up_to", "changes"}
COMMAND_KINDS = ("change", "question", "snapshot", "own", "node")
SHAPES = {"one", "several", "named"}


class Wrong(Exception):
    """The table contradicts itself."""


class Table:
    """The rows of the table, as dictionaries in their order."""

    def __init__(self, text):
        rows = tomllib.loads(text)
        self.limits = {row["name"]: row for row in rows["limit"]}
        self.commands = {row["word"]: row for row in rows["command"]}
        self.families = {row["name"]: row for row in rows["family"]}
        self.statuses = {int(status): phrase for status, phrase in rows["statuses"].items()}
        self.refusals = {row["number"]: row for row in rows["refusal"]}
        self.own_refusals = {row["number"]: row for row in rows["own_refusal"]}
        self.keywords = {row["name"]: row for row in rows["keyword"]}
        self.left_out = rows["left_out"]
        self.programs = {row["word"]: row for row in rows["program"]}
        self.options = {row["name"]: row for row in rows["option"]}
        self.earlier, self.elsewhere = rows["earlier"], rows["elsewhere"]
        for kind in ("limit", "command", "family", "refusal", "own_refusal", "keyword", "program", "option"):
            _check_names(kind, rows[kind])
        self._check_refusals()
        self._check_commands()
        self._check_rest()

    def of_kind(self, *kinds):
        """The words of the commands of these kinds."""
        return [word for word, row in self.commands.items() if row["kind"] in kinds]

    def of_lines(self):
        """The refusals that a line may be answered."""
        return [row for number, row in self.refusals.items() if number < OPENINGS]

    def of_family(self, name):
        """The refusals of a family, with those of its subclasses."""
        names = {name} | {each for each, row in self.families.items() if row.get("of") == name}
        return [row for row in self.refusals.values() if row.get("family") in names]

    def _check_refusals(self):
        numbers = [*self.refusals, *self.own_refusals]
        _need(numbers == sorted(numbers), "refusals aren't in the order of their numbers")
        for number, row in self.refusals.items():
            _need(row["status"] in self.statuses, f"{number}: the status {row['status']} has no name")
            known = row.get("family") in self.families if number < OPENINGS else "family" not in row
            _need(known, f"{number}: a refusal of a line has a family, and one of an opening has none")
            texts = row["meaning"] + row["advice"]
            _need("|" not in texts and "\n" not in texts and "\\" not in texts, f"{number}: a cell of a table has no |")

    def _check_commands(self):
        for word, row in self.commands.items():
            _need(row["kind"] in COMMAND_KINDS, f"{word}: {row['kind']} is no kind")
            for member in row["members"]:
                _need(member["is"] in MEMBER_KINDS, f"{word}: {member['is']} is no kind of a member")
                _need((member["is"] == "up_to") == ("most" in member), f"{word}: `up_to` has a `most`, the others none")
                _need(member.get("most", "MOST_CHANGES") in self.limits, f"{word}: there is no such limit")
            for number in row.get("refused", []):
                _need(isinstance(number, str) or number in self.refusals, f"{word}: there is no refusal {number}")

    def _check_rest(self):
        for row in self.families.values():
            _need(("of" in row) != ("exit" in row), f"{row['name']} has an exit status, or is of another family")
        for name, row in self.keywords.items():
            _need(row.get("holds", "one") in SHAPES, f"{name}: {row.get('holds')} is no shape")
            _need(not ("format" in row and row.get("refused")), f"{name} is read by a format, or refused")
            _need(("format" in row) == ("section" in row), f"{name} has a section if a format reads it")
        for row in self.left_out:
            for name in row.get("keywords", []):
                _need(self.keywords[name].get("refused"), f"{name} isn't refused")
        for row in self.programs.values():
            for name in row["options"]:
                _need(name in self.options, f"{row['word']}: there is no option {name}")


def constant(name):
    """The name of a constant for what is called so."""
    return name.replace("-", "_").upper()


def _need(holds, fault):
    if not holds:
        raise Wrong(f"{SOURCE}: {fault}")


def _check_names(kind, rows):
    for key in ("name", "word", "number"):
        values = [row[key] for row in rows if key in row]
        _need(len(set(values)) == len(values), f"two rows of {kind} have one {key}")


def read_table():
    """The table of this repository."""
    return Table((ROOT / SOURCE).read_text(encoding="utf-8"))
