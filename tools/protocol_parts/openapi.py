"""The changes of a transaction in the server's description of itself, openapi.json."""
import json

from .parts import Missing

PATH = "clients/server/src/http/openapi.json"
PLACE = ("paths", "/transactions", "post", "requestBody", "content", "application/json", "schema")


class _Changes:
    """The schema of the body of a transaction: its changes, and the limits of them and of marks."""

    path, name = PATH, f"{PATH}, the body of a transaction"

    def __init__(self, table):
        self._table = table

    def put(self, text):
        """The description with this schema."""
        try:
            whole = properties = json.loads(text)
            for name in (*PLACE, "properties"):
                properties = properties[name]
        except (ValueError, KeyError) as fault:
            raise Missing(f"{PATH} has no body of a transaction: {fault}") from None
        properties["changes"].update(items=_change(self._table), minItems=1, maxItems=self._table.limits["MOST_CHANGES"]["value"])
        properties["mark"]["properties"]["value"]["description"] = f"at most {self._table.limits['MOST_MARK_BYTES']['value']} bytes"
        return json.dumps(whole, indent=1) + "\n"


def _change(table):
    rows = [row for row in table.commands.values() if row["kind"] == "change" and row["word"] != "transaction"]
    kinds = {each["name"]: each for row in rows for each in row["members"]}
    always = [name for name in kinds if all(name in [each["name"] for each in row["members"]] for row in rows)]
    return {
        "type": "object",
        "properties": {"cmd": {"enum": [row["word"] for row in rows]}, **{name: _value(kinds[name]) for name in kinds}},
        "required": ["cmd", *always],
        "additionalProperties": False,
    }


def _value(member):
    """The schema of a member's value."""
    if "meant" in member:
        return {"type": member["meant"]}
    return {"any": {}, "text": {"type": "string"}, "count": {"type": "integer", "minimum": 0}}[member["is"]]


def parts(table):
    """The part of the description."""
    return [_Changes(table)]
