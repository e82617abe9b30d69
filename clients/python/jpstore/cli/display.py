"""Values and errors as a person reads them: what fits is on one line, and nothing is sent raw to a terminal."""
import json
from typing import Any, Dict, List, Union

from ..dump import LoadStopped
from ..errors import Invalid
from ..explain import first_reason
from ..results import Node, Status
from ..wire.program import SAID_BY_SLOTS

__all__ = ["members_of", "printable", "shown", "shown_error", "shown_node", "shown_status"]

_WIDTH = 100


def shown(value: Any) -> str:
    """A JSON text of a value, on one line if it fits there; what is printed can be read again."""
    line = printable(json.dumps(value, ensure_ascii=False))
    if len(line) <= _WIDTH or not value or not isinstance(value, (dict, list)):
        return line
    return printable_lines(json.dumps(value, ensure_ascii=False, indent=2))


def shown_node(node: Node) -> str:
    """What a query selects: its place and its value."""
    return f"{printable(node.path)}  {shown(node.value)}"


def printable(text: str) -> str:
    """The text with each character that a terminal might obey as JSON's escape."""
    if text.isprintable():
        return text
    return "".join(character if character.isprintable() else json.dumps(character)[1:-1] for character in text)


def members_of(status: Status) -> Dict[str, Any]:
    """What the store told in its status."""
    return {name: told for name, told in vars(status).items() if told is not None}


def shown_status(status: Status) -> str:
    """The status of a store, with how full it is."""
    full = 100 * status.used / status.capacity
    rows: List[List[Union[str, int]]] = [
        ["documents", f"{status.documents:,} of {status.most_documents:,}"],
        ["used", f"{status.used:,} of {status.capacity:,} bytes ({full:.1f} %)"],
        ["changes", f"{status.seq:,}"],
        ["openings", f"{status.opens:,}"],
        ["file", f"{status.sectors:,} sectors, {status.sectors * 512:,} bytes; half {status.half} in force"],
    ]
    if status.id:
        rows.append(["identity", status.id])
    if status.format == 2:
        rows.append(["format", "2; `jpstore upgrade FILE` brings it to 3, which tells damage, and has marks and "
                               "patterns"])
    if status.slots:
        meaning = SAID_BY_SLOTS.get(status.slots)
        rows.append(["slots", f"{status.slots}: {meaning}" if meaning else status.slots])
    if status.broken:
        rows.append(["broken", "the device failed: end the program and open the store again"])
    return "\n".join(f"{what:<10} {said}" for what, said in rows)


def shown_error(error: Exception) -> str:
    """What went wrong, where and why if that is known, and what to do about it."""
    cause = error.first[1] if isinstance(error, LoadStopped) else error
    rows = [printable_lines(str(error))]
    if isinstance(cause, Invalid):
        rows.append("  why: " + printable(first_reason(cause)))
    advice: str = getattr(cause, "advice", "")
    if advice:
        rows.append("  what to do: " + advice)
    return "\n".join(rows)


def printable_lines(text: str) -> str:
    """The text, line by line, with each character that a terminal might obey as JSON's escape."""
    return "\n".join(map(printable, text.split("\n")))
