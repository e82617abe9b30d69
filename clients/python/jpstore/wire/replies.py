"""The replies as what comes: one line each, whose head tells what it has, so that a long one need not be parsed."""
import re
from typing import Any, Dict, Optional

from ..refusals import NAMES
from .values import canonical

__all__ = ["REFUSED", "done", "line_of_reply", "refusal", "rev_in", "seq_in", "text_in"]

#: How a refusal begins that names no change.
REFUSED = b'{"error":'

_VALUE, _NODES, _END_OF_NODES = b'{"ok":true,"value":', b'{"nodes":', b',"ok":true}'
_SEQ, _REV = re.compile(rb'\{"ok":true,"seq":(\d+)\}\n?'), re.compile(rb'\{"ok":true,"rev":(\d+)\}\n?')


def line_of_reply(reply: Dict[str, Any]) -> bytes:
    """The line of a reply, with its LF."""
    return canonical(reply) + b"\n"


def done(seq: int) -> bytes:
    """The line that answers a change, or the last one of a transaction, by its number."""
    return b'{"ok":true,"seq":%d}\n' % seq


def refusal(number: int, **members: Any) -> bytes:
    """The line that refuses a command by this number."""
    return line_of_reply({"error": NAMES[number], "number": number, "ok": False, **members})


def seq_in(reply: bytes) -> Optional[int]:
    """The number of an accepted change; None for any other reply."""
    found = _SEQ.fullmatch(reply)
    return int(found.group(1)) if found else None


def rev_in(reply: bytes) -> Optional[int]:
    """The revision that a reply tells; None for any other reply."""
    found = _REV.fullmatch(reply)
    return int(found.group(1)) if found else None


def text_in(reply: bytes) -> Optional[bytes]:
    """The text of the value or of the nodes that a reply has; None for any other reply."""
    end = len(reply) - reply.endswith(b"\n")
    if reply.startswith(_VALUE):
        return reply[len(_VALUE):end - 1]
    return reply[len(_NODES):end - len(_END_OF_NODES)] if reply.startswith(_NODES) else None
