"""What a node answers to questions whose answers are those of its file: all nodes answer them as one store."""
import json

from ..wire.commands import STATUS
from ..wire.replies import REFUSED, line_of_reply
from .watching import History

__all__ = ["as_asked", "as_told"]

_CHANGES = b'{"cmd":"changes",'


def as_asked(text: bytes) -> bytes:
    """The question that the program gets for the compact text of a client's.

    It isn't asked for `changes`: it has the changes of many clients as one, with the place of this node as a mark.
    """
    return STATUS if text.startswith(_CHANGES) else text


def as_told(text: bytes, reply: bytes, history: History) -> bytes:
    """The reply of a node, for that of the program: the identity is that of the log."""
    if text.startswith(_CHANGES):
        asked = json.loads(text)
        return history.told(asked["from"], asked["max"])
    if text == STATUS and not reply.startswith(REFUSED):
        return line_of_reply({**json.loads(reply), "id": history.name})
    return reply
