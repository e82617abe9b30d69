"""Lines that only the program can judge, since they may need much memory: a node tries each before it appends it.

One that no machine has the memory for would end every node that finds it in the log, at each of its starts. So it is
answered 63 while nothing of it is in the log.
"""
import json
import uuid

from ..wire.commands import delete, line_of_transaction
from ..wire.limits import MOST_CHANGES, MOST_DOCUMENT_BYTES
from ..wire.values import canonical
from .changes import line_in
from .store import MEMORY, ReplicaStore

__all__ = ["MOST_UNTRIED", "is_tried", "lacks_memory"]

# What may need much: the tables of patterns, and copies of values.
_WORDS = (b'"pattern', b'"copy"')

# A longer line may need much for its values.
_LONG = 1 << 17

#: How many bytes the documents that a line changes have together, beyond which it is tried too: it may need much more
#: than the change of one document. It may be a short one that takes space in each.
MOST_UNTRIED = MOST_DOCUMENT_BYTES

# No document has this name, so that its deletion is refused.
_NAME = f"trial-{uuid.uuid4().hex}"


def is_tried(text: bytes) -> bool:
    """Whether the compact text of a change must be tried, whatever documents it changes."""
    return len(text) > _LONG or any(word in text for word in _WORDS)


async def lacks_memory(text: bytes, store: ReplicaStore) -> bool:
    """Whether the program of this node has no memory for a change. It is tried, with one that is refused after it, so
    nothing changes. Of as many changes as a transaction may have, the last one gives way to that."""
    texts = line_in(text).texts[:MOST_CHANGES - 1]
    reply, = await store.ask([line_of_transaction([*texts, canonical(delete(_NAME))], (_NAME, ""), False)])
    return bool(json.loads(reply)["number"] == MEMORY)
