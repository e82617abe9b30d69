"""The process that tells why lines are refused, for the server `jpstored` at the other end of its pipes.

Each line of its input has the number of a refusal, the command, the operation at fault of a patch or null, the changes
before it in its transaction, and the document and the schema that the store has, if they are needed. Each is answered
with an object in a line: `detail`, a text that tells the place of the fault, `advice`, what to do about it, and
`errors`, the faults of a document that is not valid, or null. A schema may take the library very long, so a process
looks, whose processor time and memory are limited by the system.
"""
import contextlib
import importlib
import json
import math
import resource
import sys
import time
from typing import Any, Dict, List, Optional
from urllib.parse import quote

from .errors import JpstoreError
from .explain import faults_of
from .faults import detail_of
from .refusals import REFUSALS, advice_for

__all__ = ["main"]

# The most faults of an answer.
_MOST = 20

# How much processor time one document may take, in whole seconds as the system counts it, and how much memory all may.
_SECONDS, _MEMORY = 1, 1 << 29

# The refusal of a document that is not valid.
_INVALID = 45

# The longest line of faults that is answered, in bytes.
_MOST_ANSWER = 1 << 20


def main() -> None:
    """Answers lines until its input ends."""
    _limit(resource.RLIMIT_AS, _MEMORY)
    _limit(resource.RLIMIT_CORE, 0)
    with contextlib.suppress(ImportError):
        # They take as long as many documents do.
        for library in ("jsonschema", "jsonpatch"):
            importlib.import_module(library)
    print("ready", flush=True)
    for line in sys.stdin.buffer:
        _limit(resource.RLIMIT_CPU, math.ceil(time.process_time()) + _SECONDS)
        text = json.dumps(_told(json.loads(line)))
        print(text if len(text) <= _MOST_ANSWER else "null", flush=True)


def _told(asked: Dict[str, Any]) -> Dict[str, Any]:
    number: int = asked["number"]
    detail = ""
    with contextlib.suppress(RecursionError, MemoryError):
        detail = detail_of(number, asked["command"], asked["op"])
    advice = advice_for(number, asked["command"], asked["op"]) or REFUSALS[number].advice
    return {"advice": advice, "detail": detail, "errors": _faults(asked) if number == _INVALID else None}


def _faults(asked: Dict[str, Any]) -> Optional[List[Dict[str, str]]]:
    pair: List[Any] = asked["pair"]
    try:
        found = faults_of(asked["command"], lambda: pair, _MOST, asked["before"])
    except (JpstoreError, RecursionError, MemoryError):
        return None
    return [{"place": fault.place, "pointer": _fragment(fault.place), "keyword": fault.keyword, "detail": fault.message}
            for fault in found]


def _fragment(place: str) -> str:
    """A JSON Pointer as a fragment of a URI (RFC 6901, section 6), as the example of RFC 9457 has it."""
    return "#" + quote(place, safe="/~!$&'()*+,;=:@?")


def _limit(what: int, most: int) -> None:
    """Sets a limit, which is raised again for the next document, so the greatest possible one stays."""
    _, hard = resource.getrlimit(what)
    resource.setrlimit(what, (most if hard == resource.RLIM_INFINITY else min(most, hard), hard))


if __name__ == "__main__":
    main()
