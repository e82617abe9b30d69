"""The server `jpstored`: where it is, and how `hub` and `http` of the command line start it."""
import os
import shutil
import sys
from typing import List, Optional, Sequence

from .errors import JpstoreError, accessing
from .wire.program import Path, path_word

__all__ = ["find_server", "run_server"]

_NAME, _VARIABLE = "jpstored", "JPSTORE_SERVER"

_HOW_TO_GET = ("it is in the Debian package jpstore, and `./build` of a clone puts it beside the program; "
               f"{_VARIABLE} names one at another place")


def find_server(program: Optional[str] = None) -> str:
    """The path of the server: the one that JPSTORE_SERVER names, the one beside the program, or the one on PATH."""
    named = os.environ.get(_VARIABLE)
    beside = os.path.dirname(shutil.which(program) or "") if program else ""
    found = shutil.which(named) if named else \
        (beside and shutil.which(os.path.join(beside, _NAME))) or shutil.which(_NAME)
    if not found:
        where = "a program" if named else "on PATH"
        raise JpstoreError(f"{named or _NAME} is not {where}: {_HOW_TO_GET}")
    return found


def run_server(store: Path, options: Sequence[str], program: Optional[str] = None) -> None:
    """Goes on as the server with these options: it doesn't return."""
    server = find_server(program)
    words: List[str] = [server, path_word(store), *options, "--python", sys.executable]
    words += ["--program", program] if program else []
    for stream in (sys.stdout, sys.stderr):
        # There is none if the descriptor was closed.
        if stream is not None:
            stream.flush()
    with accessing(server):
        os.execv(server, words)
