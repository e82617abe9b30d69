"""The form in which the command line was called: advice names its commands in the same form."""
import os
import sys

__all__ = ["as_called", "called"]

# Its command after an installation, as the texts of this package have it, and what does the same without one.
_INSTALLED, _MODULE = "jpstore-cli", "python3 -m jpstore"


def called() -> str:
    """How the command line was called here; by the module's name if this is another program."""
    words = getattr(sys, "argv", None) or [""]
    return _INSTALLED if os.path.basename(words[0]) == _INSTALLED else _MODULE


def as_called(advice: str) -> str:
    """A text that names commands of the command line, as they can be called here."""
    return advice.replace(f"{_INSTALLED} ", f"{called()} ")
