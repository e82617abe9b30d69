"""Patterns of JSON Schema: read as ECMA-262 has them, written and read in the store's dialect, and searched for."""
from .dialect import read_dialect, script_in
from .ecma import read_ecma
from .searching import finds
from .tokens import NoPattern, Token, same
from .written import written

__all__ = ["NoPattern", "Token", "finds", "read_dialect", "read_ecma", "same", "script_in", "written"]
