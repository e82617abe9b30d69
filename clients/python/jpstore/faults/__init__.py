"""Where a refused command is at fault: a member of a line, an operation, a keyword of a schema, a character of a query.

The store answers a number; these find the place by the same rules. What they don't find is left out: what the store
says counts.
"""
import importlib
from typing import TYPE_CHECKING, Any

if TYPE_CHECKING:
    from .detail import detail_of
    from .query import QueryFault, fault_of_query
    from .schema import SchemaFault, faults_of_schema

__all__ = ["QueryFault", "SchemaFault", "detail_of", "fault_of_query", "faults_of_schema"]

_MODULES = {"detail_of": "detail", "QueryFault": "query", "fault_of_query": "query", "SchemaFault": "schema",
            "faults_of_schema": "schema"}


def __getattr__(name: str) -> Any:
    """What finds faults is loaded when it is first used, since most programs meet none (PEP 562)."""
    if name not in _MODULES:
        raise AttributeError(f"module {__name__!r} has no attribute {name!r}")
    return getattr(importlib.import_module(f".{_MODULES[name]}", __name__), name)
