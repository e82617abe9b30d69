"""Where a refused command is at fault, by the number of its refusal."""
from typing import Any, Dict, Optional

from .command import fault_of_depth, fault_of_form, fault_of_name
from .patch import fault_of_patch, fault_of_pointer
from .query import fault_of_query
from .schema import faults_of_schema, unsure_of_schema
from .words import place_in, text_at

__all__ = ["detail_of"]


def detail_of(number: int, command: Optional[Dict[str, Any]], operation: Optional[int] = None) -> str:
    """Where a command that was refused by this number is at fault; empty if it isn't found, or needs no finding.

    Of a patch the operation that was refused is given, if it is known.
    """
    if number == 14:
        return fault_of_form(command)
    if not isinstance(command, dict):
        return ""
    if number == 13:
        return fault_of_depth(command)
    if number == 15:
        return fault_of_name(command)
    if 30 <= number <= 34:
        return fault_of_patch(number, command, operation)
    if number in (37, 38):
        return _of_pointer(number, command.get("path"))
    if 40 <= number <= 44:
        return _of_schema(number, command.get("schema"))
    return _of_query(number, command.get("path")) if number in (50, 51) else ""


def _of_schema(number: int, schema: Any) -> str:
    # Which profile the store has isn't known: what both refuse is told first.
    profiles = (3, 2) if number in (41, 42) else (2, 3)
    found = (str(fault) for profile in profiles for fault in faults_of_schema(schema, profile)
             if fault.number == number)
    return next(found, "") or _unseen_in_schema(number, schema)


def _unseen_in_schema(number: int, schema: Any) -> str:
    """What only the store can know."""
    if number == 44:
        return "its patterns take too much memory: counts of large classes, as in `\\w{1,255}`, take the most"
    return unsure_of_schema(schema) if number == 40 else ""


def _of_pointer(number: int, pointer: Any) -> str:
    if not isinstance(pointer, str):
        return ""
    return f"there is no {place_in(pointer)}" if number == 37 else fault_of_pointer(pointer)


def _of_query(number: int, query: Any) -> str:
    fault = fault_of_query(query) if isinstance(query, str) else None
    if fault is None or fault.number != number:
        return ""
    return f"at character {fault.place + 1}{text_at(query, fault.place)}: {fault.message}"
