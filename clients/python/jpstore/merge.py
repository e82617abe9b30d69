"""A JSON Merge Patch (RFC 7396) as the operations of a JSON Patch (RFC 6902) on what a document holds."""
from typing import Any, Dict, Iterator, List

from .wire.limits import MOST_OPERATIONS
from .wire.values import escaped

__all__ = ["operations_of_merge"]


def operations_of_merge(doc: Any, patch: Any) -> List[Dict[str, Any]]:
    """Operations that make of the document what the merge patch asks for; above their limit it is replaced whole."""
    if not (isinstance(doc, dict) and isinstance(patch, dict)):
        return [_replaced(doc, patch)]
    operations = list(_differences("", doc, patch))
    return operations if len(operations) <= MOST_OPERATIONS else [_replaced(doc, patch)]


def _replaced(doc: Any, patch: Any) -> Dict[str, Any]:
    return {"op": "replace", "path": "", "value": merged(doc, patch)}


def merged(target: Any, patch: Any) -> Any:
    """What the merge patch makes of a value: `MergePatch` of RFC 7396, section 2."""
    if not isinstance(patch, dict):
        return patch
    result = dict(target) if isinstance(target, dict) else {}
    for name, value in patch.items():
        if value is None:
            result.pop(name, None)
        else:
            result[name] = merged(result.get(name), value)
    return result


def _differences(place: str, doc: Dict[str, Any], patch: Dict[str, Any]) -> Iterator[Dict[str, Any]]:
    for name, value in patch.items():
        path = f"{place}/{escaped(name)}"
        if value is None:
            if name in doc:
                yield {"op": "remove", "path": path}
        elif isinstance(value, dict) and isinstance(doc.get(name), dict):
            yield from _differences(path, doc[name], value)
        else:
            # In an object `add` also replaces.
            yield {"op": "add", "path": path, "value": merged(None, value)}
