"""Fractions as whole numbers: a member `price_e2` has hundredths, and is `price` as a `Decimal` in a program."""
from decimal import Context, Decimal, InvalidOperation
from typing import Any, Dict

from .errors import Unsendable
from .wire.values import escaped

__all__ = ["Scaled"]

# A number of 64 bits has 19 digits.
_MOST_DIGITS = 19


class Scaled:
    """Which members have fractions, by name, and how many places these have: `Scaled(price=2, rate=4)`.

    In the store the member `price` is `price_e2`, a whole number of hundredths: it is exact, and a schema and a query
    compare it. The members are found at each depth of a document.
    """

    def __init__(self, **places: int) -> None:
        for name, count in places.items():
            if not 1 <= count <= 18:
                raise ValueError(f"{name}: a number of 64 bits has 1 to 18 places after the point, and not {count}")
        self._places = places

    def stored(self, value: Any) -> Any:
        """A value as the store has it: `{"price": Decimal("19.99")}` becomes `{"price_e2": 1999}`.

        A `float` counts as the digits that Python shows of it. `Unsendable` if a number has more places than these, or
        if an object has both names.
        """
        return self._stored(value, "")

    def _stored(self, value: Any, place: str) -> Any:
        if isinstance(value, dict):
            members: Dict[str, Any] = {}
            for name, part in value.items():
                at = f"{place}/{escaped(str(name))}"
                kept, made = self._stored_member(name, part, at)
                if kept in members:
                    raise Unsendable(f"{at}: another member is `{kept}` in the store too")
                members[kept] = made
            return members
        if isinstance(value, (list, tuple)):
            return [self._stored(part, f"{place}/{index}") for index, part in enumerate(value)]
        return value

    def _stored_member(self, name: str, value: Any, place: str) -> Any:
        if name not in self._places or value is None:
            return name, self._stored(value, place)
        return self._name(name), _units(value, self._places[name], place)

    def read(self, value: Any) -> Any:
        """A value of the store as a program has it: `{"price_e2": 1999}` becomes `{"price": Decimal("19.99")}`."""
        if isinstance(value, dict):
            return dict(self._read_member(name, value) for name in value)
        return [self.read(part) for part in value] if isinstance(value, list) else value

    def _read_member(self, name: str, members: Dict[str, Any]) -> Any:
        value, plain = members[name], name.rpartition("_e")[0]
        is_number = isinstance(value, int) and not isinstance(value, bool)
        if not is_number or plain not in self._places or self._name(plain) != name or plain in members:
            return name, self.read(value)
        return plain, Decimal(value).scaleb(-self._places[plain])

    def schema(self, **members: Dict[str, Any]) -> Dict[str, Any]:
        """`properties` of a schema for these members, under the names that they have in the store."""
        return {self._name(name): part for name, part in members.items()}

    def _name(self, name: str) -> str:
        return f"{name}_e{self._places[name]}" if name in self._places else name


def _units(value: Any, places: int, place: str) -> int:
    try:
        exact = Decimal(repr(value) if isinstance(value, (bool, float)) else value)
        if exact.adjusted() > _MOST_DIGITS:
            raise Unsendable(f"{place}: {value} is beyond 64 bits")
        # As precise as the number is, so that no digit is rounded away.
        units = exact.scaleb(places, Context(prec=len(exact.as_tuple().digits) + 1))
        whole = int(units)
    except (InvalidOperation, OverflowError, TypeError, ValueError) as error:
        if isinstance(error, Unsendable):
            raise
        raise Unsendable(f"{place}: {value!r} is no number") from None
    if units != whole:
        raise Unsendable(f"{place}: {value} has more than {places} places after the point: round it first")
    return whole
