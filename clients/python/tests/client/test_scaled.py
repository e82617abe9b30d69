"""Fractions as whole numbers in the store, and as decimals in a program."""
import json
from decimal import Decimal

import pytest
from jpstore import Scaled, Unsendable
from support import raised

MONEY = Scaled(price=2, rate=4)


@pytest.mark.parametrize("value, stored", [
    ({"price": Decimal("19.99")}, {"price_e2": 1999}),
    ({"lines": [{"price": 0.1, "count": 3}, {"price": "2.5"}, {"price": 7}]},
     {"lines": [{"price_e2": 10, "count": 3}, {"price_e2": 250}, {"price_e2": 700}]}),
    ({"rate": Decimal("-0.0625"), "price": None}, {"rate_e4": -625, "price": None}),
    ({"price": Decimal("1E+2")}, {"price_e2": 10000}),
    ({"price": json.loads("92233720368547758.07", parse_float=Decimal)}, {"price_e2": 2**63 - 1}),
    ([1, "a", None, {"price": 4.35}], [1, "a", None, {"price_e2": 435}]),
])
def test_a_fraction_is_stored_as_a_whole_number(value, stored):
    assert MONEY.stored(value) == stored


def test_it_is_read_as_a_decimal_again(place):
    order = {"lines": [{"price": Decimal("19.99"), "count": 3}], "rate": Decimal("0.0625"), "price_e3": 1}
    with place.made() as store:
        store.create("d", MONEY.stored(order))
        assert store.query("d", "$..[?@.price_e2 > 1998]")[0].pointer == "/lines/0"
        assert MONEY.read(store.get("d")) == order
    assert str(MONEY.read({"price_e2": 1990})["price"]) == "19.90"


@pytest.mark.parametrize("value, said", [
    ({"a": [{"price": Decimal("19.999")}]}, "/a/0/price: 19.999 has more than 2 places after the point"),
    ({"price": 1e-7}, "/price: 1e-07 has more than 2 places"),
    ({"price": "much"}, "/price: 'much' is no number"), ({"price": float("nan")}, "/price: nan is no number"),
    ({"price": "0.10" + "0" * 40 + "1"}, "has more than 2 places"), ({"price": True}, "/price: True is no number"),
    ({"price": Decimal("1E+999999999")}, "beyond 64 bits"), ({"price": []}, "/price: [] is no number"),
    ({"price": Decimal("Infinity")}, "is no number"),
    ([{"price": 1, "price_e2": 100}], "/0/price_e2: another member is `price_e2` in the store too"),
])
def test_what_has_no_such_number_is_told(value, said):
    assert said in str(raised(Unsendable, MONEY.stored, value))


def test_a_fraction_of_a_member_that_is_not_named_is_told_with_what_to_do(place):
    order = MONEY.stored({"price": Decimal("19.99"), "weight": Decimal("1.50")})
    with place.made() as store:
        said = str(raised(Unsendable, store.create, "d", order))
    assert "/doc/weight: 1.50 is a `Decimal`: name its member in `Scaled(..)`" in said and "send a text" in said


def test_what_is_no_number_of_a_program_is_read_as_it_is():
    for value in ({"price_e2": 5, "price": 7}, {"price_e02": 5}, {"price_e2": True}, {"price_e2": None}):
        assert MONEY.read(value) == value


def test_a_schema_has_the_names_of_the_store():
    assert MONEY.schema(price={"minimum": 0}, name={}) == {"price_e2": {"minimum": 0}, "name": {}}
    for count in (0, 19):
        with pytest.raises(ValueError, match="1 to 18 places"):
            Scaled(price=count)
