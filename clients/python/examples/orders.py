"""A back end for orders with prices such as 19.99, by aiohttp: a document an order, amounts as whole numbers.

    orders.py SOCKET PORT

SOCKET is that of a hub; in a store of format 3 there is room for 65,536 documents. `POST /orders` with the field
`Idempotency-Key` takes an order, `GET /orders/KEY` has one, and `GET /customers/NAME` those of a customer.
`POST /payments` keeps what a payment provider says, one time for each `id`.
"""
import asyncio
import contextlib
import json
import re
import sys
from decimal import Decimal

from aiohttp import web
from jpstore import AsyncStore, Conflict, Ended, Invalid, NotFound, Scaled, Unsendable, create, patch

MONEY = Scaled(price=2, total=2)
LINE = {
    "type": "object", "required": ["sku", "count", "price_e2"], "additionalProperties": False,
    "properties": MONEY.schema(sku={"type": "string", "minLength": 1}, count={"type": "integer", "minimum": 1},
                               price={"type": "integer", "minimum": 0}),
}
ORDER = {
    "type": "object", "required": ["customer", "lines", "total_e2", "state"],
    "properties": MONEY.schema(
        customer={"type": "string"}, lines={"type": "array", "minItems": 1, "maxItems": 100, "items": LINE},
        total={"type": "integer", "minimum": 0}, state={"enum": ["open", "sent"]}),
}

#: Seconds for which a request waits for the store.
PATIENCE = 10

# Part of a name, which has at most 64 characters.
_KEY = re.compile(r"[A-Za-z0-9_.-]{1,50}")


class Wrong(Exception):
    """A request that can't be taken: its status and why."""


def checked(key, what):
    if not _KEY.fullmatch(key or ""):
        raise Wrong(400, f"{what} has 1 to 50 letters, digits, `.`, `_` and `-`")
    return key


def stored_order(text):
    """The order in a request, as the store has it; its total is reckoned here."""
    order = json.loads(text, parse_float=Decimal)
    total = sum(Decimal(line["price"]) * line["count"] for line in order["lines"])
    customer = checked(order["customer"], "`customer`")
    return MONEY.stored({"customer": customer, "lines": order["lines"], "total": total, "state": "open"})


async def keep(store, key, order):
    """Keeps an order and its customer's list, one time for each key: what is kept, and whether this call did it."""
    name, index = f"order-{key}", f"customer-{order['customer']}"
    changes = [create(name, order, ORDER), patch(index, [{"op": "add", "path": "/-", "value": key}])]
    while True:
        try:
            await store.transaction(changes)
            return order, True
        except Conflict:
            return await store.get(name), False  # An earlier try has made it.
        except NotFound:
            try:
                await store.create(index, [], {"items": {"type": "string"}})
            except Conflict:
                pass  # Another request made the customer's list.


class Orders:
    def __init__(self, store):
        self._store = store

    async def take(self, request):
        key = checked(request.headers.get("Idempotency-Key"), "the field `Idempotency-Key`")
        order = stored_order(await request.text())
        kept, is_new = await keep(self._store, key, order)
        if {**kept, "state": "open"} != order:
            raise Wrong(409, "another order came with this key")
        return shown({"key": key, **MONEY.read(kept)}, 201 if is_new else 200)

    async def one(self, request):
        return shown(MONEY.read(await self._store.get("order-" + checked(request.match_info["key"], "a key"))))

    async def customer(self, request):
        keys = await self._store.get("customer-" + checked(request.match_info["name"], "a name"))
        orders = await asyncio.gather(*(self._store.get(f"order-{key}") for key in keys))
        return shown([MONEY.read(order) for order in orders])

    async def pay(self, request):
        # Its text is kept as it came, whatever the amount is; what is compared or added up is a whole number beside it.
        text = await request.text()
        message = json.loads(text, parse_float=Decimal)
        payment = {"raw": text}
        with contextlib.suppress(Unsendable, KeyError):
            payment["amount_e2"] = MONEY.stored({"price": message["amount"]})["price_e2"]
        try:
            await self._store.create("payment-" + checked(message["id"], "`id`"), payment)
        except Conflict:
            pass  # The provider sends a message until it is answered.
        return shown({})


def shown(value, status=200):
    return web.json_response(value, status=status, dumps=lambda value: json.dumps(value, default=str))


@web.middleware
async def with_problems(request, handler):
    """Says why a request failed, and whether it may be sent again."""
    try:
        return await asyncio.wait_for(handler(request), PATIENCE)
    except Wrong as wrong:
        status, text = wrong.args
    except Invalid as refused:
        status, text = 422, "; ".join(map(str, refused.why()))
    except NotFound:
        status, text = 404, "there is nothing of this name"
    except (Ended, asyncio.TimeoutError):
        status, text = 503, "perhaps it is stored: send it again, with the same key"
    except (ValueError, KeyError, TypeError, ArithmeticError) as error:
        status, text = 400, str(error)
    return shown({"status": status, "detail": text}, status)


async def application(path):
    app = web.Application(middlewares=[with_problems])

    async def with_store(_):
        async with AsyncStore.connect(path, wait=20) as store:
            app.update(orders=Orders(store))
            yield
    app.cleanup_ctx.append(with_store)
    app.router.add_post("/orders", lambda request: app["orders"].take(request))
    app.router.add_get("/orders/{key}", lambda request: app["orders"].one(request))
    app.router.add_get("/customers/{name}", lambda request: app["orders"].customer(request))
    app.router.add_post("/payments", lambda request: app["orders"].pay(request))
    return app


if __name__ == "__main__":
    web.run_app(application(sys.argv[1]), host="127.0.0.1", port=int(sys.argv[2]))
