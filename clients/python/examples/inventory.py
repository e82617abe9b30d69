"""An inventory of 5,000 items, from which several writers take at once, each order exactly once.

    inventory.py SOCKET seed
    inventory.py SOCKET sell WRITER ORDERS
    inventory.py SOCKET count

SOCKET is that of a hub, whose store is in format 3. A writer goes on if the hub is killed and started anew. It may be
killed and started anew too, and goes on after its last order.
"""
import random
import sys
import zlib

from jpstore import Conflict, Store, create, patch

SHELVES, ITEMS, STOCK = 50, 5000, 20
ITEM = {
    "type": "object", "required": ["stock", "least", "supplier"],
    "properties": {"stock": {"type": "integer", "minimum": 0}, "least": {"type": "integer"},
                   "supplier": {"type": "string"}},
}


def shelf(sku):
    return f"item-{zlib.crc32(sku.encode()) % SHELVES:02}"


def sku_of(number):
    return f"SKU-{number:05}"


def seed(store):
    maps = {}
    for number in range(ITEMS):
        item = {"stock": STOCK, "least": 5, "supplier": f"S{number % 40:02}"}
        maps.setdefault(shelf(sku_of(number)), {})[sku_of(number)] = item
    store.group(create(name, items, {"additionalProperties": ITEM}) for name, items in maps.items())


def take(store, key, wanted, writer):
    """Takes some of several items, all or none, one time for each key; False if one has too little."""
    while True:
        changes = []
        for sku, count in wanted.items():
            place = f"/{sku}/stock"
            stock = store.get(shelf(sku), place)
            if stock < count:
                # An earlier try with this key may have taken it, whose answer was lost.
                return store.noted(key, by=writer) is not None
            changes.append(patch(shelf(sku), [{"op": "test", "path": place, "value": stock},
                                              {"op": "replace", "path": place, "value": stock - count}]))
        try:
            store.once(key, changes, by=writer)
            return True
        except Conflict:
            pass  # Another writer changed one of them: read again.


def sell(store, writer, orders):
    """Makes orders that are the same at each start of this writer, but for those that it has made."""
    chance, made, last = random.Random(writer), 0, store.mark(writer)
    for number in range(orders):
        wanted = {sku_of(chance.randrange(ITEMS)): 1 + chance.randrange(3) for _ in range(3)}
        if last is None or number > int(last.value):
            made += sum(wanted.values()) if take(store, str(number), wanted, writer) else 0
    print("sold", made)


def count(store):
    stocks = [node.value for nodes in store.query_all("$.*.stock", prefix="item-").values() for node in nodes]
    low = store.query_all("$[?@.stock < @.least]", prefix="item-")
    print("gone", ITEMS * STOCK - sum(stocks), "low", sum(map(len, low.values())))


def main(path, what, *words):
    with Store.connect(path, wait=20) as store:
        if what == "seed":
            seed(store)
        elif what == "sell":
            sell(store, words[0], int(words[1]))
        else:
            count(store)


if __name__ == "__main__":
    main(*sys.argv[1:])
