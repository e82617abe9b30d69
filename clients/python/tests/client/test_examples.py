"""The programs of clients/python/examples do what they say, over a hub that is killed in the midst."""
import concurrent.futures
import contextlib
import http.client
import json
import os
import re
import signal
import socket
import subprocess
import sys
import time

import pytest
from hubs import Hub
from jpstore import format_file
from support import PACKAGE, PATIENCE, until


def words(name, *more):
    return [sys.executable, os.path.join(PACKAGE, "examples", name + ".py"), *map(str, more)]


def said(place, name, *more):
    ended = subprocess.run(words(name, *more), env=place.environment(), stdout=subprocess.PIPE, stderr=subprocess.PIPE,
                           timeout=PATIENCE, check=False)
    assert (ended.returncode, ended.stderr) == (0, b""), ended
    return ended.stdout.decode()


def test_the_configuration(place):
    pytest.importorskip("jsonschema")
    pytest.importorskip("jsonpatch")
    format_file(place.file, 4096, place.program, version=3)
    with Hub(place) as hub:
        assert said(place, "configuration", hub.path) == (
            "the service saw ['info', 'debug', 'warn']\n"
            "on debug: ['service-03']\n"
            "refused: /sampling_percent\nrefused: /host\nrefused: /since\n"
            "{'host': 'service-03.example.org', 'log': 'debug', 'owner': 'payments', 'port': 8003, "
            "'sampling_percent': 25, 'since': '2026-11-29'}\n")


@pytest.mark.time_limit(4 * PATIENCE)
def test_the_inventory_over_kills_of_the_hub(place):
    place.format(32768, version=3)
    with Hub(place) as hub:
        said(place, "inventory", hub.path, "seed")
        writers = [subprocess.Popen(words("inventory", hub.path, "sell", name, 150), env=place.environment(),
                                    stdout=subprocess.PIPE, stderr=subprocess.PIPE) for name in ("a", "b")]
        time.sleep(0.5)
    # The block above has killed the hub; so does each of these but the last.
    for _ in range(2):
        with Hub(place):
            time.sleep(0.7)
    with Hub(place) as hub:
        sold = []
        for writer in writers:
            output, errors = writer.communicate(timeout=2 * PATIENCE)
            assert (writer.returncode, errors) == (0, b"")
            sold.append(int(re.fullmatch(rb"sold (\d+)\n", output).group(1)))
        # The same orders again: none is made twice.
        assert said(place, "inventory", hub.path, "sell", "a", 50) == "sold 0\n"
        gone = said(place, "inventory", hub.path, "count")
    assert re.fullmatch(rf"gone {sum(sold)} low \d+\n", gone), (sold, gone)


@contextlib.contextmanager
def back_end(place, hub):
    with socket.socket() as free:
        free.bind(("127.0.0.1", 0))
        port = free.getsockname()[1]
    with subprocess.Popen(words("orders", hub.path, port), env=place.environment(), stdout=subprocess.DEVNULL,
                          stderr=subprocess.DEVNULL) as process:
        try:
            yield port
        finally:
            process.send_signal(signal.SIGTERM)


def ask(port, method, path, body=None, key=None):
    connection = http.client.HTTPConnection("127.0.0.1", port, timeout=PATIENCE)
    with contextlib.closing(connection):
        connection.request(method, path, body, {"Idempotency-Key": key} if key else {})
        answer = connection.getresponse()
        return answer.status, json.loads(answer.read(), parse_float=str)


def answers(port):
    with contextlib.suppress(OSError):
        return ask(port, "GET", "/orders/none")[0] == 404


def many(port, count):
    """The statuses of orders of several customers at once, each sent twice."""
    def order(number):
        body = '{"customer": "c%d", "lines": [{"sku": "a", "count": 1, "price": 19.99}]}' % (number % 5)
        return [ask(port, "POST", "/orders", body, f"many-{number}")[0] for _ in range(2)]
    with concurrent.futures.ThreadPoolExecutor(20) as clients:
        return list(clients.map(order, range(count)))


@pytest.mark.time_limit(2 * PATIENCE)
def test_the_back_end_for_orders(place):
    for library in ("aiohttp", "jsonschema", "jsonpatch"):
        pytest.importorskip(library)
    format_file(place.file, 4096, place.program, version=3)
    with Hub(place) as hub, back_end(place, hub) as port:
        until(lambda: answers(port), "the back end")
        order = ('{"customer": "ann", "lines": [{"sku": "a", "count": 3, "price": 19.99}, {"sku": "b", "count": 1, '
                 '"price": 5}]}')
        for status in (201, 200):
            answered, found = ask(port, "POST", "/orders", order, "k1")
            assert (answered, found["key"], found["total"]) == (status, "k1", "64.97")
        assert ask(port, "POST", "/orders", order.replace("3", "4"), "k1")[0] == 409
        with hub.connect() as store:
            assert store.names("order-") == ["order-k1"] and store.get("order-k1", "/total_e2") == 6497
        status, found = ask(port, "GET", "/orders/k1")
        assert (status, found["total"], found["lines"][0]["price"]) == (200, "64.97", "19.99")
        status, refused = ask(port, "POST", "/orders", order.replace("19.99", "19.995"), "k2")
        assert status == 400 and "/lines/0/price: 19.995 has more than 2 places" in refused["detail"]
        status, refused = ask(port, "POST", "/orders", order.replace('"count": 3', '"count": 0'), "k2")
        assert status == 422 and "0 is less than the minimum of 1" in refused["detail"]
        assert ask(port, "POST", "/orders", order)[0] == 400
        payment = '{"id": "p1", "amount": 64.90, "position": [48.20849, 16.37208]}'
        # No whole number of cents, and a number beyond 64 bits.
        others = ('{"id": "p2", "amount": 19.905}', '{"id": "p3", "amount": 5, "n": 18446744073709551615}')
        for message in (payment, payment, *others):
            assert ask(port, "POST", "/payments", message)[0] == 200
        assert many(port, 100) == [[201, 200]] * 100
        assert [len(ask(port, "GET", f"/customers/{name}")[1]) for name in ("ann", "c0", "c4")] == [1, 20, 20]
        with hub.connect() as store:
            assert len(store.names("order-")) == 101
            kept = [store.get(f"payment-p{number}") for number in (1, 2, 3)]
            assert kept == [{"amount_e2": 6490, "raw": payment}, {"raw": others[0]},
                            {"amount_e2": 500, "raw": others[1]}]
