"""A configuration service: thirty services under one schema, one of which follows its part as an operator changes it.

    configuration.py SOCKET

SOCKET is that of a hub over a new store of format 3, which reads patterns. `docs/use/MODELLING.md` says why it is done
in this way.
"""
import copy
import sys
import threading

from jpstore import Invalid, Store, create, set_schema

# The labels of a host, and a date; `format` would not be checked.
HOST = r"^[a-z0-9]([a-z0-9-]*[a-z0-9])?(\.[a-z0-9]([a-z0-9-]*[a-z0-9])?)*$"
DATE = "^[0-9]{4}-(0[1-9]|1[0-2])-(0[1-9]|[12][0-9]|3[01])$"
SERVICE = {
    "type": "object", "required": ["host", "port", "log", "sampling_percent", "since"], "additionalProperties": False,
    "properties": {
        "host": {"type": "string", "maxLength": 253, "pattern": HOST},
        "since": {"type": "string", "pattern": DATE},
        "port": {"type": "integer", "minimum": 1, "maximum": 65535},
        "log": {"enum": ["debug", "info", "warn"]},
        "sampling_percent": {"type": "integer", "minimum": 0, "maximum": 100},
    },
}
NAMES = [f"service-{number:02}" for number in range(30)]


def seed(store):
    """All services at once, so that no reader sees a part of them."""
    store.transaction(create(name, {"host": f"{name}.example.org", "port": 8000 + number, "log": "info",
                                    "sampling_percent": 25, "since": "2026-11-29"}, SERVICE)
                      for number, name in enumerate(NAMES))


def follow(path, name, seen, settled):
    """What each service does: it reads its configuration now and after each change, for as long as it runs."""
    with Store.connect(path, wait=20) as store:
        for latest in store.follow(name):
            seen.append(latest.value["log"])
            settled.set()
            if latest.value["log"] == "warn":
                return


def set_log(store, name, level):
    store.patch(name, [{"op": "replace", "path": "/log", "value": level}])


def main(path):
    seen, settled = [], threading.Event()
    with Store.connect(path, wait=20) as store:
        seed(store)
        service = threading.Thread(target=follow, args=(path, "service-07", seen, settled))
        service.start()
        settled.wait()
        for level in ("debug", "warn"):
            settled.clear()
            set_log(store, "service-07", level)
            settled.wait()
        service.join()
        print("the service saw", seen)

        set_log(store, "service-03", "debug")
        levels = store.query_all("$.log", prefix="service-")
        print("on debug:", [name for name, nodes in levels.items() if nodes[0].value == "debug"])

        for member, value in (("sampling_percent", 101), ("host", "Host_3"), ("since", "29.11.2026")):
            try:
                store.patch("service-03", [{"op": "replace", "path": "/" + member, "value": value}])
            except Invalid as refused:
                print("refused:", *(fault.place for fault in refused.why()))

        later = copy.deepcopy(SERVICE)
        later["properties"]["owner"] = {"type": "string"}
        store.transaction([set_schema(name, later) for name in store.names("service-")])
        store.merge_patch("service-03", {"owner": "payments"})
        print(store.get("service-03"))


if __name__ == "__main__":
    main(sys.argv[1])
