"""What nodes answer when etcd has no space: cases as those of `replica_cases`."""
import asyncio
import os
import subprocess
import sys
import threading
import time

import replicas
from replica_cases import are_same, cluster, create, get, made_room, put, states
from replicas import NODES, Members
from support import PATIENCE

HERE = os.path.dirname(os.path.abspath(__file__))
WRITERS, FILLINGS = 12, 4


def without_space_for_many(folder, program):
    """No change that is refused for want of space is made, with many clients at all nodes, and no node ends."""
    with cluster(folder, program, etcd=("--quota-backend-bytes", "4000000", "--backend-batch-limit", "1")) as nodes:
        nodes.ask("a", *[create(f"x{number}") for number in range(WRITERS)])
        refused = sum(filled(nodes) for _ in range(FILLINGS))
        are_same(nodes)
        assert all(process.poll() is None for process in nodes.processes.values())
        return f"{refused} refused"


def filled(nodes):
    """Clients change a document each until all are refused; returns how often that was, when there is space again."""
    told = [[(standing(nodes, number), "made")] for number in range(WRITERS)]
    threads = [threading.Thread(target=write, args=(nodes, number, each)) for number, each in enumerate(told)]
    for thread in threads:
        thread.start()
    for thread in threads:
        thread.join()
    states(nodes)
    for number, each in enumerate(told):
        # What was answered last, or what is not known since; what was refused is there in no case.
        at = max(index for index, (_, reply) in enumerate(each) if reply == "made")
        may_be = [value for value, reply in each[at:] if reply != "refused"]
        found = standing(nodes, number)
        assert found in may_be, (found, each[-9:])
    wait_for_space(nodes)
    return sum(reply == "refused" for each in told for _, reply in each)


def standing(nodes, number):
    """What was written to a document last, or what it was created with."""
    found, = nodes.ask(NODES[number % 3], get(f"x{number}"), local=False)
    return found["value"][0] if isinstance(found["value"], list) else found["value"]


def write(nodes, number, told):
    """Changes a document until that is refused; tells each value, and whether it is made, refused or unknown."""
    end = time.monotonic() + PATIENCE
    while told[-1][1] != "refused":
        assert time.monotonic() < end, "etcd has space for all"
        value = time.monotonic_ns()
        try:
            reply, = nodes.ask(NODES[number % 3], put(f"x{number}", [value, "x" * 12_000]), local=False)
        except OSError:
            told.append((value, "unknown"))
            continue
        assert reply["ok"] or reply["number"] in (60, 82), reply
        told.append((value, "made" if reply["ok"] else "refused"))


def wait_for_space(nodes):
    """Makes room in etcd until changes are taken again at all nodes."""
    end = time.monotonic() + PATIENCE
    for node in NODES:
        while not accepted(nodes, node):
            ended = {name: process.poll() for name, process in nodes.processes.items()}
            assert time.monotonic() < end, f"changes are still refused at node {node}; nodes that ended: {ended}"
            nodes.run("trim")
            asyncio.run(made_room(nodes.members))
            time.sleep(0.5)


def accepted(nodes, node):
    """Whether a node takes a change."""
    try:
        return nodes.ask(node, put("x0", [0]))[0]["ok"]
    except OSError:
        return False


def refused_after_all(folder, program):
    """An entry that etcd takes, and refuses then for want of space, is told as taken; one that is shut out is not."""
    # Members that hang for a second choose no other leader, and what was made counts at once.
    members = Members(folder, options=["--quota-backend-bytes", "3000000", "--backend-batch-limit", "1",
                                       "--election-timeout", "20000", "--heartbeat-interval", "1000"])
    try:
        members.start_all()
        words = [sys.executable, f"{HERE}/replica_refusing.py", members.endpoints]
        words += [str(process.pid) for process in members.processes]
        package = os.pathsep.join([replicas.DEFAULT_PACKAGE, os.path.dirname(HERE)])
        return subprocess.run(words, env={**os.environ, "PYTHONPATH": package}, timeout=2 * PATIENCE, check=True,
                              stdout=subprocess.PIPE, text=True).stdout.strip()
    finally:
        members.close()


CASES = [(case.__doc__.partition("\n")[0].rstrip("."), case) for case in (without_space_for_many, refused_after_all)]
