"""How nodes end at SIGTERM, whatever etcd does, and what a killed one leaves: cases as those of `replica_cases`."""
import contextlib
import fcntl
import json
import os
import random
import signal
import socket
import struct
import subprocess
import termios
import threading
import time

import replicas
from replica_cases import LONG, are_same, cluster, create, get, put
from replicas import FAREWELL, NODES, crashing_program, waited
from support import PATIENCE

ROUNDS = 6

# A name whose look-up takes for ever, by what Python loads before a node.
NOWHERE = "nowhere"
SLOW = f"""import socket, time
look = socket.getaddrinfo
def look_up(host, *words, flags=0, **more):
    if host == "{NOWHERE}" and not flags & socket.AI_NUMERICHOST:
        time.sleep(3600)
    return look(host, *words, flags=flags, **more)
socket.getaddrinfo = look_up
"""


@contextlib.contextmanager
def busy(nodes):
    """Clients of each node change a document and read it until the block ends, if the node lets them."""
    over = threading.Event()

    def ask(node):
        while not over.wait(0.002):
            with contextlib.suppress(OSError):
                nodes.ask(node, *[put("x", number) for number in range(20)], get("x"), local=False, timeout=5)
    threads = [threading.Thread(target=ask, args=(node,)) for node in NODES * 2]
    for thread in threads:
        thread.start()
    try:
        yield
    finally:
        over.set()
        for thread in threads:
            thread.join()


def stopped(nodes, names=NODES):
    """Waits until nodes that were sent SIGTERM have ended, each as it should."""
    end = time.monotonic() + 2 * FAREWELL
    for node in names:
        try:
            status = nodes.processes[node].wait(max(0.1, end - time.monotonic()))
        except subprocess.TimeoutExpired:
            raise AssertionError(f"node {node} doesn't end: {nodes.output(node)[-800:]}") from None
        assert status == 0, (node, status, nodes.output(node)[-800:])


def signal_all(processes, number):
    """Sends processes a signal."""
    for process in processes:
        os.kill(process.pid, number)


def begun_again(nodes):
    """Starts all nodes."""
    for node in NODES:
        nodes.start(node)
    for node in NODES:
        nodes.wait(node)


def ended_with_etcd(folder, program):
    """Nodes that do changes end at SIGTERM while etcd is killed at the same moment."""
    choose = random.Random(1)
    with cluster(folder, program) as nodes:
        nodes.ask("a", create("x"))
        with busy(nodes):
            for _ in range(ROUNDS):
                time.sleep(choose.random())
                processes = [*nodes.members.processes, *nodes.processes.values()]
                choose.shuffle(processes)
                for process in processes:
                    process.send_signal(signal.SIGTERM if process in nodes.processes.values() else signal.SIGKILL)
                    time.sleep(choose.choice([0, 0, 0, 0.001, 0.3]))
                stopped(nodes)
                nodes.members.close()
                nodes.members.revive()
                begun_again(nodes)
        are_same(nodes)


def ended_as_etcd_hangs(folder, program):
    """Nodes that do changes end at SIGTERM while etcd hangs, and so does one that has just begun."""
    choose = random.Random(2)
    with cluster(folder, program) as nodes:
        nodes.ask("a", create("x"))
        members = nodes.members.processes
        with busy(nodes):
            for _ in range(ROUNDS):
                time.sleep(choose.random())
                signal_all(members, signal.SIGSTOP)
                time.sleep(choose.choice([0, 0.1, 2.5]))
                signal_all(nodes.processes.values(), signal.SIGTERM)
                stopped(nodes)
                nodes.start("c")
                stop_at_its_begin(nodes, "c")
                signal_all(members, signal.SIGCONT)
                begun_again(nodes)
        are_same(nodes)


def stop_at_its_begin(nodes, node):
    """Stops a node that waits for an answer of etcd when it begins."""
    end = time.monotonic() + PATIENCE
    while not handles_signals(nodes.processes[node].pid):
        assert time.monotonic() < end, f"node {node} doesn't begin"
        time.sleep(0.02)
    nodes.processes[node].terminate()
    stopped(nodes, node)


def handles_signals(pid):
    """Whether a process does something of its own at SIGTERM."""
    with open(f"/proc/{pid}/status", encoding="ascii") as status:
        caught, = [line.split()[1] for line in status if line.startswith("SigCgt:")]
    return bool(int(caught, 16) >> (signal.SIGTERM - 1) & 1)


def ended_as_a_name_is_looked_up(folder, program):
    """A node ends at SIGTERM while a name of a member is looked up, which may take long."""
    with open(f"{folder}/sitecustomize.py", "w", encoding="ascii") as file:
        file.write(SLOW)
    package = os.pathsep.join([folder, replicas.DEFAULT_PACKAGE])
    with cluster(folder, program, package=package) as nodes:
        nodes.stop("b")
        nodes.members.endpoints = ",".join([nodes.members.endpoints, f"{NOWHERE}:2379"])
        nodes.start("b", "--first", "3")
        nodes.wait("b")
        nodes.processes["b"].terminate()
        stopped(nodes, "b")


def ended_in_the_midst_of_answers(folder, program):
    """A node ends at SIGTERM while its program has much more to answer than its clients take."""
    with cluster(folder, program, (24_000, 24_000, 30_000), 6_000_000) as nodes:
        nodes.ask("a", create("x", "x" * 1_000_000))
        # How soon the program is in the midst of its answers, and how long it is, depends on the machine.
        for seconds in (0.02, 0.05, 0.1, 0.2, 0.4):
            with socket.socket(socket.AF_UNIX) as client:
                client.connect(nodes.socket("a", True))
                client.sendall((json.dumps(get("x")).encode() + b"\n") * 200)
                time.sleep(seconds)
                nodes.processes["a"].terminate()
                stopped(nodes, "a")
            nodes.start("a")
            nodes.wait("a")


def killed_amid_a_line(folder, program):
    """A node that is killed as it hands on a long line leaves its file to the next start."""
    with cluster(folder, program, LONG, 6_000_000) as nodes:
        nodes.ask("a", create("x"))
        are_same(nodes)
        for under in (program, crashing_program(folder, program, 0)):
            nodes.stop("c")
            nodes.start("c", program=under)
            # So that it has measured what it must before that line.
            nodes.wait("c")
            nodes.ask("c", put("x", 0))
            stopped_program = nodes.program_of("c")
            os.kill(stopped_program, signal.SIGSTOP)
            try:
                nodes.ask("a", put("x", "x" * 1_000_000))
                waited(lambda pid=stopped_program: waits_to_be_read(pid) > 1 << 15, "a part of a line")
                nodes.kill("c")
            finally:
                os.kill(stopped_program, signal.SIGCONT)
            nodes.start("c", program=under)
            are_same(nodes)


def waits_to_be_read(pid):
    """How many bytes wait in the standard input of a process."""
    with open(f"/proc/{pid}/fd/0", "rb", buffering=0) as pipe:
        return struct.unpack("i", fcntl.ioctl(pipe, termios.FIONREAD, b"    "))[0]


CASES = [(case.__doc__.partition("\n")[0].rstrip("."), case) for case in (
    ended_with_etcd, ended_as_etcd_hangs, ended_as_a_name_is_looked_up, ended_in_the_midst_of_answers,
    killed_amid_a_line)]
