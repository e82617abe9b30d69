"""What is kept for nodes, and for whom a log is trimmed: cases as those of `replica_cases`."""
import asyncio
import json
import os
import signal
import socket
import subprocess

from jpstore.replica.engine import Engine, members_in
from replica_cases import are_same, cluster, create, get, head, put, states, told_all
from replicas import NODES, Replicas
from support import PATIENCE


def two_logs(folder, program):
    """A trim of one log keeps what the nodes of another log in the same etcd need, also while none of them runs."""
    with cluster(folder, program) as shop:
        blog = Replicas(folder, program, shop.members, log="blog")
        try:
            blog.format("p", 4096)
            assert "other logs too: test. " in blog.run("init", blog.file("p"))
            blog.start("p")
            blog.wait("p")
            blog.run("join", blog.file("q"), "--node", "q", "--from", blog.socket("p"))
            blog.start("q")
            blog.wait("q")
            blog.stop("q")
            assert blog.ask("p", create("x", "answered"))[0]["ok"]
            told_all(blog, "p")
            # It is lost for good.
            blog.kill("p")
            for number in range(3):
                shop.ask("a", create(f"y{number}"))
            told_all(shop)
            assert "dropped" in shop.run("trim")
            assert "nothing" in shop.run("trim"), "all is dropped that may be"
            blog.start("q")
            blog.wait("q", head(blog))
            assert blog.ask("q", get("x")) == [{"ok": True, "value": "answered"}]
            assert blog.ask("q", put("x", 1))[0]["ok"]
        finally:
            blog.close()
        are_same(shop)


def compacted(folder, program):
    """Whoever compacts etcd, a node that has all entries up to there goes on, and one that lacks some is made anew."""
    with cluster(folder, program) as nodes:
        # Before the first entry, and then after the last one.
        for number in range(2):
            compact(nodes.members)
            watch_anew(nodes)
            assert nodes.ask("a", create(f"x{number}"))[0]["ok"]
            are_same(nodes)
        # The nodes themselves begin anew, and one of them misses what came after the compaction.
        nodes.stop("c")
        compact(nodes.members)
        nodes.ask("a", *[create(f"later{number}") for number in range(3)])
        for node in "ab":
            nodes.kill(node)
        for node in NODES:
            nodes.start(node)
        are_same(nodes)
        nodes.stop("c")
        nodes.ask("a", put("x0", "gone"))
        compact(nodes.members)
        watch_anew(nodes)
        nodes.ask("a", put("x1", "there"))
        nodes.start("c")
        assert nodes.ended("c") == 12
        assert "has no entry" in nodes.output("c") and "move the file aside" in nodes.output("c"), nodes.output("c")
        made_anew(nodes, "c")


def compact(members):
    """Compacts etcd up to now, as an operator does by mistake."""
    async def run():
        engine = Engine(members_in(members.endpoints))
        now = (await engine.call("/kv/range", {"key": "AA=="}))["header"]["revision"]
        await engine.call("/kv/compaction", {"revision": now, "physical": True})
        engine.close()
    asyncio.run(asyncio.wait_for(run(), PATIENCE))


def watch_anew(nodes):
    """Restarts one member after another, so that each watch begins anew."""
    for member in range(len(nodes.members.processes)):
        nodes.members.kill(member)
        nodes.members.start(member)
        head(nodes)


def made_anew(nodes, node):
    """Makes a node anew as the page says, and moves its file aside."""
    os.rename(nodes.file(node), nodes.file(node) + ".aside")
    nodes.run("join", nodes.file(node), "--node", node, "--from", nodes.socket("a"))
    nodes.start(node)
    are_same(nodes)


def damaged_file(folder, program):
    """A node whose file is damaged is made anew, and isn't started again as it is."""
    with cluster(folder, program) as nodes:
        nodes.ask("a", create("x", 1))
        states(nodes)
        nodes.kill("c")
        os.truncate(nodes.file("c"), 100_000)
        nodes.start("c")
        assert nodes.ended("c") == 12
        assert "damaged (73)" in nodes.output("c") and "move the file aside" in nodes.output("c"), nodes.output("c")
        made_anew(nodes, "c")


def failed_join(folder, program):
    """A join that fails holds the log no longer, and leaves what is kept for a node that there was before."""
    with cluster(folder, program) as nodes:
        nodes.ask("a", create("x", 1))
        told_all(nodes)
        nodes.stop("c")
        before = json.loads(nodes.run("status", "--json"))["nodes"]
        for node in "ec":
            new = f"{folder}/new.store"
            nodes.run("join", new, "--node", node, "--from", nodes.socket("a"), "--sectors", "1000", status=1)
            nodes.run("join", new, "--node", node, "--from", f"{folder}/nothing", status=14)
        after = json.loads(nodes.run("status", "--json"))["nodes"]
        assert sorted(after) == list(NODES) and after["c"] == before["c"], after
        joining_is_ended(nodes)
        nodes.start("c")
        are_same(nodes)


def joining_is_ended(nodes):
    """A join that is interrupted while it waits for its copy lets go too."""
    with socket.socket(socket.AF_UNIX) as silent:
        silent.bind(f"{nodes.folder}/silent")
        silent.listen()
        words = nodes.words("join", f"{nodes.folder}/new.store", "--node", "e", "--from", f"{nodes.folder}/silent")
        # Who runs the tests in the background may have its children pass over an interruption.
        joining = subprocess.Popen(words, env=nodes.environment(), stdout=subprocess.DEVNULL, stderr=subprocess.DEVNULL,
                                   preexec_fn=lambda: signal.signal(signal.SIGINT, signal.SIG_DFL))
        client, _ = silent.accept()
        assert "e" in json.loads(nodes.run("status", "--json"))["nodes"]
        joining.send_signal(signal.SIGINT)
        joining.wait(PATIENCE)
        client.close()
    assert "e" not in json.loads(nodes.run("status", "--json"))["nodes"]


CASES = [(case.__doc__.partition("\n")[0].rstrip("."), case) for case in (
    two_logs, compacted, damaged_file, failed_join)]
