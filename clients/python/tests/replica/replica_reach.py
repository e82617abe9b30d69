"""What is said of an etcd that can't be reached, and of certificates: cases as those of `replica_cases`."""
import contextlib
import json
import os
import shutil
import subprocess
import time

from replica_cases import create, get
from replicas import Members, Replicas
from support import PATIENCE


def without_etcd(folder, program):
    """A node that can't reach etcd says so with the reason of each member, and again when it answers."""
    members = Members(folder)
    nodes = Replicas(folder, program, members)
    try:
        members.start_all()
        nodes.format("a", 4096)
        nodes.run("init", nodes.file("a"))
        members.close()
        nodes.start("a")
        said = f"etcd does not answer; {'; '.join(f'{name}: Connection refused' for name in names_of(members))}\n"
        says(nodes, "a", said)
        members.revive()
        says(nodes, "a", "etcd answers again\n")
        nodes.wait("a")
        # The same when it has run for a while.
        members.close()
        says(nodes, "a", said, 2)
        told = nodes.run("status", status=1)
        assert said in told, told
        members.revive()
        says(nodes, "a", "etcd answers again\n", 2)
        assert nodes.ask("a", create("x"))[0]["ok"]
    finally:
        nodes.close()
        members.close()


def names_of(members):
    return [endpoint.partition("://")[2] for endpoint in members.endpoints.split(",")]


def says(nodes, node, text, count=1):
    """Waits until a node has said something so often."""
    end = time.monotonic() + PATIENCE
    while nodes.output(node).count(text) < count:
        assert time.monotonic() < end, (text, nodes.output(node)[-2000:])
        time.sleep(0.05)


@contextlib.contextmanager
def secured(folder, program):
    """A member that asks for certificates, and a node's file; there are certificates by its authority, and others."""
    for name, days in (("good", 20), ("other", 20), ("renewed", 400)):
        os.mkdir(f"{folder}/{name}")
        if name == "renewed":
            for each in ("ca.crt", "ca.key"):
                shutil.copy(f"{folder}/good/{each}", f"{folder}/renewed/{each}")
        certificates(f"{folder}/{name}", days)
    good = f"{folder}/good"
    options = ["--cert-file", f"{good}/node.crt", "--key-file", f"{good}/node.key", "--client-cert-auth",
               "--trusted-ca-file", f"{good}/ca.crt"]
    members = Members(folder, 1, options=options, scheme="https")
    members.tls = files_in(good)[1::2]
    nodes = Replicas(folder, program, members)
    try:
        members.start_all()
        nodes.format("a", 4096)
        nodes.run("init", nodes.file("a"), *files_in(good))
        yield nodes
    finally:
        nodes.close()
        members.close()


def certificates(folder, days):
    """A certificate for members and nodes, by the authority in the folder, or by one that is made for 4000 days."""
    def openssl(*words):
        subprocess.run(["openssl", *words], check=True, stdout=subprocess.DEVNULL, stderr=subprocess.DEVNULL,
                       cwd=folder)
    key = ["-newkey", "ec", "-pkeyopt", "ec_paramgen_curve:prime256v1", "-nodes"]
    if not os.path.exists(f"{folder}/ca.crt"):
        openssl("req", "-x509", *key, "-keyout", "ca.key", "-out", "ca.crt", "-days", "4000", "-subj", "/CN=authority")
    openssl("req", *key, "-keyout", "node.key", "-out", "node.csr", "-subj", "/CN=node")
    with open(f"{folder}/node.ext", "w", encoding="ascii") as file:
        file.write("subjectAltName=IP:127.0.0.1\nextendedKeyUsage=serverAuth,clientAuth\n")
    openssl("x509", "-req", "-in", "node.csr", "-CA", "ca.crt", "-CAkey", "ca.key", "-CAcreateserial", "-out",
            "node.crt", "-days", str(days), "-extfile", "node.ext")


def files_in(folder, ca=None):
    return ["--cacert", f"{ca or folder}/ca.crt", "--cert", f"{folder}/node.crt", "--key", f"{folder}/node.key"]


def with_tls(folder, program):
    """etcd may ask for certificates, and be asked by names."""
    certificates(folder, 2)
    options = ["--cert-file", f"{folder}/node.crt", "--key-file", f"{folder}/node.key", "--client-cert-auth",
               "--trusted-ca-file", f"{folder}/ca.crt"]
    members = Members(folder, options=options, scheme="https", addresses=["127.0.0.1"] * 3)
    files = files_in(folder)
    members.tls = files[1::2]
    nodes = Replicas(folder, program, members)
    try:
        members.start_all()
        nodes.format("a", 4096)
        nodes.run("init", nodes.file("a"), *files)
        nodes.start("a", *files)
        nodes.wait("a")
        assert nodes.ask("a", create("x", 1), get("x"), local=False)[1] == {"ok": True, "value": 1}
    finally:
        nodes.close()
        members.close()


def refused_certificates(folder, program):
    """A certificate that is refused, on either side, is called that, and so is what else hinders TLS."""
    with secured(folder, program) as nodes:
        good, other = f"{folder}/good", f"{folder}/other"
        here = "refused certificate: that of the member is not good here"
        there = "refused certificate: it does not take that of this node"
        cases = ((files_in(other, good), there), (files_in(good)[:2], there), (files_in(good, other), here))
        for files, wanted in cases:
            for told in (nodes.run("status", *files, status=1), served(nodes, files, wanted)):
                assert wanted in told and "majority" not in told, told
        nodes.members.endpoints = nodes.members.endpoints.replace("https", "http")
        assert "etcd does not answer" in nodes.run("status", status=1)
        nodes.members.endpoints = nodes.members.endpoints.replace("http", "https")
        # All are right, and the node begins.
        nodes.start("a", *files_in(good))
        nodes.wait("a")


def served(nodes, files, wanted):
    """What a node says that can't reach etcd with these files, when it has said that this is why."""
    nodes.start("a", *files)
    says(nodes, "a", wanted)
    told = nodes.output("a")
    nodes.kill("a")
    os.unlink(f"{nodes.folder}/a.log")
    return told


def renewed_certificates(folder, program):
    """Certificates are renewed while a node runs, which `status` asks for in time."""
    with secured(folder, program) as nodes:
        used = f"{folder}/used"
        shutil.copytree(f"{folder}/good", used)
        nodes.start("a", *files_in(used))
        nodes.wait("a")
        told = nodes.run("status", *files_in(used))
        assert "here: a certificate ends in 20 days: renew it" in told, told
        assert "a: a certificate ends in 20 days: renew it" in told, told
        # That the files are read anew is seen by files that are refused.
        renew(used, f"{folder}/other")
        nodes.members.kill(0)
        nodes.members.revive()
        says(nodes, "a", "refused certificate")
        renew(used, f"{folder}/renewed")
        says(nodes, "a", "etcd answers again\n")
        assert nodes.ask("a", create("x", 1), get("x"), local=False)[1] == {"ok": True, "value": 1}
        end = time.monotonic() + PATIENCE
        while "renew it" in nodes.run("status", *files_in(used)):
            assert time.monotonic() < end
        assert json.loads(nodes.run("status", "--json", *files_in(used)))["certificate"] > time.time() + 300 * 86_400


def renew(used, new):
    """Puts other files in the place of those that are used."""
    for name in ("ca.crt", "node.crt", "node.key"):
        shutil.copy(f"{new}/{name}", f"{used}/{name}.new")
        os.rename(f"{used}/{name}.new", f"{used}/{name}")


CASES = [(case.__doc__.partition("\n")[0].rstrip("."), case) for case in (
    without_etcd, with_tls, refused_certificates, renewed_certificates)]
