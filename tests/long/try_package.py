#!/usr/bin/env python3
"""Tries what tools/dist made, as a user and as Debian's own tools do.

    try_package.py DIST [--root FOLDER | --unpacked] [--suite SUITE] [--mirror URL]

First the files of DIST by themselves: checksums and note, the archive, the manual pages by mandoc, the units by systemd, and all by
lintian. Then a clean root of Debian, in which systemd runs: the packages are installed by apt, the session of README.md and the
three programs of docs/use/EMBEDDING.md are built and run there, a hub and a node are served by systemd, and the packages are
upgraded, removed and purged. Nothing may be left running then, and nothing left behind but stores.

The root is made by debootstrap, for which one must be root and have a mirror, and systemd-nspawn runs it. --root names one that
was made before; a copy of it is used. With --unpacked, as the gate calls it, the packages are unpacked into a fresh folder, and
there the program and the Python package alone are tried, in seconds. What this machine lacks is installed from Debian's packages,
if this user may. The last line is `N passed, M failed`.
"""
import argparse
import contextlib
import hashlib
import json
import os
import pathlib
import re
import shlex
import shutil
import signal
import subprocess
import sys
import tempfile
import time
import urllib.error
import urllib.request

HERE = pathlib.Path(__file__).resolve().parent
sys.dont_write_bytecode = True
sys.path[:0] = [str(HERE.parent / "gate"), str(HERE.parent.parent / "tools")]
from debian_packages import install
from test_pages import README, sessions, without_names

PAGE = HERE.parent.parent / "docs" / "use" / "EMBEDDING.md"
PACKAGES = ["jpstore", "libjpstore-dev", "libjpstore1", "librust-jpstore-dev", "python3-jpstore"]
# A command that is needed, and the package that has it.
WANTED = {"debootstrap": "debootstrap", "lintian": "lintian", "mandoc": "mandoc", "systemd-nspawn": "systemd-container"}
# What a clean root has besides, so that systemd runs in it and programs are built.
IN_ROOT = ["systemd", "systemd-sysv", "dbus", "procps", "python3", "gcc", "libc6-dev", "pkg-config", "cargo", "etcd-server", "etcd-client"]
# What the packages recommend besides each other.
RECOMMENDED = ["python3-jsonpatch", "python3-jsonschema"]

PYTHON = """\
from jpstore import Store
with Store("demo") as store:
    print(store.get("shelf-1", "/nuts"))
"""
# What the page and the store are answered with over HTTP.
ASKED = """\
import urllib.request
for path in ("", "documents/shelf-1"):
    with urllib.request.urlopen("http://127.0.0.1:8080/" + path) as answer:
        print(answer.status, answer.headers["Content-Type"])
"""
INSTALLED = [
    "usr/bin/jpstore",
    "usr/bin/jpstore-cli",
    "usr/bin/jpstored",
    "usr/include/jpstore.h",
    "usr/lib/x86_64-linux-gnu/libjpstore.a",
    "usr/lib/x86_64-linux-gnu/libjpstore.so",
    "usr/lib/x86_64-linux-gnu/libjpstore.so.1",
    "usr/lib/x86_64-linux-gnu/pkgconfig/jpstore.pc",
    "usr/lib/python3/dist-packages/jpstore",
    "usr/share/cargo/registry",
    "lib/systemd/system/jpstore@.service",
    "lib/systemd/system/jpstore-http@.service",
    "usr/share/doc/jpstore/README.md",
    "usr/share/doc/jpstore/GATE-RUN.txt",
    "usr/share/man/man1/jpstore.1.gz",
    "usr/share/man/man1/jpstore-cli.1.gz",
    "usr/share/man/man1/jpstored.1.gz",
    "usr/share/man/man5/jpstore-format.5.gz",
    "usr/share/man/man7/jpstore-protocol.7.gz",
    "usr/share/man/man7/jpstore-refusals.7.gz",
    "usr/share/man/man7/jpstore-replica.7.gz",
    "usr/share/man/man7/jpstore-schemas.7.gz",
    "usr/share/bash-completion/completions/jpstore",
    "usr/share/zsh/vendor-completions/_jpstore",
]
IN_ARCHIVE = ["bin/jpstore", "bin/jpstore-cli", "bin/jpstored", "share/man/man1/jpstore-cli.1", "share/man/man1/jpstored.1"]
# Registers that Debian's own tools keep, and what changes by itself.
CHANGING = ("/dev", "/etc/ld.so.cache", "/proc", "/root", "/run", "/sys", "/tmp", "/var/cache", "/var/lib/apt", "/var/lib/dpkg", "/var/lib/etcd",
            "/var/lib/jpstore", "/var/lib/systemd", "/var/log")
# The user of a hub, and that of a node.
HUB, NODE = "inventory", "shop"
UNITS = [f"jpstore@{HUB}", f"jpstore-replica@{NODE}"]
SETTINGS = 'NODE=a\nLOG="--etcd http://127.0.0.1:2379 --log shop"\n'


def store_of(user):
    return f"/var/lib/jpstore/{user}/store"


def socket_of(user):
    return f"/run/jpstore/{user}/socket"


class Failed(Exception):
    """What isn't as it must be."""


def run(words, **more):
    """What a command says, if it ends well."""
    if not shutil.which(words[0]) and not os.path.exists(words[0]):
        raise Failed(f"{words[0]} is missing")
    done = subprocess.run(words, stdin=subprocess.DEVNULL, stdout=subprocess.PIPE, stderr=subprocess.STDOUT, text=True, check=False,
                          **{"timeout": 1800, **more})
    if done.returncode:
        raise Failed(f"{' '.join(map(str, words))[-300:]} ended with {done.returncode}: {done.stdout[-3000:]}")
    return done.stdout


def same(what, found, wanted):
    if found != wanted:
        raise Failed(f"{what}: {str(found)[-1500:]!r}, and should be {str(wanted)[-1500:]!r}")


def go_through_readme(said):
    """Each block of README's session prints what the page shows."""
    for words, output in sessions(README.read_text(encoding="utf-8")):
        same("the session of README", without_names(said(words)), without_names(output))


def install_missing():
    install([package for command, package in WANTED.items() if not shutil.which(command)])


# The files of DIST.


class Files:
    """The files by themselves."""

    def __init__(self, dist, folder):
        self.dist = dist
        self.unpacked = folder / "unpacked"
        for package in packages_in(dist):
            run(["dpkg-deb", "-x", package, self.unpacked])

    def checksums_and_note(self):
        run(["sha256sum", "--check", "--strict", "SHA256SUMS"], cwd=self.dist)
        listed = re.findall(r"^\w+  (.*)$", (self.dist / "SHA256SUMS").read_text(encoding="utf-8"), re.M)
        same("what SHA256SUMS lists", sorted([*listed, "SHA256SUMS"]), sorted(path.name for path in self.dist.iterdir()))
        note = (self.dist / "GATE-RUN.txt").read_text(encoding="utf-8")
        same("the packed note", (self.unpacked / "usr/share/doc/jpstore/GATE-RUN.txt").read_text(encoding="utf-8"), note)
        program = hashlib.sha256((self.unpacked / "usr/bin/jpstore").read_bytes()).hexdigest()
        same("the note's program", re.findall(r"^program sha256: (\w+)$", note, re.M), [program])
        made_of = re.findall(r"^object sha256: (\w+)$", note, re.M)
        for library in ("libjpstore.so.1", "libjpstore.a"):
            contents = (self.unpacked / "usr/lib/x86_64-linux-gnu" / library).read_bytes()
            same(f"the object in {library}", [found.decode() for found in re.findall(rb"program-sha256:(\w{64})", contents)], made_of)

    def archive(self):
        """It is of use at any place: the programs, the library by pkg-config, and the Python package."""
        top = self.unpacked.parent / "archive"
        top.mkdir()
        run(["tar", "-xf", next(self.dist.glob("*-x86_64-linux.tar.gz")), "-C", top, "--strip-components=1"])
        missing = [name for name in IN_ARCHIVE if not (top / name).is_file()]
        same("missing files of the archive", missing, [])
        self._parts_by_themselves(top)
        environment = {"PATH": f"{top}/bin:/usr/bin:/bin", "PYTHONPATH": f"{top}/share/jpstore/python", "PYTHONDONTWRITEBYTECODE": "1"}
        go_through_readme(lambda words: run(["sh", "-ec", words], cwd=top, env=environment))
        for language, name in (("c", "main.c"), ("python", "main.py")):
            (top / name).write_text(programs()[language], encoding="utf-8")
        environment = {"PATH": "/usr/bin:/bin", "PKG_CONFIG_PATH": f"{top}/lib/pkgconfig", "LD_LIBRARY_PATH": f"{top}/lib",
                       "PYTHONPATH": f"{top}/share/jpstore/python", "PYTHONDONTWRITEBYTECODE": "1"}
        for command in ("cc main.c $(pkg-config --cflags --libs jpstore) -o main && ./main", "rm inventory; python3 main.py"):
            same(command, run(["sh", "-ec", command], cwd=top, env=environment), printed_by_programs())

    def _parts_by_themselves(self, top):
        """The programs of the archive find one another and the Python package, though no variable names any."""
        environment = {"PATH": "/usr/bin:/bin", "PYTHONDONTWRITEBYTECODE": "1"}
        words = f"""{top}/bin/jpstore-cli format parts --size 2M
            echo '{{"maxProperties": 1}}' > one.json
            {top}/bin/jpstore-cli new parts shelf-1 '{{"nuts": 12}}' --schema one.json
            {top}/bin/jpstore-cli get parts shelf-1 /nuts"""
        same("jpstore-cli", run(["sh", "-ec", words], cwd=top, env=environment).splitlines()[-1:], ["12"])
        server = subprocess.Popen([top / "bin" / "jpstored", "parts", "--listen", "127.0.0.1:8081"], cwd=top, env=environment)
        try:
            until(lambda: faults_of_refusal("http://127.0.0.1:8081/documents/shelf-1") == ["/"], "the reason of a refusal over HTTP")
        finally:
            server.terminate()
            server.wait(60)

    def lintian(self):
        said = run(["lintian", "--allow-root", "--fail-on", "error,warning", "--tag-display-limit", "0", *packages_in(self.dist), *self.dist.glob("*.dsc")])
        if said:
            raise Failed(said)

    def manuals(self):
        """mandoc finds nothing but lines that are shown as they are, and longer than its limit."""
        environment = {**os.environ, "MANPATH": str(self.unpacked / "usr/share/man")}
        for page in sorted((self.unpacked / "usr/share/man").glob("*/*.gz")):
            run(["mandoc", "-Tlint", "-W", "warning", page], env=environment)

    def units(self):
        """Each service is judged by systemd to be exposed to 2.0 at most."""
        for unit in sorted((self.unpacked / "lib/systemd/system").glob("*.service")):
            run(["systemd-analyze", "security", "--offline=true", "--threshold=20", unit])


def faults_of_refusal(url):
    """The places of the faults that a server tells of a document that isn't valid."""
    asked = urllib.request.Request(url, b'{"nuts": 12, "bolts": 1}', {"Content-Type": "application/json"}, method="PUT")
    try:
        urllib.request.urlopen(asked).close()
    except urllib.error.HTTPError as refused:
        return [fault["place"] or "/" for fault in json.loads(refused.read()).get("errors", [])]
    raise Failed(f"{url} took a document that isn't valid")


def packages_in(dist):
    return sorted(dist.glob("*.deb"))


def programs():
    return dict(re.findall(r"```(c|rust|python)\n(.*?)```\n", PAGE.read_text(encoding="utf-8"), re.S))


def printed_by_programs():
    return re.search(r"prints, in each of the three:\n\n```\n(.*?)```\n", PAGE.read_text(encoding="utf-8"), re.S)[1]


# A clean root.


class CleanRoot:
    """A root of Debian's own packages alone, with systemd running in it."""

    def __init__(self, folder, made, suite, mirror):
        self.folder, self.root = folder, folder / "root"
        self._made, self._words = made, [suite, self.root, *([mirror] if mirror else [])]
        self._nspawn = self._leader = None

    def make(self):
        """Makes it by debootstrap, or by copying one that was made."""
        run(["cp", "-a", self._made, self.root] if self._made else ["debootstrap", "--variant=minbase", *self._words])
        shutil.copy("/etc/resolv.conf", self.root / "etc" / "resolv.conf")
        self.write("etc/hosts", "127.0.0.1 localhost\n")
        # Nothing of this root is worth a sync of the disk.
        self.write("etc/dpkg/dpkg.cfg.d/unsafe-io", "force-unsafe-io\n")
        # There is no network in it later.
        for words in ("update -q", f"install -q -y --no-install-recommends {' '.join(IN_ROOT)}", f"install -q -y --download-only {' '.join(RECOMMENDED)}"):
            run(["chroot", self.root, "sh", "-ec", "apt-get " + words], env=ENVIRONMENT)

    def begin(self):
        """Starts systemd."""
        words = ["systemd-nspawn", "--register=no", "--keep-unit", "--private-network", "--console=pipe", "-bD", self.root]
        self._nspawn = subprocess.Popen(words, stdin=subprocess.DEVNULL, stdout=subprocess.DEVNULL, stderr=subprocess.DEVNULL)
        children = pathlib.Path(f"/proc/{self._nspawn.pid}/task/{self._nspawn.pid}/children")
        until(lambda: children.read_text().split(), "systemd-nspawn starts")
        until(lambda: self._started(children.read_text().split()), "systemd runs")

    def _started(self, children):
        for child in children:
            words = ["nsenter", "-at", child, "systemctl", "is-system-running"]
            if subprocess.run(words, capture_output=True, text=True, check=False).stdout.strip() in ("running", "degraded"):
                self._leader = child
        return self._leader

    def end(self):
        """Ends systemd and all that runs under it."""
        if self._nspawn:
            self._nspawn.terminate()
            try:
                self._nspawn.wait(60)
            except subprocess.TimeoutExpired:
                self._nspawn.kill()
                self._nspawn.wait()

    def run(self, words):
        return run(["nsenter", "-at", self._leader, "sh", "-ec", words], env=ENVIRONMENT)

    def put(self, source, name):
        (self.root / name).parent.mkdir(parents=True, exist_ok=True)
        shutil.copy(source, self.root / name)

    def write(self, name, text):
        (self.root / name).parent.mkdir(parents=True, exist_ok=True)
        (self.root / name).write_text(text, encoding="utf-8")

    def listed(self):
        """All files, without those that change by themselves."""
        left_out = " -o ".join(f"-path {name}" for name in CHANGING)
        found = self.run(f"find / -xdev \\( {left_out} \\) -prune -o ! -name '*.pyc' ! -name __pycache__ -print").split("\n")
        return sorted(found)


ENVIRONMENT = {"PATH": "/usr/sbin:/usr/bin:/sbin:/bin", "HOME": "/root", "LANG": "C.UTF-8", "DEBIAN_FRONTEND": "noninteractive"}


def until(true, what, seconds=120):
    end = time.monotonic() + seconds
    while time.monotonic() < end:
        with contextlib.suppress(OSError):
            if true():
                return
        time.sleep(0.2)
    raise Failed(f"{what}: not within {seconds} seconds")


class Packages:
    """What is done with the packages in a clean root, one thing after another."""

    def __init__(self, root, dist):
        self.root, self.dist = root, dist
        self.before = []

    def root_with_systemd(self):
        """The root is made, and has the packages in a folder: as they are, and with a later version."""
        self.root.make()
        for package in packages_in(self.dist):
            self.root.put(package, f"packages/{package.name}")
            newer(package, self.root.root / "newer", self.root.folder / "repacked")
        self.root.begin()
        self.before = self.root.listed()

    def install(self):
        # With what they recommend, which README's session needs to tell reasons.
        self.root.run("apt-get install -q -y /packages/*.deb")
        missing = [name for name in INSTALLED if not os.path.lexists(self.root.root / name)]
        same("missing files", missing, [])

    def session_of_readme(self):
        self.root.run("mkdir /root/demo")
        go_through_readme(lambda words: self.root.run(f"cd /root/demo; {words}"))
        same("the Python client", self.root.run(f"cd /root/demo; python3 -c '{PYTHON}'"), "10\n")
        same("the shell", self.root.run("cd /root/demo; echo 'cat shelf-1 /nuts' | python3 -m jpstore demo"), "10\n")
        same("the command line", self.root.run("cd /root/demo; jpstore-cli get demo shelf-1 /nuts"), "10\n")

    def program_in_c(self):
        self.root.write("root/c/main.c", programs()["c"])
        built = "cd /root/c; rm -f inventory main; cc main.c {} $(pkg-config {} --cflags --libs jpstore) -o main && ./main"
        for words in (("", ""), ("-static", "--static")):
            same("the program in C " + words[0], self.root.run(built.format(*words)), printed_by_programs())

    def program_in_rust(self):
        self.root.write("root/rust/src/main.rs", programs()["rust"])
        self.root.write("root/rust/Cargo.toml", '[package]\nname = "page"\nversion = "0.0.0"\nedition = "2021"\n\n[dependencies]\njpstore = "1"\n')
        self.root.write("root/rust/.cargo/config.toml", '[source.crates-io]\nreplace-with = "debian"\n[source.debian]\ndirectory = "/usr/share/cargo/registry"\n')
        for kind in ("shared", "static"):
            said = self.root.run(f"cd /root/rust; rm -f inventory; export JPSTORE_LINK={kind}; cargo build -q --offline; ./target/debug/page")
            same("the program in Rust", said, printed_by_programs())

    def program_in_python(self):
        self.root.write("root/python/main.py", programs()["python"])
        same("the program in Python", self.root.run("cd /root/python; python3 main.py"), printed_by_programs())

    def hub(self):
        """A store is served, and its socket is there as soon as systemctl comes back."""
        self.new_store(HUB)
        self.root.run(f"systemctl enable --now {UNITS[0]}; test -S {socket_of(HUB)}")
        self.as_user(HUB, f"jpstore-cli new {socket_of(HUB)} shelf-1 '{{\"nuts\":12}}'")
        same("the user's own folder", self.root.run(f"stat -c '%U %a' /home/{HUB}"), f"{HUB} 750\n")
        same("the store's folder", self.root.run(f"stat -c '%U %a' /var/lib/jpstore /var/lib/jpstore/{HUB}"), f"root 755\n{HUB} 700\n")
        self.root.run(f"systemd-analyze security --threshold=20 {UNITS[0]}")

    def page(self):
        """The store is served over HTTP too, in place of the other unit, with the page in the browser."""
        unit = f"jpstore-http@{HUB}"
        self.root.run(f"systemctl start {unit}; test -S {socket_of(HUB)}; ! systemctl is-active -q {UNITS[0]}")
        self.root.write("root/asked.py", ASKED)
        same("over HTTP", self.root.run("python3 /root/asked.py"), "200 text/html; charset=utf-8\n200 application/json\n")
        self.root.run(f"systemd-analyze security --threshold=20 {unit}")
        self.root.run(f"systemctl start {UNITS[0]}; test -S {socket_of(HUB)}; ! systemctl is-active -q {unit}")

    def node(self):
        """A node of a replicated store, whose log is trimmed."""
        self.new_store(NODE, "--format 3")
        self.root.write(f"etc/jpstore/{NODE}", SETTINGS)
        self.as_user(NODE, f". /etc/jpstore/{NODE}; python3 -m jpstore replica init {store_of(NODE)} $LOG")
        self.root.run(f"systemctl enable --now {UNITS[1]} jpstore-trim@{NODE}.timer; test -S {socket_of(NODE)}")
        self.as_user(NODE, f"jpstore-cli new {socket_of(NODE)} shelf-1 '{{\"nuts\":12}}'")
        same("what the node has", self.as_user(NODE, f"jpstore-cli get /run/jpstore/{NODE}/local shelf-1 /nuts"), "12\n")
        self.root.run(f"systemctl start jpstore-trim@{NODE}")
        for unit in (UNITS[1], f"jpstore-trim@{NODE}"):
            self.root.run(f"systemd-analyze security --threshold=20 {unit}")

    def new_store(self, user, options=""):
        self.root.run(f"useradd --system --create-home {user}; chmod 750 /home/{user}; install -d -m 700 -o {user} /var/lib/jpstore/{user}")
        self.as_user(user, f"jpstore format {store_of(user)} --sectors 4096 {options}")

    def as_user(self, user, words):
        return self.root.run(f"cd /; runuser -u {user} -- sh -ec {shlex.quote(words)}")

    def processes(self):
        return [self.root.run(f"systemctl show --value -p MainPID {unit}").strip() for unit in UNITS]

    def upgrade(self):
        """A hub is the new version's then, and a node the old one's until somebody restarts it."""
        before = self.processes()
        self.root.run("apt-get install -q -y --no-install-recommends /newer/*.deb")
        until(lambda: self.root.run(f"systemctl is-active {UNITS[0]} || true") == "active\n", "the hub runs again")
        after = self.processes()
        if "0" in [*before, *after] or before[0] == after[0] or before[1] != after[1]:
            raise Failed(f"the processes were {before}, and are {after}")
        self.root.run(f"test -S {socket_of(HUB)}")
        for user in (HUB, NODE):
            self.as_user(user, f"jpstore-cli set {socket_of(user)} shelf-1 /nuts 11")
        self.root.run(f"systemctl restart {UNITS[1]}")
        same("what the node has", self.as_user(NODE, f"jpstore-cli get {socket_of(NODE)} shelf-1 /nuts"), "11\n")

    def running(self):
        """What runs of jpstore."""
        return self.root.run(f"pgrep -a -u {HUB},{NODE} || true")

    def remove(self):
        """Hubs and nodes are ended, and waited for: their units' folders go with them."""
        for unit in UNITS:
            folder = f"/run/systemd/system/{unit}.service.d"
            self.root.run(f"mkdir -p {folder}; printf '[Service]\\nExecStopPost=/bin/sleep 3\\n' > {folder}/slow.conf")
        self.root.run("systemctl daemon-reload; apt-get remove -q -y jpstore")
        same("what runs", self.running(), "")
        same("the sockets", self.root.run("ls -A /run/jpstore 2>/dev/null || true"), "")
        same("the state of the units", self.root.run(f"systemctl is-active {' '.join(UNITS)} || true"), "inactive\ninactive\n")

    def purge(self):
        """Of what came with the packages nothing is left, and the stores are what they were."""
        self.root.run(f"apt-get purge -q -y {' '.join(PACKAGES)}; apt-get autoremove --purge -q -y; systemctl daemon-reload")
        same("what runs", self.running(), "")
        self.root.run(f"rm /etc/jpstore/{NODE}; rmdir /etc/jpstore; userdel -r {HUB} 2>/dev/null; userdel -r {NODE} 2>/dev/null")
        before, after = set(self.before), set(self.root.listed())
        same("what is left", sorted(after - before), [])
        same("what is gone", sorted(before - after), [])
        same("the units that are enabled", self.root.run("grep -rl jpstore /var/lib/systemd /etc/systemd 2>/dev/null || true"), "")
        left = self.root.run("cd /var/lib/jpstore; find . -type f").split()
        same("the stores", sorted(left), [f"./{HUB}/store", f"./{NODE}/store"])

    def installed_again(self):
        """The store that was left is served again."""
        self.root.run("apt-get install -q -y --no-install-recommends /packages/*.deb")
        same("the store", self.root.run(f"jpstore-cli get {store_of(HUB)} shelf-1 /nuts"), "11\n")


def newer(package, folder, room):
    """The same package with a later version."""
    tree = room / package.stem
    room.mkdir(exist_ok=True)
    folder.mkdir(exist_ok=True)
    run(["dpkg-deb", "-R", package, tree])
    control = tree / "DEBIAN" / "control"
    text = control.read_text(encoding="utf-8")
    version = re.search(r"^Version: (.*)$", text, re.M)[1]
    control.write_text(text.replace(version, version + "+next"), encoding="utf-8")
    run(["dpkg-deb", "--root-owner-group", "-Znone", "-b", tree, folder / package.name])


# A fresh folder.


class Unpacked:
    """The packages in a fresh folder, with this machine's Python."""

    def __init__(self, files):
        self._root = files.unpacked

    def session_of_readme(self):
        usr = self._root / "usr"
        environment = {**os.environ, "PATH": f"{usr}/bin:{os.environ['PATH']}", "PYTHONPATH": f"{usr}/lib/python3/dist-packages",
                       "LD_LIBRARY_PATH": f"{usr}/lib/x86_64-linux-gnu", "PYTHONDONTWRITEBYTECODE": "1"}
        go_through_readme(lambda words: run(["sh", "-ec", words], cwd=self._root, env=environment))
        for command in (f"python3 -c '{PYTHON}'", "jpstore-cli get demo shelf-1 /nuts"):
            same(command[:40], run(["sh", "-ec", command], cwd=self._root, env=environment), "10\n")


def tests_of(asked, folder):
    """What is tried, one thing after another: a name, and what raises Failed."""
    files = Files(asked.dist.resolve(), folder)
    yield from (files.checksums_and_note, files.archive, files.manuals, files.units)
    if asked.unpacked:
        yield Unpacked(files).session_of_readme
        return
    yield files.lintian
    root = CleanRoot(folder, asked.root, asked.suite, asked.mirror)
    packages = Packages(root, asked.dist.resolve())
    try:
        for name in ("root_with_systemd", "install", "session_of_readme", "program_in_c", "program_in_rust", "program_in_python", "hub", "page", "node",
                     "upgrade", "remove", "purge", "installed_again"):
            yield getattr(packages, name)
    finally:
        root.end()


def main():
    parser = argparse.ArgumentParser(description=__doc__, formatter_class=argparse.RawDescriptionHelpFormatter)
    parser.add_argument("dist", type=pathlib.Path)
    parser.add_argument("--root", type=pathlib.Path, help="a clean root that was made before")
    parser.add_argument("--unpacked", action="store_true", help="unpack into a fresh folder, without a clean root")
    parser.add_argument("--suite", default=this_suite(), help="Debian's name of the release")
    parser.add_argument("--mirror", help="the mirror; without it the one that debootstrap takes")
    asked = parser.parse_args()
    # So that nothing of a root is left then.
    signal.signal(signal.SIGTERM, lambda *_: sys.exit(1))
    install_missing()
    passed = failed = 0
    with tempfile.TemporaryDirectory(prefix="jpstore-package-") as folder:
        for test in tests_of(asked, pathlib.Path(folder)):
            begin = time.monotonic()
            try:
                test()
                passed += 1
            except Failed as why:
                failed += 1
                print(f"FAILED: {why}")
            print(f"{test.__name__.replace('_', ' '):24} {time.monotonic() - begin:6.1f} s", flush=True)
    print(f"{passed} passed, {failed} failed")
    return 1 if failed else 0


def this_suite():
    found = re.search(r"^VERSION_CODENAME=(\w+)", pathlib.Path("/etc/os-release").read_text(encoding="utf-8"), re.M)
    return found[1] if found else "stable"


if __name__ == "__main__":
    sys.exit(main())
