#!/usr/bin/env python3
"""Builds the library from the program's object, and runs its tests in C, Rust and Python beside the program.

    test_embedded.py PROGRAM [--long] [--object FILE] [--unproved] [--only WORD]

PROGRAM is the built `jpstore`. The object is that of the gate, as `clients/c/build` has it; --object names another one for
tests, and --unproved takes one that wasn't proved. --long kills the host 200 times and not 20, counts to 720 over
360 kills and not to 120 over 60, feeds every case of `stack.py`, and looks for races. What a machine lacks (Debian's rustc,
valgrind, Python's headers) is installed from Debian's packages if this user may do so, and else fails. The last line is
`N passed, M failed`.
"""
import argparse
import ctypes
import glob
import json
import os
import random
import re
import shutil
import signal
import subprocess
import sys
import tempfile
import time

HERE = os.path.dirname(os.path.abspath(__file__))
TOP = os.path.dirname(os.path.dirname(HERE))
sys.dont_write_bytecode = True
sys.path.insert(0, os.path.join(TOP, "tools"))
from debian_packages import install

EMBED = os.path.join(TOP, "clients", "c")
TESTS = os.path.join(EMBED, "tests")
PYTHON_CLIENT = os.path.join(TOP, "clients", "python")
RUST_CLIENT = os.path.join(TOP, "clients", "rust")
PAGE = os.path.join(TOP, "docs", "use", "EMBEDDING.md")

STRICT = ["-std=c11", "-g", "-Wall", "-Wextra", "-Wconversion", "-Werror"]
CALLS = ["apply", "changes", "check", "copy", "copy_in", "create", "delete", "fault_text", "feed", "finish", "format", "free", "get", "group", "list", "mark",
         "open", "open_memory", "patch", "patch_if", "pump", "query", "refusal_name", "rev", "schema", "set_schema", "snapshot", "status",
         "system_error", "transaction", "upgrade", "version", "version_number"]

# The functions that a test gives in the C library's place.
WRAPPED = {"disk": ["fdatasync", "open", "pread", "pwrite"], "forks": ["getpid", "madvise"],
           "processor": ["__x86_get_cpuid_feature_leaf"], "refused": ["calloc", "malloc", "mmap", "realloc"], "stops": ["fdatasync"]}

# A command, and the package that has it.
WANTED = {"cc": "gcc", "valgrind": "valgrind", "/usr/bin/cargo": "cargo", "/usr/bin/rustc": "rustc",
          "/usr/bin/cargo-clippy": "rust-clippy"}

# Debian's rustc, whatever comes before it on PATH: the oldest that the crates are for.
DEBIAN_RUST = {"RUSTC": "/usr/bin/rustc", "RUSTDOC": "/usr/bin/rustdoc", "PATH": "/usr/bin:/bin"}

WANTED_CRATES = {"serde_json-1*": "librust-serde-json-dev", "sha2-0.10*": "librust-sha2-dev"}
# More orders than a process counts till it is killed.
NEVER = str(10**12)

DEBIAN_CRATES = """[source.crates-io]
replace-with = "debian"
[source.debian]
directory = "/usr/share/cargo/registry"
"""


class Failed(Exception):
    """What isn't as it must be."""


def run(words, given=None, seconds=600, **more):
    """The standard output of a command that ends well."""
    try:
        done = subprocess.run(words, input=given, stdout=subprocess.PIPE, stderr=subprocess.STDOUT, timeout=seconds, **more)
    except subprocess.TimeoutExpired:
        raise Failed("%s: over %d seconds" % (words[0], seconds)) from None
    if done.returncode:
        raise Failed("%s ended with %d: %s" % (" ".join(words)[:200], done.returncode, done.stdout.decode(errors="replace")[-2000:]))
    return done.stdout


def same(what, found, wanted):
    if found != wanted:
        raise Failed("%s: %s, and should be %s" % (what, repr(found)[-300:], repr(wanted)[-300:]))


def install_missing():
    """Installs from Debian's packages what is missing, if this user may."""
    packages = [package for command, package in WANTED.items() if not shutil.which(command)]
    if not os.path.exists(os.path.join(headers_of(sys.executable), "Python.h")):
        packages.append("python3-dev")
    packages += [package for crate, package in WANTED_CRATES.items() if not glob.glob("/usr/share/cargo/registry/" + crate)]
    install(packages)


def headers_of(python):
    words = [python, "-c", "import sysconfig; print(sysconfig.get_path('include'))"]
    return subprocess.run(words, stdout=subprocess.PIPE, text=True, check=True).stdout.strip()


def python_with_headers():
    for python in (sys.executable, "/usr/bin/python3"):
        if os.path.exists(python) and os.path.exists(os.path.join(headers_of(python), "Python.h")):
            return python
    raise Failed("no Python has its headers: Debian's package python3-dev has them")


class Embedded:
    """The library in a folder of its own, and what is tested of it."""

    def __init__(self, words, folder):
        self.words, self.folder = words, folder
        self.program = os.path.abspath(words.program)
        self.stores = os.path.join(folder, "stores")
        os.mkdir(self.stores)

    def built(self, name, flags=""):
        """A folder with the library, built with these flags."""
        out = os.path.join(self.folder, name)
        if not os.path.exists(out):
            words = [os.path.join(EMBED, "build"), "--out", out, "--inner", *self.object_words()]
            run(words, env={**os.environ, "CFLAGS": "-Werror " + flags})
        return out

    def object_words(self):
        """The words of `clients/c/build` for the object that is tested."""
        there = os.path.abspath(self.words.object or os.path.join(TOP, "crates", "jpstore", "out", "jpstore.o"))
        return ["--object", there, *(["--unproved"] if self.words.unproved else [])]

    @property
    def library(self):
        return self.built("library")

    def compiled(self, test, flags=(), library=None, inner=False):
        """A test in C, over the static library or over all of its parts."""
        library = library or self.library
        out = os.path.join(self.folder, "%s.%s" % (test, os.path.basename(library)))
        parts = os.path.join(library, "inner.o" if inner else "libjpstore.a")
        wraps = ["-Wl,--wrap=" + name for name in WRAPPED.get(test, ())]
        run(["cc", *STRICT, "-I", EMBED, "-I", os.path.join(EMBED, "src"), os.path.join(TESTS, test + ".c"), "-o", out, parts, "-pthread", *wraps, *flags])
        return out

    def passes(self, test, *words, before=(), **more):
        """A test in C, whose last line says that nothing failed."""
        said = run([*before, self.compiled(test, **more), *words]).decode().splitlines()
        if not re.fullmatch(r"[1-9]\d* passed, 0 failed", said[-1]):
            raise Failed("%s: %s" % (test, said[-1]))

    # Each of these is a test.

    def shows_only_its_calls(self):
        wanted = ["jpstore_" + call for call in CALLS]
        for words in (["nm", "-D", "--defined-only", "libjpstore.so"], ["nm", "-g", "--defined-only", "libjpstore.a"]):
            shown = run(words, cwd=self.library).decode()
            same(words[-1], sorted(re.findall(r" [A-Z] (\w+?)(?:@@\w+)?$", shown, re.M)), sorted(wanted + ["JPSTORE_1"])
                 if words[1] == "-D" else wanted)
        notes = run(["readelf", "-nW", "libjpstore.so"], cwd=self.library).decode()
        if "SHSTK" in notes:
            raise Failed("the library is marked for shadow stacks")

    def refuses_other_objects(self):
        """An object that wasn't proved, that isn't there, or that asks for a name that the library doesn't give."""
        source = os.path.join(self.folder, "other.c")
        other = os.path.join(self.folder, "other.o")
        with open(source, "w") as file:
            file.write("int system(const char *); int main(void) { return system(\"\"); }\n")
        run(["cc", "-c", source, "-o", other])
        for more, wanted in (([], "wasn't proved"), (["--unproved"], "names that the library doesn't know: system")):
            done = subprocess.run([os.path.join(EMBED, "build"), "--out", self.folder + "/none", "--object", other, *more],
                                  stdout=subprocess.PIPE, stderr=subprocess.STDOUT, text=True)
            if done.returncode == 0 or wanted not in done.stdout:
                raise Failed("clients/c/build says %r" % done.stdout)

    def refuses_a_small_stack(self):
        """A stack that the deepest lines overrun: nothing is left of the library, also of an earlier one."""
        copy, out = os.path.join(self.folder, "small"), os.path.join(self.folder, "small-out")
        shutil.copytree(EMBED, os.path.join(copy, "clients", "c"), ignore=shutil.ignore_patterns("out"))
        os.makedirs(os.path.join(copy, "tests", "gate"))
        shutil.copy(os.path.join(HERE, "stack.py"), os.path.join(copy, "tests", "gate"))
        shutil.copytree(self.library, out, symlinks=True)
        with open(os.path.join(copy, "clients", "c", "src", "fiber.h"), "r+") as file:
            text = file.read()
            small = text.replace("((size_t)16 << 20)", "((size_t)1 << 20)")
            if small == text:
                raise Failed("clients/c/src/fiber.h has another stack")
            file.seek(0)
            file.truncate()
            file.write(small)
        done = subprocess.run([os.path.join(copy, "clients", "c", "build"), "--out", out, *self.object_words()],
                              stdout=subprocess.PIPE, stderr=subprocess.STDOUT, text=True)
        if done.returncode != 1 or "the library's stack isn't enough for these lines" not in done.stdout:
            raise Failed("clients/c/build says %r" % done.stdout)
        same("what is left", sorted(os.listdir(out)), [])

    def calls(self):
        self.passes("calls", self.stores)

    def typed_calls(self):
        self.passes("typed", self.stores)

    def marks(self):
        self.passes("marks", self.stores)

    def numbers(self):
        """The header's version and refusals are those of the program, and so are the versions of all that is published."""
        with open(os.path.join(EMBED, "jpstore.h")) as file:
            header = file.read()
        with open(os.path.join(TOP, "VERSION")) as file:
            version = file.read().strip()
        first, second, third = map(int, version.split("."))
        same("JPSTORE_VERSION", re.findall(r'#define JPSTORE_VERSION "(.*)"', header), [version])
        same("JPSTORE_VERSION_NUMBER", re.findall(r"#define JPSTORE_VERSION_NUMBER (.*)", header),
             [str(first * 1000000 + second * 1000 + third)])
        for name, shape in (("clients/rust/Cargo.toml", '^version = "(.*)"'), ("clients/rust/serde_json/Cargo.toml", '^version = "(.*)"'),
                            ("clients/python/jpstore/version.py", '^__version__ = "(.*)"$'), ("debian/changelog", r"\Ajpstore \((.*?)\)")):
            with open(os.path.join(TOP, name)) as file:
                same(name, re.findall(shape, file.read(), re.M), [version])
        refusals = os.path.join(TOP, "crates", "refusals", "src")
        with open(os.path.join(refusals, "numbers.rt")) as file:
            wanted = re.findall(r"pub const (\w+): u16 = (\d+);", file.read())
        same("enum jpstore_refusal", re.findall(r"JPSTORE_REFUSAL_(\w+) = (\d+)", header), wanted)
        with open(os.path.join(refusals, "names.rt")) as file:
            names = dict(re.findall(r'(\w+) => "([a-z-]+)"', file.read()))
        library = ctypes.CDLL(os.path.join(self.library, "libjpstore.so.1"))
        library.jpstore_refusal_name.restype = ctypes.c_char_p
        for name, number in wanted:
            same("the name of " + number, library.jpstore_refusal_name(int(number)).decode(), names[name])
        same("the other names", [number for number in range(-1, 1000) if library.jpstore_refusal_name(number)
                                 and str(number) not in dict(wanted).values()], [])

    def unwind(self):
        self.passes("unwind", inner=True, flags=["-fno-omit-frame-pointer"])

    def forks(self):
        self.passes("forks", self.stores)

    def threads(self):
        self.passes("threads", self.stores)

    def refused_allocations(self):
        self.passes("refused", self.stores)

    def reasons(self):
        self.passes("reasons", self.stores)

    def disk(self):
        self.passes("disk", self.stores)

    def stops(self):
        self.passes("stops", self.stores)

    def old_processor(self):
        """Only an object that was proved asks for the processor."""
        if not self.words.unproved:
            self.passes("processor")

    def two_copies(self):
        copies = []
        for name in ("a.so", "b.so"):
            copies.append(shutil.copy(os.path.join(self.library, "libjpstore.so.1"), os.path.join(self.folder, name)))
        self.passes("two_copies", *copies, self.stores, flags=["-rdynamic", "-ldl"])

    def no_leak(self):
        """By valgrind, whose exit status says that there is a leak or of a wrong access."""
        watched = ["valgrind", "-q", "--leak-check=full", "--errors-for-leak-kinds=all", "--error-exitcode=9"]
        for test in ("calls", "typed", "marks", "disk"):
            self.passes(test, self.stores, before=watched)

    def sanitized(self):
        flags = "-fsanitize=address,undefined -fno-sanitize-recover=all"
        library = self.built("sanitized", flags)
        for test in ("calls", "typed", "marks", "forks", "threads", "reasons", "disk"):
            self.passes(test, self.stores, library=library, flags=flags.split())

    def no_races(self):
        library = self.built("raced", "-fsanitize=thread")
        for test in ("calls", "threads"):
            self.passes(test, self.stores, library=library, flags=["-fsanitize=thread"])

    def sessions(self):
        """The lines of the transcripts, by feeds of several lengths and by the program: the same bytes."""
        session = self.compiled("session")
        count = 0
        for data in sessions_of_transcripts():
            wanted = run([self.program, "mem", "--sectors", "64"], given=data)
            for piece in ("1000000", "7"):
                same("a session in pieces of " + piece, run([session, piece, "mem", "64"], given=data), wanted)
            count += 1
        if count < 100:
            raise Failed("only %d sessions" % count)

    def sessions_of_files(self):
        """The same over files, whose bytes are compared too."""
        session = self.compiled("session")
        rows = list(sessions_of_transcripts())
        data = b"".join(random.Random(1).sample(rows, 60))
        for options, batch, pump, version in (([], "0", "0", "2"), (["--batch", "8", "--pump", "4"], "8", "4", "3")):
            files = [os.path.join(self.stores, name) for name in ("by-program", "by-library")]
            for file in files:
                if os.path.exists(file):
                    os.remove(file)
            run([session, "0", "format", files[1], "4096", version])
            with open(files[1], "rb") as made:
                # In format 3 the library drew this identity.
                identity = ["--id", made.read(88)[72:].hex()] if version == "3" else []
            run([self.program, "format", files[0], "--sectors", "4096", "--format", version, *identity])
            wanted = run([self.program, "serve", files[0], *options], given=data)
            same("a file's session", run([session, "1000", "serve", files[1], batch, pump], given=data), wanted)
            contents = [open(file, "rb").read() for file in files]
            if contents[0] != contents[1]:
                raise Failed("the files differ")

    def deepest_lines(self):
        """The lines that take the most stack: answered as by the program, on at most half of the library's stack."""
        import stack
        deep = self.compiled("deep", inner=True)
        cases = stack.schemas() + stack.documents() + stack.queries()
        if not self.words.long:
            wanted = ("17500 nodes", "20000 nodes, 8900 counters that aren't asked, 100000", "509 parentheses", "negations",
                      "8,500 references", "million brackets", "128 levels", "4,096 moves")
            cases = [case for case in cases if any(word in case.name for word in wanted)]
        lines = os.path.join(self.folder, "lines")
        most = 0
        for case in cases:
            data = b"".join(stack.line_bytes(line) + b"\n" for line in case.lines)
            with open(lines, "wb") as file:
                file.write(data)
            done = subprocess.run([deep, lines], stdout=subprocess.PIPE, stderr=subprocess.PIPE, timeout=600)
            if done.returncode:
                raise Failed("%s: ended with %d" % (case.name, done.returncode))
            same(case.name, done.stdout, run([self.program, "mem", "--sectors", "65536"], given=data))
            most = max(most, int(done.stderr))
        print("the deepest lines took %d KiB of stack" % most)
        if not 100 < most < 8192:
            raise Failed("%d KiB of stack" % most)

    def kills(self):
        """A host that is killed at random moments has lost no change that was answered."""
        host = self.compiled("host")
        rounds = 200 if self.words.long else 20
        store = os.path.join(self.stores, "killed")
        run([self.program, "format", store, "--sectors", "512"])
        serve = [self.program, "serve", store]
        run(serve, given=b'{"cmd":"create","doc":{"n":0},"name":"d","schema":true}\n')
        value, told, dice = 0, 0, random.Random(time.time_ns())
        for number in range(rounds):
            batch, pump = ("1", "0") if number % 2 else ("8", "4")
            last = self.killed(host, [store, batch, pump, str(value)], dice.uniform(0.0, 0.05))
            reply = json.loads(run(serve, given=b'{"cmd":"get","name":"d","path":"/n"}\n'))
            if last is not None and reply["value"] < last:
                raise Failed("%d was answered as done, and %d is there" % (last, reply["value"]))
            told += 0 if last is None else last - value
            value = reply["value"]
        print("%d kills of the host, %d changes acknowledged, none of these lost" % (rounds, told))
        if told == 0:
            raise Failed("no change was answered")

    @staticmethod
    def killed(host, words, seconds):
        """The last number that a host wrote before it was killed, None if it wrote none."""
        process = subprocess.Popen([host, *words], stdout=subprocess.PIPE)
        first = process.stdout.readline()
        time.sleep(seconds)
        process.send_signal(signal.SIGKILL)
        lines = (first + process.stdout.read()).decode().split("\n")
        process.wait()
        process.stdout.close()
        # The piece after the last line feed is no whole number.
        return int(lines[-2]) if len(lines) > 1 else None

    def counting(self):
        """Processes that share a file count in it, each order exactly once, though they are killed at random moments."""
        counter = self.example(RUST_CLIENT, "target", "cargo", "counting", {})
        kills, share = (360, 120) if self.words.long else (60, 20)
        names = ["till-%d" % number for number in range(6)]
        file = self.new_store("counted", "total", *names)
        counting = {name: [counter, file, name] for name in names}
        made, rounds, pause = dict.fromkeys(names, 0), 0, 0.04
        # How much is counted between two kills is the machine's: they are killed until enough of them have counted enough.
        while not rounds or sum(made.values()) < share * len(names):
            kill_one_after_another({name: [*words, NEVER] for name, words in counting.items()}, kills, pause)
            made, rounds, pause = self.counted(file, names), rounds + 1, 2 * pause
        print("%d counted by %d processes, over %d kills" % (sum(made.values()), len(names), rounds * kills))
        last = [subprocess.Popen([*words, str(made[name] + share)]) for name, words in counting.items()]
        same("how they end", [process.wait() for process in last], [0] * len(names))
        same("the counts", self.counted(file, names), {name: count + share for name, count in made.items()})

    def counted(self, file, names):
        """How much each has counted, which its mark has too, and which is the total together."""
        asked = [{"cmd": "get", "name": name, "path": ""} for name in ["total", *names]] + [{"cmd": "mark", "key": name} for name in names]
        lines = map(json.loads, run([self.program, "serve", file], given=lines_of(asked)).splitlines())
        # After a kill within a commit the opening says first what its slots say.
        told = [line for line in lines if "slots" not in line]
        total, *counts = [reply.get("value") for reply in told[:1 + len(names)]]
        same("the total", total, sum(counts))
        same("the marks", [int(reply["mark"] or 0) for reply in told[1 + len(names):]], counts)
        return dict(zip(names, counts))

    def new_store(self, name, *counters):
        """A file of format 3, with documents that are 0."""
        file = os.path.join(self.stores, name)
        run([self.program, "format", file, "--sectors", "4096", "--format", "3"])
        creations = [{"cmd": "create", "doc": 0, "name": counter, "schema": True} for counter in counters]
        run([self.program, "serve", file], given=lines_of(creations))
        return file

    def once_in_rust_and_python(self):
        """What one has made under a key, the other finds made."""
        order = {"z": [-1, {}], "t": "a\x01\x7f\"\\/\né\u2028\U0001f600", "é": None, "\U0001f600": 1, "\uffff": 2 ** 63 - 1}
        texts = [json.dumps(order), json.dumps(order, indent=1, ensure_ascii=False)]
        made = self.example(os.path.join(RUST_CLIENT, "serde_json"), "target-debian", "/usr/bin/cargo", "once", self.debian_rust())
        file = self.new_store("made-by-two", "total")
        python, package = self.python_folder()
        source = written(self.folder, "once.py", ONCE)
        by_rust = [made, file]
        by_python = [python, source, file]
        for key, first, second in (("order-1", by_rust, by_python), ("order-2", by_python, by_rust)):
            numbers = [run([*words, key, text], env={**os.environ, "PYTHONPATH": package}).decode().strip()
                       for words, text in zip((first, second, first), (*texts, texts[0]))]
            same(key, numbers, [{"order-1": "3", "order-2": "5"}[key]] * 3)

    def example(self, crate, target, cargo, name, env):
        """An example of a crate, built."""
        self.cargo(crate, target, cargo, "build", ["--example", name], env)
        return os.path.join(self.folder, target, "debug", "examples", name)

    def rust(self):
        self.crate_passes(RUST_CLIENT, "target", "cargo", {})

    def rust_of_debian(self):
        for crate in (RUST_CLIENT, os.path.join(RUST_CLIENT, "serde_json")):
            self.crate_passes(crate, "target-debian", "/usr/bin/cargo", self.debian_rust())

    def debian_rust(self):
        """The environment of Debian's cargo with Debian's crates. Its clippy takes them from no other place."""
        home = os.path.join(self.folder, "cargo")
        os.makedirs(home, exist_ok=True)
        written(home, "config.toml", DEBIAN_CRATES)
        return {**DEBIAN_RUST, "CARGO_HOME": home, "RUSTDOCFLAGS": "-D warnings"}

    def rust_pages_and_lints(self):
        """The pages of the crates have no broken links, and clippy finds nothing."""
        for crate in (RUST_CLIENT, os.path.join(RUST_CLIENT, "serde_json")):
            for command, *more in (["doc", "--no-deps"], ["clippy", "--all-targets", "--", "-D", "warnings"]):
                self.cargo(crate, "target-debian", "/usr/bin/cargo", command, more, self.debian_rust())

    def crate_passes(self, crate, target, cargo, env):
        said = self.cargo(crate, target, cargo, "test", [], env)
        if not re.search(r"test result: ok\. [1-9]", said):
            raise Failed(said)

    def cargo(self, crate, target, cargo, command, more, env):
        """What a command of cargo says."""
        words = [cargo, command, "-q", "--offline", "--target-dir", os.path.join(self.folder, target)]
        return run([*words, "--manifest-path", os.path.join(crate, "Cargo.toml"), *more], seconds=1800,
                   env={**os.environ, "JPSTORE_LIB": self.library, **env}).decode()

    def python_folder(self):
        """A copy of the package with the extension in it, and the Python that it is for."""
        python, package = python_with_headers(), os.path.join(self.folder, "python", "jpstore")
        if not os.path.exists(package):
            shutil.copytree(os.path.join(PYTHON_CLIENT, "jpstore"), package, ignore=shutil.ignore_patterns("*.so", "__pycache__"))
            build = os.path.join(PYTHON_CLIENT, "build_embedded")
            run([build, "--library", self.library, "--out", package, "--python", python],
                env={**os.environ, "CFLAGS": "-Werror"})
        return python, os.path.dirname(package)

    def python(self):
        python, folder = self.python_folder()
        env = {**os.environ, "PYTHONPATH": folder, "PATH": os.path.dirname(self.program) + os.pathsep + os.environ["PATH"]}
        said = run([python, os.path.join(PYTHON_CLIENT, "tests", "embedded_session.py"), self.stores], env=env)
        if not re.fullmatch(rb"[1-9]\d* passed, 0 failed", said.splitlines()[-1]):
            raise Failed(said.decode()[-500:])

    def page(self):
        """The programs of docs/use/EMBEDDING.md, compiled as it says, print what it says."""
        with open(PAGE) as file:
            text = file.read()
        found = dict(re.findall(r"```(c|rust|python)\n(.*?)```\n", text, re.S))
        printed = re.search(r"prints, in each of the three:\n\n```\n(.*?)```\n", text, re.S).group(1)
        if set(found) != {"c", "rust", "python"}:
            raise Failed("the page has programs in %s" % ", ".join(found))
        for language, source in found.items():
            folder = os.path.join(self.folder, "page-" + language)
            os.mkdir(folder)
            words, env = getattr(self, "program_in_" + language)(folder, source)
            same("the page's program in " + language, run(words, cwd=folder, env={**os.environ, **env}).decode(), printed)

    def program_in_c(self, folder, source):
        path = written(folder, "main.c", source)
        out = os.path.join(folder, "main")
        run(["cc", *STRICT, "-I", self.library, path, "-o", out, "-L", self.library, "-ljpstore"])
        return [out], {"LD_LIBRARY_PATH": self.library}

    def program_in_rust(self, folder, source):
        os.mkdir(os.path.join(folder, "src"))
        written(folder, "src/main.rs", source)
        written(folder, "Cargo.toml", '[package]\nname = "page"\nversion = "0.0.0"\nedition = "2021"\n\n[dependencies]\n'
                'jpstore = { path = "%s" }\n' % RUST_CLIENT)
        target = os.path.join(self.folder, "target")
        run(["cargo", "build", "-q", "--offline", "--target-dir", target], cwd=folder, env={**os.environ, "JPSTORE_LIB": self.library},
            seconds=1800)
        return [os.path.join(target, "debug", "page")], {}

    def program_in_python(self, folder, source):
        python, package = self.python_folder()
        return [python, written(folder, "main.py", source)], {"PYTHONPATH": package}


# What the example `once` in Rust does.
ONCE = """import json
import sys
from jpstore import Store, create, patch

file, key, order = sys.argv[1:]
with Store(file, embedded=True) as store:
    test = [{"op": "test", "path": "", "value": 0}]
    print(store.once(key, [create(key, json.loads(order), {"type": "object"}), patch("total", test)]))
"""


def lines_of(commands):
    return "".join(json.dumps(command) + "\n" for command in commands).encode()


def kill_one_after_another(commands, kills, pause):
    """Runs commands of these names, none of which ends by itself, and kills one after another at random moments, so often.

    One that was killed is run again, but not at the end, when all are killed.
    """
    dice = random.Random(time.time_ns())
    running = {name: subprocess.Popen(words) for name, words in commands.items()}
    try:
        for _ in range(kills):
            time.sleep(dice.uniform(0.0, pause))
            name = dice.choice(list(running))
            running[name].kill()
            same("how %s ends" % name, running[name].wait(), -signal.SIGKILL)
            running[name] = subprocess.Popen(commands[name])
    finally:
        for process in running.values():
            process.kill()
            process.wait()


def written(folder, name, text):
    path = os.path.join(folder, name)
    with open(path, "w") as file:
        file.write(text)
    return path


def sessions_of_transcripts():
    """The command lines of each row, without the words for the device: what is answered is compared, not what is wanted."""
    for path in sorted(glob.glob(os.path.join(TOP, "crates", "transcripts", "data", "*.txt"))):
        if os.path.basename(path) in ("stops.txt", "stops_3.txt", "upgrades.txt", "batches.txt", "revisions.txt"):
            continue
        with open(path, "rb") as file:
            rows = file.read().split(b"\n\n")
        for row in rows:
            lines = [line for line in row.split(b"\n") if line and not line.startswith((b"#", b">", b"!", b"@", b"%"))]
            if lines and lines[0].startswith(b"{"):
                yield b"".join(line + b"\n" for line in lines)


TESTED = ["shows_only_its_calls", "refuses_other_objects", "refuses_a_small_stack", "calls", "typed_calls", "marks", "numbers", "unwind",
          "forks", "threads", "refused_allocations", "reasons", "disk", "stops", "old_processor", "two_copies", "sanitized", "no_leak",
          "sessions", "sessions_of_files", "deepest_lines", "kills", "rust", "counting", "rust_of_debian",
          "rust_pages_and_lints", "python", "once_in_rust_and_python", "page"]


def main():
    parser = argparse.ArgumentParser(description=__doc__, formatter_class=argparse.RawDescriptionHelpFormatter)
    parser.add_argument("program")
    parser.add_argument("--long", action="store_true")
    parser.add_argument("--object")
    parser.add_argument("--unproved", action="store_true")
    parser.add_argument("--only", default="")
    words = parser.parse_args()
    sys.path.insert(0, HERE)
    install_missing()
    passed = failed = 0
    with tempfile.TemporaryDirectory() as folder:
        embedded = Embedded(words, folder)
        for name in TESTED + (["no_races"] if words.long else []):
            if words.only not in name:
                continue
            begin = time.monotonic()
            try:
                getattr(embedded, name)()
                passed += 1
            except Failed as why:
                failed += 1
                print("FAILED: %s" % why)
            print("%-24s %5.1f s" % (name.replace("_", " "), time.monotonic() - begin), flush=True)
    print("%d passed, %d failed" % (passed, failed))
    return 1 if failed else 0


if __name__ == "__main__":
    sys.exit(main())
