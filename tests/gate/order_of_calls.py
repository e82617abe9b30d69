#!/usr/bin/env python3
"""Looks at the system calls of a serving program: what it reads, writes and syncs, and in which order.

    order_of_calls.py PROGRAM

Each row starts `PROGRAM serve FILE` under strace, and holds of the one list of calls that the program made of its
standard input, its standard output and the store's file:

- nothing is read from the input before the replies to all lines that were read are written;
- the reply to a change is written after the two syncs of its commit, and after the write of the commit sector;
- no other sector is written between these syncs than sector 0.

A batch makes few writes between its syncs. A change whose write or sync fails, or is made in part, is answered 61; those
before it are there when the file is opened again.

A store of format 1 is opened too: its snapshot in format 2 is written and synced before the commit sector, and that is synced
before the first line is read. A file that is made is locked, written full of zeros but for a sparse one, and synced with its
folder before its commit sector is written; that of a copy is written after a sync of its documents. One that can't be made is
removed. A terminal shows how far a slow one is. The reply of an upgrade is written after the sync of its commit sector. A store
is locked before anything of it is read, and an input that failed is not read again.

The last line is `N passed, M failed`. If strace is missing, it installs Debian's package; without it there is nothing to look
at, and the status is 2.
"""
import functools
import itertools
import json
import os
import pty
import re
import resource
import shutil
import signal
import subprocess
import sys
import tempfile

sys.dont_write_bytecode = True
sys.path.insert(0, os.path.join(os.path.dirname(os.path.abspath(__file__)), "..", "..", "tools"))
from debian_packages import install

SECTOR_BYTES = 512
# A store of format 1 whose documents take one sector in format 2, with half 0 in force; half 1 begins at sector 8.
FORMAT_1 = os.path.join(os.path.dirname(os.path.abspath(__file__)), "..", "data", "format_1.store")
MIGRATION = [("sync", 0), ("write", 8), ("sync", 0), ("write", 0), ("sync", 0)]
CALL = re.compile(r"(?:\d+ +)?(?P<name>\w+)\((?P<words>.*)\) += (?P<answer>-?\d+)")


FILE_CALL = re.compile(r"(?:\d+ +)?(?P<name>\w+)\((?P<number>\d+)<(?P<path>[^>]*)>")
MADE_SPARSE = [
    ("flock", "store"), ("fsync", "store"), ("fsync", "folder"), ("pread64", "store"), ("pwrite64", "store"), ("fdatasync", "store"),
    ("write", "output"),
]
# A file of one piece is filled by one write.
FILLED = [("flock", "store"), ("pwrite64", "store")]
MADE = FILLED + MADE_SPARSE[1:]
COPIED = FILLED + [
    ("fsync", "store"), ("fsync", "folder"), ("fdatasync", "store"), ("pread64", "store"), ("pwrite64", "store"),
    ("fdatasync", "store"), ("pwrite64", "store"), ("fdatasync", "store"), ("write", "output"),
]
# The file has two pieces. The 128 sectors of the slots are written 32 at once, and then the first of each slot.
COPIED_IN_3 = FILLED + [
    ("pwrite64", "store"), ("fsync", "store"), ("fsync", "folder"), ("fdatasync", "store"), *[("pread64", "store")] * 4,
    *[("pwrite64", "store")] * 4, ("fdatasync", "store"), *[("pwrite64", "store")] * 4, ("fdatasync", "store"), ("write", "output"),
]
OPENED = [("flock", "store"), ("fdatasync", "store"), ("pread64", "store"), ("pwrite64", "store"), ("fdatasync", "store")]


# The calls at which `format` of three pieces fails, and what it then says.
FAILURES = {
    "pwrite64:error=ENOSPC:when=1": "jpstore: no-space\n",
    "pwrite64:error=ENOSPC:when=3": "jpstore: no-space\n",
    "pwrite64:error=EDQUOT:when=2": "jpstore: no-space\n",
    "pwrite64:error=EIO:when=2": "jpstore: file\n",
    "ftruncate:error=EFBIG:when=1": "jpstore: no-space\n",
    "fsync:error=ENOSPC:when=1": "jpstore: no-space\n",
    "fsync:error=EIO:when=2": "jpstore: file\n",
    "pwrite64:error=ENOSPC:when=4": "jpstore: device (61)\n",
    "fdatasync:error=EIO:when=1": "jpstore: device (61)\n",
}


# Calls that fail as a second change of three sectors is made, after the opening's write and two of the first change; a write
# that has failed may be made once more as the store is closed.
HAND_OVERS = {
    "pwrite64:error=EIO:when=4": (False,),
    "pwrite64:error=ENOSPC:when=4+": (False,),
    "pwrite64:error=EIO:when=5": (False, True),
    "pwrite64:error=ENOSPC:when=5+": (False,),
    "fdatasync:error=EIO:when=5": (False,),
    "fdatasync:error=EIO:when=6": (False, True),
}


def hand_overs_of_slots(size):
    """The same in format 3, after two writes of the opening and two of the first group. A second group of two changes fills a block
    first, and the first slot that is whole has it."""
    at = 5 if size == 1 else 6
    return {
        **({} if size == 1 else {"pwrite64:error=EIO:when=5": (False,), "pwrite64:error=ENOSPC:when=5+": (False,)}),
        f"pwrite64:error=EIO:when={at}": (False, True),
        f"pwrite64:error=ENOSPC:when={at}+": (False,),
        f"pwrite64:error=EIO:when={at + 1}": (True,),
        f"pwrite64:error=ENOSPC:when={at + 1}+": (True,),
        "fdatasync:error=EIO:when=5": (True,),
    }


# Errors of the system as a file is opened, and the cause that `--why` names for each, with its number.
OPENING_FAULTS = {"EROFS": ("read-only", 30), "EMFILE": ("descriptors", 24), "ENFILE": ("descriptors", 23), "EIO": ("other", 5)}


class Wrong(Exception):
    """A run whose calls come in another order."""


def change(number):
    """A document comes and goes, so that a store that fills makes snapshots."""
    return ('{"cmd":"create","doc":%d,"name":"d","schema":true}\n' % number, '{"cmd":"delete","name":"d"}\n')[number % 2]


def done(number):
    return '{"ok":true,"seq":%d}\n' % number


def events_of(trace):
    """What the program did, in order: (`read`, bytes), (`reply`, bytes), (`write`, its first sector) and (`sync`, 0)."""
    events, store = [], None
    for line in trace:
        call = CALL.match(line)
        if not call or int(call["answer"]) < 0:
            continue
        name, words, answer = call["name"], call["words"], int(call["answer"])
        file = words.split(",")[0]
        if name == "flock":
            store = file
        elif name == "read" and file == "0":
            events.append(("read", answer))
        elif name == "write" and file == "1":
            events.append(("reply", answer))
        elif name == "pwrite64" and file == store:
            events.append(("write", int(words.rsplit(",", 1)[1]) // SECTOR_BYTES))
        elif name in ("fdatasync", "fsync") and file == store:
            events.append(("sync", 0))
    return events


def traced(program, file, pieces, options=()):
    """The events of a session that is given these pieces, each once all before it were answered, and its output."""
    trace = file + ".trace"
    words = ["strace", "-f", "-e", "trace=read,write,pwrite64,fdatasync,fsync,flock", "-o", trace, program, "serve", file, *options]
    with subprocess.Popen(words, stdin=subprocess.PIPE, stdout=subprocess.PIPE, text=True) as server:
        output = ""
        for piece in pieces:
            server.stdin.write(piece)
            server.stdin.flush()
            output += "".join(server.stdout.readline() for _ in range(piece.count("\n")))
        server.stdin.close()
        output += server.stdout.read()
    if server.returncode != 0:
        raise Wrong("the status is %d" % server.returncode)
    with open(trace) as lines:
        return events_of(lines), output


def look(events, input_text, output):
    """Holds the three sentences over the events of a session in which each line is a change that is done."""
    first = events.index(next(event for event in events if event[0] == "read"))
    read = replied = commits = 0
    begun, settled = False, True
    for event, number in events[first:]:
        if event == "read":
            if replied != len("".join(output.splitlines(True)[:input_text[:read].count("\n")])):
                raise Wrong("input is read while %d lines wait for their replies" % input_text[:read].count("\n"))
            read += number
        elif event == "write":
            begun, settled = number == 0, False
        elif event == "sync":
            commits, settled = commits + (begun and not settled), True
        elif event == "reply":
            replied += number
            if not settled or output[:replied].count("\n") > commits:
                raise Wrong("reply %d is written after %d commits" % (output[:replied].count("\n"), commits))
    if replied != len(output):
        raise Wrong("%d bytes of %d were replied" % (replied, len(output)))


def try_row(program, pieces):
    with tempfile.TemporaryDirectory() as folder:
        file = os.path.join(folder, "store")
        subprocess.run([program, "format", file, "--sectors", "16"], check=True, stdout=subprocess.DEVNULL)
        events, output = traced(program, file, pieces)
        text = "".join(pieces)
        if output != "".join(done(number + 1) for number in range(text.count("\n"))):
            raise Wrong("the replies are %r" % output)
        look(events, text, output)


def large(name):
    """A document of its own, that takes sectors beside the commit sector."""
    return '{"cmd":"create","doc":"%s","name":"%s","schema":true}\n' % ("x" * 1200, name)


def try_group(program):
    """A batch of 64 changes: few writes between its syncs, and the commit sector last and alone."""
    with tempfile.TemporaryDirectory() as folder:
        file = os.path.join(folder, "store")
        subprocess.run([program, "format", file, "--sectors", "1024"], check=True, stdout=subprocess.DEVNULL)
        text = "".join('{"cmd":"create","doc":"%s","name":"d%d","schema":true}\n' % ("x" * 70, number) for number in range(128))
        events, output = traced(program, file, [text], ["--batch", "64"])
        if output != "".join(done(number + 1) for number in range(128)):
            raise Wrong("the replies are %r" % output)
        first = events.index(next(event for event in events if event[0] == "read"))
        between = " ".join(event for event, _ in events[first:] if event in ("write", "sync")).split("sync")
        if max(part.count("write") for part in between) > 3 or not any("write" in part for part in between[1::2]):
            raise Wrong("the writes between the syncs are %s" % [part.count("write") for part in between])


def served(program, file, lines, options=(), fault=None, limit=None):
    """The replies of a session that is given all lines at once, some of whose calls fail."""
    def limited():
        signal.signal(signal.SIGXFSZ, signal.SIG_IGN)
        resource.setrlimit(resource.RLIMIT_FSIZE, (limit, limit))
    words = ["strace", "-f", "-o", os.devnull, "-e", "inject=" + fault] if fault else []
    words += [program, "serve", file, *options]
    ended = subprocess.run(words, input="".join(lines), check=False, stdout=subprocess.PIPE, text=True,
                           stderr=subprocess.DEVNULL, preexec_fn=limited if limit else None, restore_signals=False)
    return ended.stdout.splitlines(True)


def try_failed_hand_over(program, version, size, second=(False,), **failing):
    """Of two groups of changes the writes of the second fail. Each of its changes is answered 61, and the one after it 62;
    when the file is opened again the first group is there, and of the second all or none."""
    names = "abcd"[:2 * size]
    with tempfile.TemporaryDirectory() as folder:
        file = os.path.join(folder, "store")
        subprocess.run([program, "format", file, "--sectors", "192", "--format", version], check=True, stdout=subprocess.DEVNULL)
        given = [*map(large, names), large("e")]
        replies = served(program, file, given, ["--batch", str(size)] if size > 1 else [], **failing)
        refused = ['{"error":"device","number":61,"ok":false}\n'] * size + ['{"error":"broken","number":62,"ok":false}\n']
        if replies != [done(number + 1) for number in range(size)] + refused:
            raise Wrong("the replies are %s" % replies)
        there = "".join(json.loads(served(program, file, ['{"cmd":"list"}\n'])[0])["names"])
        if there not in [names if whole else names[:size] for whole in second]:
            raise Wrong("when it is opened again, it has %s" % there)


def try_nothing_after_a_failure(program, version, when):
    """A write of a change fails: it is answered 61, and from then on nothing is written, also at the program's end."""
    with tempfile.TemporaryDirectory() as folder:
        file, log = os.path.join(folder, "store"), os.path.join(folder, "log")
        subprocess.run([program, "format", file, "--sectors", "192", "--format", version], check=True, stdout=subprocess.DEVNULL)
        words = ["strace", "-f", "-o", log, "-P", file, "-e", "trace=pwrite64,pwritev,fdatasync,fsync", "-e", f"inject=pwrite64:error=EIO:when={when}"]
        ended = subprocess.run([*words, program, "serve", file], input=change(0) + change(1), check=False, stdout=subprocess.PIPE,
                               text=True, stderr=subprocess.DEVNULL)
        if [json.loads(reply).get("number") for reply in ended.stdout.splitlines()] != [61, 62]:
            raise Wrong("the replies are %s" % ended.stdout)
        with open(log, encoding="utf-8") as calls:
            later = calls.read().split("(INJECTED)")[1:]
        if len(later) != 1 or "(" in later[0]:
            raise Wrong("after the failure it calls %s" % later)


def try_migration(program):
    with tempfile.TemporaryDirectory() as folder:
        file = os.path.join(folder, "store")
        shutil.copyfile(FORMAT_1, file)
        events, _ = traced(program, file, ['{"cmd":"list"}\n'])
        opened = events[:next(place for place, event in enumerate(events) if event[0] == "read")]
        if opened != MIGRATION:
            raise Wrong("an opening of format 1 calls %s" % opened)


def calls_of(folder, words, status, **streams):
    """What a program called of its streams, of the store in the folder, and of the folder, in order: (call, of what)."""
    trace = os.path.join(folder, "trace")
    calls = "trace=read,write,pread64,pwrite64,fsync,fdatasync,flock"
    ended = subprocess.run(["strace", "-f", "-y", "-e", calls, "-o", trace, *words], check=False, cwd=folder, **streams)
    if ended.returncode != status:
        raise Wrong("the status is %d" % ended.returncode)
    numbers = {"0": "input", "1": "output"}
    paths = {os.path.join(os.path.realpath(folder), "store"): "store", os.path.realpath(folder): "folder"}
    with open(trace) as lines:
        found = [call for call in map(FILE_CALL.match, lines) if call]
    whats = [(call["name"], numbers.get(call["number"]) or paths.get(call["path"])) for call in found]
    return [call for call in whats if call[1]]


def try_making(program, words, wanted):
    with tempfile.TemporaryDirectory() as folder:
        calls = calls_of(folder, [program, "format", "store", "--sectors", "16", *words], 0, stdout=subprocess.DEVNULL)
        if calls != wanted:
            raise Wrong("format calls %s" % calls)


def try_failed_making(program, fault, errors):
    """A store of three pieces, whose making fails at this call: it says so, and leaves no file."""
    with tempfile.TemporaryDirectory() as folder:
        words = ["strace", "-f", "-o", os.devnull, "-e", "inject=" + fault, program, "format", "store", "--sectors", "300"]
        ended = subprocess.run(words, check=False, cwd=folder, stdout=subprocess.PIPE, stderr=subprocess.PIPE, text=True)
        if (ended.returncode, ended.stdout, ended.stderr) != (1, "", errors):
            raise Wrong("it ends with %s" % ended)
        if os.listdir(folder):
            raise Wrong("%s is left" % os.listdir(folder))


def try_failed_opening(program, error, cause, number):
    """A file that the system refuses to open: the second line names the error."""
    with tempfile.TemporaryDirectory() as folder:
        subprocess.run([program, "format", "store", "--sectors", "16"], check=True, cwd=folder, stdout=subprocess.DEVNULL)
        words = ["strace", "-f", "-o", os.devnull, "-P", os.path.join(folder, "store"), "-e", f"inject=openat:error={error}"]
        for command in (["check"], ["format", "--sectors", "16"]):
            ended = subprocess.run([*words, program, *command, os.path.join(folder, "store"), "--why"], check=False, stdout=subprocess.PIPE,
                                   stderr=subprocess.PIPE, text=True)
            wanted = f'jpstore: file\n{{"cause":"{cause}","errno":{number},"path":"{folder}/store"}}\n'
            if (ended.returncode, ended.stdout, ended.stderr) != (1, "", wanted):
                raise Wrong("it ends with %s" % ended)


def try_rights_of_a_copy(program):
    """Nobody else may open the new file before it has its rights, and it has them before its length and its first byte."""
    with tempfile.TemporaryDirectory() as folder:
        subprocess.run([program, "format", "old", "--sectors", "16", "--mode", "0640"], check=True, cwd=folder, stdout=subprocess.DEVNULL)
        os.chmod(os.path.join(folder, "old"), 0o646)
        words = ["strace", "-f", "-o", "trace", "-P", os.path.join(folder, "new"), "-e", "trace=openat,fchmod,ftruncate,pwrite64"]
        subprocess.run([*words, program, "copy", "old", os.path.join(folder, "new"), "--sectors", "16"], check=True, cwd=folder,
                       stdout=subprocess.DEVNULL)
        with open(os.path.join(folder, "trace")) as trace:
            calls = [call.groups() for call in map(re.compile(r"(?:\d+ +)?(\w+)\(.*?(?:, (0\d+))?\) += ").match, trace) if call]
    if calls[:4] != [("openat", "0600"), ("fchmod", "0646"), ("ftruncate", None), ("pwrite64", None)]:
        raise Wrong("copy calls %s" % calls)


def try_signs(program):
    """A store whose pieces each take 0.6 seconds at least: a terminal shows it after a second, and nothing else does."""
    slow = ["strace", "-f", "-o", os.devnull, "-e", "inject=pwrite64:delay_enter=600000:when=1..4", program, "format"]
    with tempfile.TemporaryDirectory() as folder:
        terminal, end = pty.openpty()
        subprocess.run([*slow, "shown", "--sectors", "512"], check=True, cwd=folder, stdout=subprocess.DEVNULL, stderr=end)
        os.close(end)
        shown = os.read(terminal, 4096).decode().replace("\r\n", "\n")
        os.close(terminal)
        lines = [f"jpstore: {percent}% of the file is written\n" for percent in (50, 75, 100)]
        # A slow machine takes longer for a piece, and so may show an earlier one, and a further one after five seconds more.
        if shown not in {"".join(some) for some in itertools.chain(*(itertools.combinations(lines, count) for count in (1, 2, 3)))} - {lines[2]}:
            raise Wrong("a terminal shows %r" % shown)
        silent = subprocess.run([*slow, "silent", "--sectors", "512"], check=True, cwd=folder, stdout=subprocess.DEVNULL, stderr=subprocess.PIPE)
        if silent.stderr:
            raise Wrong("what is no terminal shows %r" % silent.stderr)


def try_copying(program, words, wanted):
    """A store of one document, so that its copy has one sector beside the commit sector, or in format 3 no block."""
    with tempfile.TemporaryDirectory() as folder:
        silent = {"cwd": folder, "stdout": subprocess.DEVNULL, "check": True}
        subprocess.run([program, "format", "old", "--sectors", "16"], **silent)
        subprocess.run([program, "serve", "old"], input=change(0).encode(), **silent)
        calls = calls_of(folder, [program, "copy", "old", "store", *words], 0, stdout=subprocess.DEVNULL)
        if calls != wanted:
            raise Wrong("copy calls %s" % calls)


def try_upgrading(program):
    """To format 3, by a snapshot into half 1, two slots, and two more; and back: the commit sector, and zeros over the other slots."""
    with tempfile.TemporaryDirectory() as folder:
        subprocess.run([program, "format", "store", "--sectors", "300"], check=True, cwd=folder, stdout=subprocess.DEVNULL)
        write, sync = ("pwrite64", "store"), ("fdatasync", "store")
        reads = ("pread64", "store")
        # Whether sector 0 is older than the slots is looked at first.
        opened = [OPENED[0], reads, OPENED[1], reads, write, sync]
        up = [*opened, sync, write, sync, sync, reads, write, write, sync, write, write, sync]
        # Zeros over 120 sectors, 32 of them at once.
        down = [*opened, write, sync, sync, write, sync, write, write, write, write, sync]
        for words, wanted in ((["3"], up), (["2"], down)):
            calls = calls_of(folder, [program, "upgrade", "store", "--format", *words], 0, stdout=subprocess.DEVNULL)
            # How many sectors a read takes at once is no matter.
            calls = [call for before, call in zip([None, *calls], calls) if call != reads or before != reads]
            if calls != [*wanted, ("write", "output")]:
                raise Wrong("upgrade --format %s calls %s" % (*words, calls))


def try_failed_input(program):
    """A folder can be opened for input, and each read of it fails."""
    with tempfile.TemporaryDirectory() as folder:
        subprocess.run([program, "format", "store", "--sectors", "16"], check=True, cwd=folder, stdout=subprocess.DEVNULL)
        closed = os.open(folder, os.O_RDONLY)
        calls = calls_of(folder, [program, "serve", "store"], 1, stdin=closed, stderr=subprocess.DEVNULL)
        os.close(closed)
        if calls != OPENED + [("read", "input")]:
            raise Wrong("an opening and an input that fails: %s" % calls)


ROWS = {
    "each line waits for the reply before it": [change(number) for number in range(8)],
    "all lines come at once": ["".join(change(number) for number in range(8))],
    "lines come in groups": ["".join(change(3 * group + number) for number in range(3)) for group in range(3)],
    "snapshots make room": [change(number) for number in range(120)],
}


def main():
    if len(sys.argv) != 2:
        sys.exit(__doc__)
    install([] if shutil.which("strace") else ["strace"])
    if not shutil.which("strace"):
        print("order_of_calls: strace isn't installed", file=sys.stderr)
        sys.exit(2)
    failed = 0
    program = os.path.abspath(sys.argv[1])
    rows = {name: lambda pieces=pieces: try_row(program, pieces) for name, pieces in ROWS.items()}
    rows["a batch of 64 changes"] = lambda: try_group(program)
    for version, size in itertools.product("23", (1, 2)):
        group, fails = " of %d in format %s" % (size, version), functools.partial(try_failed_hand_over, program, version, size)
        for fault, second in (HAND_OVERS if version == "2" else hand_overs_of_slots(size)).items():
            rows["a group" + group + " fails: " + fault] = functools.partial(fails, second, fault=fault)
        # Half 0 begins at sector 1, and a change takes some 2.5 sectors: the second group is written in part. In format 3 it begins at
        # sector 128, and only the block that two groups of two fill is there.
        most = 3 + 2 * size if version == "2" else 132
        if version == "2" or size == 2:
            rows["a group" + group + " is written in part"] = functools.partial(fails, limit=most * SECTOR_BYTES)
    for version, when in (("2", 2), ("3", 3)):
        rows["nothing is written after a failure in format " + version] = functools.partial(try_nothing_after_a_failure, program, version, when)
    rows["a store of format 1 is opened"] = lambda: try_migration(program)
    rows["a store is made"] = lambda: try_making(program, [], MADE)
    rows["a sparse store is made"] = lambda: try_making(program, ["--sparse"], MADE_SPARSE)
    for fault, errors in FAILURES.items():
        rows["a store is not made: " + fault] = lambda fault=fault, errors=errors: try_failed_making(program, fault, errors)
    for error, (cause, number) in OPENING_FAULTS.items():
        rows["no file is opened: " + error] = lambda error=error, cause=cause, number=number: try_failed_opening(program, error, cause, number)
    rows["a copy has its rights"] = lambda: try_rights_of_a_copy(program)
    rows["a store is made slowly"] = lambda: try_signs(program)
    rows["a store is copied"] = lambda: try_copying(program, ["--sectors", "32"], COPIED)
    rows["a store is copied into format 3"] = lambda: try_copying(program, ["--sectors", "160", "--format", "3"], COPIED_IN_3)
    rows["a store is upgraded, and back"] = lambda: try_upgrading(program)
    rows["a store is opened, and its input fails"] = lambda: try_failed_input(program)
    for name, row in rows.items():
        try:
            row()
        except Wrong as wrong:
            failed += 1
            print("FAILED: %s: %s" % (name, wrong))
    print("%d passed, %d failed" % (len(rows) - failed, failed))
    sys.exit(1 if failed else 0)


if __name__ == "__main__":
    main()
