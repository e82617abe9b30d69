#!/usr/bin/env python3
"""Runs the built program as a user does, and compares what it prints and its exit status.

    test_programs.py PROGRAM

Words, files and streams are tried here, since no contract says what is printed. What lines are answered is tried by the
crate transcripts. The last line is `N passed, M failed`.
"""
import json
import os
import re
import resource
import select
import shutil
import signal
import stat
import subprocess
import sys
import tempfile

from another_user import NOBODY, become, for_another

CREATE = '{"cmd":"create","doc":{"a":1},"name":"d","schema":true}\n'
DONE = '{"ok":true,"seq":1}\n'
SIXTEEN = ["--sectors", "16"]
# Enough for both formats at once.
BOTH = ["--sectors", "300"]
SLOTS = [0, 32, 64, 96]
# A store as the program made it when it wrote format 1, by six changes: d was made, patched and put under another schema,
# and so has the value {"a":1,"b":[1,2]}; e was made with ["x"]; f was made and deleted.
ROOT = os.path.dirname(os.path.dirname(os.path.dirname(os.path.abspath(__file__))))
FORMAT_1 = os.path.join(ROOT, "tests", "data", "format_1.store")
VERSION = os.path.join(ROOT, "VERSION")
MANUAL = os.path.join(ROOT, "packaging", "jpstore.1")
# The causes that `--why` names.
CAUSES = ["exists", "missing", "folder", "denied", "read-only", "descriptors", "other"]
# How long a program may take, in seconds.
PATIENCE = 600


class Wrong(Exception):
    """The program did something else than it should."""


class Jpstore:
    """The program, in a folder of a test's own, where `file` is a path at which nothing exists."""

    def __init__(self, program, folder):
        self.program = program
        self.folder = folder
        self.file = os.path.join(folder, "f")

    def run(self, *words, given="", stdin=None, stdout=subprocess.PIPE, most_bytes=None, most_memory=None, umask=None, user=None):
        """Runs the program, if asked with no file of more than `most_bytes`, in no more memory, with that umask or as that user,
        and answers how it ended."""

        def limit():
            if umask is not None:
                os.umask(umask)
            become(user)
            if most_memory is not None:
                resource.setrlimit(resource.RLIMIT_AS, (most_memory, most_memory))
            if most_bytes is not None:
                signal.signal(signal.SIGXFSZ, signal.SIG_IGN)
                resource.setrlimit(resource.RLIMIT_FSIZE, (most_bytes, most_bytes))

        source = {"input": given} if stdin is None else {"stdin": stdin}
        return subprocess.run([self.program, *words], stdout=stdout, stderr=subprocess.PIPE, text=True, preexec_fn=limit, timeout=PATIENCE, **source)

    def shows(self, *words, output="", errors="", status=0, **how):
        """The program ends in this way."""
        ended = self.run(*words, **how)
        found = (ended.returncode, ended.stdout or "", ended.stderr)
        if found != (status, output, errors):
            raise Wrong(f"{' '.join(words)}: wanted {(status, output, errors)}, found {found}")

    def fails(self, *words, errors, **how):
        """The program ends with status 1, says this, and writes nothing else."""
        self.shows(*words, errors=errors, status=1, **how)

    def serves_until_killed(self, given, output):
        """The program serves the file, gives these replies to lines, and is killed."""
        with subprocess.Popen([self.program, "serve", self.file], stdin=subprocess.PIPE, stdout=subprocess.PIPE, text=True) as served:
            served.stdin.write(given)
            served.stdin.flush()
            found = "".join(served.stdout.readline() for _ in output.splitlines())
            served.kill()
        if found != output:
            raise Wrong(f"serve: wanted {output}, found {found}")

    def contents(self):
        with open(self.file, "rb") as file:
            return file.read()

    def put(self, contents):
        with open(self.file, "wb") as file:
            file.write(contents)


# A half of 16 sectors has 7, and one of 300 sectors 149, in format 2. In format 3 it has 80: ten blocks, of which one is kept free.
CAPACITIES = {(16, 2): 7 * 512, (300, 2): 149 * 512, (300, 3): 9 * 4096}

# The identity of a store of format 3, and that of another.
IDENTITY, OTHER = "0123456789abcdef0123456789abcdef", "fedcba9876543210fedcba9876543210"


def status_line(documents, opens, seq, used, half=0, sectors=16, version=2, slots=None, identity=IDENTITY):
    told = f'"id":"{identity}",' if version == 3 else ""
    found = f'"slots":"{slots}",' if slots else ""
    return (
        f'{{"broken":false,"capacity":{CAPACITIES[sectors, version]},"documents":{documents},"half":{half},{told}"ok":true,"opens":{opens},'
        f'"sectors":{sectors},"seq":{seq},{found}"used":{used}}}\n'
    )


def a_store_in_memory_shows_its_status(jpstore):
    lines = CREATE + '{"cmd":"status"}\n'
    jpstore.shows("mem", *SIXTEEN, given=lines, output=DONE + status_line(1, 1, 1, 67))
    jpstore.shows("mem", *BOTH, "--format", "2", given=lines, output=DONE + status_line(1, 1, 1, 67, sectors=300))


def a_store_in_memory_may_be_of_format_3(jpstore):
    words = ["mem", *BOTH, "--format=3"]
    status = status_line(1, 1, 1, 67, sectors=300, version=3, identity="0" * 32)
    jpstore.shows(*words, given=CREATE + '{"cmd":"status"}\n', output=DONE + status)
    # It has marks, and a snapshot keeps them.
    marked = with_mark(CREATE, "a") + '{"cmd":"snapshot"}\n' + MARK_OF_K
    jpstore.shows(*words, "--history", "0", given=marked, output=DONE + '{"ok":true,"used":130}\n' + mark("a", 1))
    jpstore.fails("mem", "--sectors", "159", "--format", "3", given=CREATE, errors="jpstore: small (71)\n")


def made_in_format_3(sectors):
    """The slots take 128 sectors. Of the blocks of 8 sectors in half of the others the last 1 in 1,025 are kept free."""
    blocks = (sectors - 128) // 16
    return f'{{"capacity":{4096 * (blocks - -(-blocks // 1025))},"ok":true,"sectors":{sectors}}}\n'


def a_new_store_is_of_format_3_and_of_the_size_that_is_said(jpstore):
    sizes = (
        ([], 32768), (["--size", "16M"], 32768), (["--size=80K"], 160), (["--size", "81920"], 160), (["--size", "81921"], 161),
        (["--size", "82432"], 161), (["--size", "+0512K"], 1024), (["--size=1M"], 2048),
    )
    for words, sectors in sizes:
        jpstore.shows("new", jpstore.file, *words, output=made_in_format_3(sectors))
        made = os.stat(jpstore.file)
        if (made.st_size, stat.S_IMODE(made.st_mode)) != (512 * sectors, 0o600) or made.st_blocks < sectors:
            raise Wrong(f"{words}: {made}")
        jpstore.shows("upgrade", jpstore.file, output=upgraded(3, 3))
        os.unlink(jpstore.file)
    # The largest has 2^32 sectors, and there is no room for it here.
    for size in ("2048G", "2199023255552", "2G"):
        jpstore.fails("new", jpstore.file, "--size", size, most_bytes=4096, errors="jpstore: no-space\n")
    jpstore.fails("new", jpstore.file, "--size", "79K", errors="jpstore: small (71)\n")
    if os.path.exists(jpstore.file):
        raise Wrong("a file without a store was left")


def a_new_store_takes_no_other_file_and_has_an_identity(jpstore):
    jpstore.shows("new", "--id", IDENTITY, jpstore.file, "--size=80K", output=made_in_format_3(160))
    before = jpstore.contents()
    jpstore.fails("new", jpstore.file, errors="jpstore: file\n")
    jpstore.fails("new", jpstore.file, "--size", "1M", "--why", errors="jpstore: file\n" + reason("exists", 17, jpstore.file))
    if jpstore.contents() != before:
        raise Wrong("the file that was there was changed")
    drawn = {identity_of(jpstore, jpstore.file)}
    for name in ("new", "other"):
        file = os.path.join(jpstore.folder, name)
        jpstore.run("new", file, "--size=80K")
        drawn.add(identity_of(jpstore, file))
    if IDENTITY not in drawn or len(drawn) != 3 or any(len(identity) != 32 for identity in drawn):
        raise Wrong(f"the identities are {drawn}")


def a_store_in_a_file_is_made_checked_and_served(jpstore):
    file = jpstore.file
    jpstore.shows("format", file, *SIXTEEN, output='{"capacity":3584,"ok":true,"sectors":16}\n')
    jpstore.fails("format", file, *SIXTEEN, errors="jpstore: file\n")
    jpstore.shows("check", file, output=status_line(0, 1, 0, 0))
    jpstore.shows("check", file, output=status_line(0, 2, 0, 0))
    jpstore.shows("serve", file, given=CREATE, output=DONE)
    jpstore.shows("serve", file, given='{"cmd":"get","name":"d","path":""}\n', output='{"ok":true,"value":{"a":1}}\n')
    jpstore.shows("check", file, output=status_line(1, 5, 1, 67))
    if len(jpstore.contents()) != 8192 or not jpstore.contents().startswith(b"JPSTORE1"):
        raise Wrong("the file isn't as the format says")


def an_odd_number_of_sectors_has_the_halves_of_the_even_one_below(jpstore):
    # (N - 1) / 2 whole sectors are a half: 7 of 16, 8 of 17.
    jpstore.shows("format", jpstore.file, "--sectors", "17", output='{"capacity":4096,"ok":true,"sectors":17}\n')


def files_that_cannot_be_made_or_opened(jpstore):
    errors = "jpstore: file\n"
    for words in ("serve", "check"):
        jpstore.fails(words, jpstore.file, given=CREATE, errors=errors)
        jpstore.fails(words, jpstore.folder, given=CREATE, errors=errors)
    jpstore.fails("format", os.path.join(jpstore.file, "f"), *SIXTEEN, errors=errors)
    if os.path.exists(jpstore.file):
        raise Wrong("a file was made")


def reason(cause, errno, path):
    """The line that `--why` adds."""
    return f'{{"cause":"{cause}","errno":{errno},"path":{json.dumps(path)}}}\n'


def why_a_file_is_not_made_or_opened(jpstore):
    missing, inside, new = jpstore.file, os.path.join(jpstore.file, "f"), os.path.join(jpstore.folder, "new")
    for words in (["check"], ["serve"], ["upgrade"]):
        jpstore.fails(*words, missing, "--why", errors="jpstore: file\n" + reason("missing", 2, missing))
        jpstore.fails(*words, jpstore.folder, "--why", errors="jpstore: file\n" + reason("folder", 21, jpstore.folder))
    jpstore.fails("format", inside, *SIXTEEN, "--why", errors="jpstore: file\n" + reason("missing", 2, inside))
    jpstore.fails("copy", missing, new, *SIXTEEN, "--why", errors="jpstore: file\n" + reason("missing", 2, missing))
    jpstore.run("format", jpstore.file, *SIXTEEN)
    jpstore.fails("format", jpstore.file, *SIXTEEN, "--sparse", "--why", errors="jpstore: file\n" + reason("exists", 17, jpstore.file))
    jpstore.fails("format", jpstore.folder, "--why", *SIXTEEN, errors="jpstore: file\n" + reason("exists", 17, jpstore.folder))
    jpstore.fails("check", inside, "--why", errors="jpstore: file\n" + reason("missing", 20, inside))
    jpstore.fails("copy", jpstore.file, inside, *SIXTEEN, "--why", errors="jpstore: file\n" + reason("missing", 20, inside))
    jpstore.fails("copy", jpstore.file, jpstore.folder, *SIXTEEN, "--why", errors="jpstore: file\n" + reason("exists", 17, jpstore.folder))
    long = os.path.join(jpstore.folder, "n" * 300)
    jpstore.fails("check", long, "--why", errors="jpstore: file\n" + reason("other", 36, long))
    odd = os.path.join(jpstore.folder, 'a "b"\n\x1b')
    jpstore.fails("check", odd, "--why", errors="jpstore: file\n" + reason("missing", 2, odd))


def as_nobody(jpstore):
    """The same program for a user who may not read what is root's; for one who isn't root, himself."""
    program, user = for_another(jpstore.program, jpstore.folder)
    return Jpstore(program, jpstore.folder), {} if user is None else {"user": user}


def why_a_user_without_rights_makes_and_opens_no_file(jpstore):
    jpstore.run("format", jpstore.file, *SIXTEEN)
    other, how = as_nobody(jpstore)
    os.chmod(jpstore.file, 0o600 if how else 0)
    new = os.path.join(jpstore.folder, "new")
    for words in (["check"], ["serve", "--batch", "8", "--pump", "1"], ["upgrade", "--format", "2"]):
        other.fails(words[0], jpstore.file, *words[1:], "--why", errors="jpstore: file\n" + reason("denied", 13, jpstore.file), **how)
        other.fails(words[0], jpstore.file, *words[1:], errors="jpstore: file\n", **how)
    other.fails("copy", jpstore.file, new, *SIXTEEN, "--why", errors="jpstore: file\n" + reason("denied", 13, jpstore.file), **how)
    os.chmod(jpstore.folder, 0o555)
    other.fails("format", new, *SIXTEEN, "--why", errors="jpstore: file\n" + reason("denied", 13, new), **how)
    os.chmod(jpstore.folder, 0o755)


def other_faults_are_told_alike_with_and_without_why(jpstore):
    jpstore.run("format", jpstore.file, *SIXTEEN)
    jpstore.put(bytes(8192))
    jpstore.fails("check", jpstore.file, "--why", errors="jpstore: not-a-store (72)\n")
    new = os.path.join(jpstore.folder, "new")
    jpstore.fails("format", new, *SIXTEEN, "--why", most_bytes=4096, errors="jpstore: no-space\n")
    jpstore.shows("format", new, *SIXTEEN, "--why", output='{"capacity":3584,"ok":true,"sectors":16}\n')
    jpstore.shows("check", new, "--why", output=status_line(0, 1, 0, 0))
    ended = jpstore.run("mem", *SIXTEEN, "--why")
    if (ended.returncode, ended.stdout) != (2, ""):
        raise Wrong(f"mem has no file: {ended}")


def the_manual_page_has_each_cause(_jpstore):
    with open(MANUAL) as page:
        shown = re.search(r"^\.Ss Causes\n.*?^\.El\n", page.read(), re.MULTILINE | re.DOTALL)[0]
    if re.findall(r"^\.It Ql ([a-z-]+)$", shown, re.MULTILINE) != CAUSES:
        raise Wrong(f"the page has {shown}")


def mode_of(file):
    return stat.S_IMODE(os.stat(file).st_mode)


def a_new_file_is_its_owners_alone_unless_its_mode_is_given(jpstore):
    for umask, words, mode in ((0, [], 0o600), (0o022, [], 0o600), (0o277, [], 0o400), (0o022, ["--mode", "0640"], 0o640),
                               (0o022, ["--mode=666"], 0o644), (0o077, ["--mode", "0640"], 0o600), (0, ["--mode", "0777"], 0o777)):
        jpstore.shows("format", jpstore.file, *SIXTEEN, *words, umask=umask, output='{"capacity":3584,"ok":true,"sectors":16}\n')
        if mode_of(jpstore.file) != mode:
            raise Wrong(f"{words} under {umask:o} gives {mode_of(jpstore.file):o}")
        os.unlink(jpstore.file)
    for mode in ("", "8", "0o640", "rw", "1000", "-1", "0x10", "06 40"):
        ended = jpstore.run("format", jpstore.file, *SIXTEEN, f"--mode={mode}")
        if (ended.returncode, ended.stdout) != (2, "") or os.path.exists(jpstore.file):
            raise Wrong(f"--mode={mode}: {ended}")


def a_copy_has_the_rights_of_its_source(jpstore):
    jpstore.run("format", jpstore.file, *SIXTEEN)
    new = os.path.join(jpstore.folder, "new")
    for umask, mode in ((0, 0o600), (0o077, 0o640), (0o022, 0o666), (0o777, 0o604)):
        os.chmod(jpstore.file, mode)
        jpstore.run("upgrade", jpstore.file, umask=umask)
        jpstore.run("copy", jpstore.file, new, *SIXTEEN, umask=umask)
        if [mode_of(jpstore.file), mode_of(new)] != [mode, mode]:
            raise Wrong(f"a copy of {mode:o} under {umask:o} has {mode_of(new):o}")
        os.unlink(new)


def a_copy_has_the_owner_and_the_group_that_its_maker_may_give(jpstore):
    if os.geteuid() != 0:
        return
    jpstore.run("format", jpstore.file, *SIXTEEN)
    new = os.path.join(jpstore.folder, "new")
    os.chown(jpstore.file, NOBODY, 12345)
    os.chmod(jpstore.file, 0o664)
    jpstore.run("copy", jpstore.file, new, *SIXTEEN)
    found = os.stat(new)
    if (found.st_uid, found.st_gid, mode_of(new)) != (NOBODY, 12345, 0o664):
        raise Wrong(f"root's copy is {found}")
    os.unlink(new)
    # A group that nobody may not give gets no rights, and nor does his own.
    other, how = as_nobody(jpstore)
    os.chmod(jpstore.folder, 0o777)
    other.run("copy", jpstore.file, new, *SIXTEEN, **how)
    found = os.stat(new)
    if (found.st_uid, found.st_gid, mode_of(new)) != (NOBODY, NOBODY, 0o604):
        raise Wrong(f"nobody's copy is {found}")


def files_that_hold_no_store_or_a_damaged_one(jpstore):
    jpstore.run("format", jpstore.file, *SIXTEEN)
    damaged = bytearray(jpstore.contents())
    damaged[15] = 2
    for contents, errors in (
        (bytes(8192), "jpstore: not-a-store (72)\n"),
        (bytes(1535), "jpstore: not-a-store (72)\n"),
        (bytes(damaged), "jpstore: damaged (73)\n"),
    ):
        for word in ("serve", "check"):
            jpstore.put(contents)
            jpstore.fails(word, jpstore.file, given=CREATE, errors=errors)
            if jpstore.contents() != contents:
                raise Wrong("a refused file was changed")


def a_store_of_format_1_becomes_one_of_format_2(jpstore):
    with open(FORMAT_1, "rb") as file:
        jpstore.put(file.read())
    # Two frames with a seq: 12 + 79 and 12 + 65 bytes, in the other half. The revisions are the seq of the old store.
    jpstore.shows("check", jpstore.file, output=status_line(2, 2, 6, 168, half=1))
    if jpstore.contents()[8:12] != bytes([0, 0, 0, 2]):
        raise Wrong("the commit sector isn't of format 2")
    jpstore.shows(
        "serve",
        jpstore.file,
        given='{"cmd":"list"}\n{"cmd":"get","name":"d","path":""}\n{"cmd":"rev","name":"d"}\n{"cmd":"rev","name":"e"}\n',
        output='{"names":["d","e"],"ok":true}\n{"ok":true,"value":{"a":1,"b":[1,2]}}\n{"ok":true,"rev":6}\n{"ok":true,"rev":6}\n',
    )
    jpstore.shows("check", jpstore.file, output=status_line(2, 4, 6, 168, half=1))


def a_store_of_format_1_without_room_in_format_2_is_refused(jpstore):
    # Three sectors, so halves of 512 bytes: a frame of 512 bytes in format 1 would have 8 more.
    body = b'{"cmd":"create","doc":"%s","name":"e","schema":true}' % (b"x" * 458)
    numbers = (1).to_bytes(4, "big"), bytes(4), *(number.to_bytes(8, "big") for number in (512, 1, 1, 3))
    store = (b"JPSTORE1" + b"".join(numbers)).ljust(512, b"\0") + len(body).to_bytes(4, "big") + body + bytes(512)
    for word in ("serve", "check"):
        jpstore.put(store)
        jpstore.fails(word, jpstore.file, given=CREATE, errors="jpstore: no-room (74)\n")
        if jpstore.contents() != store:
            raise Wrong("a refused file was changed")


def a_store_is_copied_into_a_file_of_another_size(jpstore):
    new = os.path.join(jpstore.folder, "new")
    jpstore.run("format", jpstore.file, *SIXTEEN)
    replies = "".join(f'{{"ok":true,"seq":{seq}}}\n' for seq in (1, 2, 3, 4))
    given = CREATE.replace('"d"', '"e"') + CREATE + '{"cmd":"delete","name":"e"}\n{"cmd":"patch","name":"d","ops":[]}\n'
    jpstore.shows("serve", jpstore.file, given=given, output=replies)
    # The copy has one frame, 12 + 55 bytes, in a half of 15 sectors; the file had 2 x 67, 39 for the deletion, and 47.
    shown = status_line(1, 2, 4, 67).replace("3584", "7680").replace('"sectors":16', '"sectors":32')
    jpstore.shows("copy", jpstore.file, new, "--sectors", "32", output=shown)
    jpstore.shows("check", jpstore.file, output=status_line(1, 3, 4, 220))
    questions = '{"cmd":"list"}\n{"cmd":"rev","name":"d"}\n{"cmd":"get","name":"d","path":""}\n'
    jpstore.shows("serve", new, given=questions, output='{"names":["d"],"ok":true}\n{"ok":true,"rev":4}\n{"ok":true,"value":{"a":1}}\n')
    jpstore.shows("check", new, output=shown.replace('"opens":2', '"opens":4'))
    if os.path.getsize(new) != 32 * 512:
        raise Wrong("the copy has another size")


def copies_that_are_refused_leave_what_was_there(jpstore):
    new, other = os.path.join(jpstore.folder, "new"), os.path.join(jpstore.folder, "other")
    thirty_two = ["--sectors", "32"]
    jpstore.fails("copy", jpstore.file, new, *thirty_two, errors="jpstore: file\n")
    jpstore.run("format", jpstore.file, *SIXTEEN)
    with open(other, "w") as file:
        file.write("other")
    for words in ((jpstore.file, other), (jpstore.file, jpstore.file), (jpstore.file, os.path.join(new, "new"))):
        jpstore.fails("copy", *words, *thirty_two, errors="jpstore: file\n")
    # Its frame has 512 bytes and one more, a half of three sectors 512.
    jpstore.run("serve", jpstore.file, given=CREATE.replace('{"a":1}', f'"{"x" * 451}"'))
    jpstore.fails("copy", jpstore.file, new, "--sectors", "3", errors="jpstore: no-room (74)\n")
    # The reply can't be written: the copy is removed.
    with open("/dev/full", "w") as full:
        jpstore.fails("copy", jpstore.file, new, *thirty_two, stdout=full, errors="jpstore: writer\n")
    jpstore.put(b"")
    jpstore.fails("copy", jpstore.file, new, *thirty_two, errors="jpstore: not-a-store (72)\n")
    if sorted(os.listdir(jpstore.folder)) != ["f", "other"] or open(other).read() != "other":
        raise Wrong("something was left or changed")


def a_store_is_copied_into_either_format(jpstore):
    new, third, fourth = (os.path.join(jpstore.folder, name) for name in ("new", "third", "fourth"))
    jpstore.run("format", jpstore.file, *SIXTEEN)
    jpstore.run("serve", jpstore.file, given=CREATE + '{"cmd":"patch","name":"d","ops":[]}\n')
    jpstore.fails("copy", jpstore.file, new, "--sectors", "159", "--format", "3", errors="jpstore: small (71)\n")
    if os.path.exists(new):
        raise Wrong("a file without a store was left")
    jpstore.shows("copy", jpstore.file, new, *BOTH, "--format", "3", "--id", IDENTITY, output=status_line(1, 3, 2, 67, sectors=300, version=3))
    questions = '{"cmd":"rev","name":"d"}\n{"cmd":"get","name":"d","path":""}\n'
    jpstore.shows("serve", new, given=questions, output='{"ok":true,"rev":2}\n{"ok":true,"value":{"a":1}}\n')
    jpstore.shows("upgrade", new, output=upgraded(3, 3))
    # And back, from that of format 3.
    jpstore.shows("copy", new, third, *SIXTEEN, "--format=2", output=status_line(1, 6, 2, 67))
    jpstore.shows("upgrade", third, "--format", "2", output=upgraded(2, 2))
    # Without the option it is that of the store.
    jpstore.shows("copy", new, fourth, *BOTH, "--id", OTHER, output=status_line(1, 7, 2, 67, sectors=300, version=3, identity=OTHER))
    jpstore.shows("upgrade", fourth, output=upgraded(3, 3))
    jpstore.fails("copy", new, jpstore.file + "5", *SIXTEEN, errors="jpstore: small (71)\n")


def identity_of(jpstore, file):
    return json.loads(jpstore.run("serve", file, given='{"cmd":"status"}\n').stdout).get("id")


def a_store_of_format_3_keeps_its_identity(jpstore):
    """Through changes, snapshots and openings; a copy and an upgrade get another one, and format 2 has none."""
    new, third = os.path.join(jpstore.folder, "new"), os.path.join(jpstore.folder, "third")
    jpstore.run("format", jpstore.file, *BOTH, "--format", "3", "--id", IDENTITY)
    for given in (CREATE, '{"cmd":"snapshot"}\n', '{"cmd":"patch","name":"d","ops":[]}\n{"cmd":"pump","max":9}\n', '{"cmd":"seal"}\n'):
        jpstore.run("serve", jpstore.file, given=given)
        if identity_of(jpstore, jpstore.file) != IDENTITY:
            raise Wrong(f"another identity after {given}")
    jpstore.run("upgrade", jpstore.file, "--id", OTHER)
    if identity_of(jpstore, jpstore.file) != IDENTITY:
        raise Wrong("an upgrade that had nothing to do changed the identity")
    drawn = set()
    for name in (new, third):
        jpstore.run("copy", jpstore.file, name, *BOTH, "--format", "3")
        drawn.add(identity_of(jpstore, name))
    if len(drawn | {IDENTITY, None}) != 4 or any(len(identity) != 32 for identity in drawn):
        raise Wrong(f"the copies have {drawn}")
    for words, identity in ((["--format", "2"], None), (["--id", OTHER], OTHER), (["--format", "2", "--id", IDENTITY], None)):
        jpstore.run("upgrade", jpstore.file, *words)
        if identity_of(jpstore, jpstore.file) != identity:
            raise Wrong(f"another identity after an upgrade by {words}")


def a_store_in_use_is_not_copied(jpstore):
    new = os.path.join(jpstore.folder, "new")
    jpstore.run("format", jpstore.file, *SIXTEEN)
    with subprocess.Popen([jpstore.program, "serve", jpstore.file], stdin=subprocess.PIPE, stdout=subprocess.PIPE) as served:
        served.stdin.write(CREATE.encode())
        served.stdin.flush()
        served.stdout.readline()
        jpstore.fails("copy", jpstore.file, new, "--sectors", "32", errors="jpstore: in-use\n")
        served.stdin.close()
    if os.path.exists(new):
        raise Wrong("a copy was made")


def blocks_of(file):
    """The bytes of a file that are on the disk."""
    return os.stat(file).st_blocks * 512


def a_new_file_has_all_its_blocks_unless_it_is_sparse(jpstore):
    # 1,000,448 bytes: fifteen pieces of 65,536 and a shorter one.
    sectors, length = ["--sectors", "1954"], 1954 * 512
    new = os.path.join(jpstore.folder, "new")
    jpstore.run("format", new, *sectors, "--sparse")
    if os.path.getsize(new) != length or blocks_of(new) > length // 2:
        raise Wrong(f"a sparse file has {os.path.getsize(new)} bytes, {blocks_of(new)} of them on the disk")
    with open(new, "rb") as file:
        sparse = file.read()
    os.remove(new)
    jpstore.run("format", jpstore.file, *sectors)
    if jpstore.contents() != sparse or any(sparse[512:]):
        raise Wrong("a new file has other bytes")
    jpstore.run("copy", jpstore.file, new, *sectors)
    for file in (jpstore.file, new):
        if os.path.getsize(file) != length or blocks_of(file) < length:
            raise Wrong(f"{file} has {os.path.getsize(file)} bytes, {blocks_of(file)} of them on the disk")


def a_new_file_without_room_is_not_made(jpstore):
    new = os.path.join(jpstore.folder, "new")
    jpstore.run("format", jpstore.file, *SIXTEEN)
    for words in (["format", new], ["format", new, "--sparse"], ["copy", jpstore.file, new]):
        jpstore.fails(*words, "--sectors", "4096", most_bytes=1 << 20, errors="jpstore: no-space\n")
        if os.path.exists(new):
            raise Wrong(f"{' '.join(words)} left a file")


def a_new_file_on_a_full_disk_is_not_made(jpstore):
    """A disk of 64 KiB, in a mount namespace of the test's own; if the system offers none, nothing is tried."""
    disk = os.path.join(jpstore.folder, "disk")
    os.mkdir(disk)
    script = 'mount -t tmpfs -o size=64k none "$1" || exit 77; cd "$1" && "$2" format f --sectors 4096; echo $? $(ls)'
    apart = subprocess.run(["unshare", "-Urm", "sh", "-c", script, "sh", disk, jpstore.program], stdout=subprocess.PIPE, stderr=subprocess.PIPE,
                           text=True, check=False)
    if apart.returncode == 0 and (apart.stdout, apart.stderr) != ("1\n", "jpstore: no-space\n"):
        raise Wrong(f"on a full disk: {apart}")


def upgraded(now, before):
    return f'{{"format":{now},"from":{before},"ok":true}}\n'


def a_store_is_brought_to_format_3_and_back(jpstore):
    jpstore.run("format", jpstore.file, *BOTH)
    # A document over two sectors, and a small change after it.
    large = CREATE.replace('"d"', '"e"').replace('{"a":1}', f'"{"x" * 600}"')
    jpstore.run("serve", jpstore.file, given=CREATE + large + '{"cmd":"patch","name":"d","ops":[]}\n')
    questions = '{"cmd":"list"}\n{"cmd":"rev","name":"d"}\n{"cmd":"rev","name":"e"}\n{"cmd":"get","name":"d","path":""}\n'
    answers = '{"names":["d","e"],"ok":true}\n{"ok":true,"rev":3}\n{"ok":true,"rev":2}\n{"ok":true,"value":{"a":1}}\n'
    for words, now, before in (([], 3, 2), (["--format", "3"], 3, 3), (["--format=2"], 2, 3), (["--format", "2"], 2, 2)):
        jpstore.shows("upgrade", jpstore.file, *words, output=upgraded(now, before))
        # In format 2 none of the four slots of format 3 is left, of which the first begins with the commit sector.
        begins = [jpstore.contents()[at * 512:at * 512 + 12] for at in SLOTS]
        commit = b"JPSTORE1" + bytes([0, 0, 0, now])
        if begins != ([commit] * 4 if now == 3 else [commit] + [bytes(12)] * 3):
            raise Wrong(f"the commit sectors aren't of format {now}")
        jpstore.shows("serve", jpstore.file, given=questions, output=answers)
    # The opening of the first session, of four upgrades, of four sessions and of this. On the way back it was written anew: 67 and 662 bytes.
    jpstore.shows("check", jpstore.file, output=status_line(2, 10, 3, 729, half=1, sectors=300))


def a_store_of_format_1_is_brought_to_format_3(jpstore):
    with open(FORMAT_1, "rb") as file:
        small = file.read()
    # Both formats have no room in 16 sectors: it is opened and brought to format 2, and stays there.
    jpstore.put(small)
    jpstore.fails("upgrade", jpstore.file, errors="jpstore: no-room (74)\n")
    jpstore.shows("check", jpstore.file, output=status_line(2, 3, 6, 168, half=1))
    os.unlink(jpstore.file)
    # The same bytes are a store of 300 sectors, if it says so: half 0 is in force.
    jpstore.put(small[:40] + (300).to_bytes(8, "big") + small[48:] + bytes((300 - 16) * 512))
    jpstore.shows("upgrade", jpstore.file, "--id", IDENTITY.upper(), output=upgraded(3, 2))
    jpstore.shows("check", jpstore.file, output=status_line(2, 3, 6, 168, half=0, sectors=300, version=3, slots="whole"))


def damaged_slots(image, slots):
    """The image with other bytes in the first sectors of these slots."""
    made = bytearray(image)
    for slot in slots:
        made[slot * 512 + 20:slot * 512 + 500] = bytes(255 - byte for byte in made[slot * 512 + 20:slot * 512 + 500])
    return bytes(made)


def what_the_slots_say_is_told(jpstore):
    """Of each number of damaged slots: what is said, what is there, and how many openings it takes until all is whole."""
    jpstore.run("format", jpstore.file, *BOTH, "--format", "3", "--id", IDENTITY)
    jpstore.shows("serve", jpstore.file, given=CREATE, output=DONE)
    jpstore.serves_until_killed('{"cmd":"delete","name":"d"}\n', '{"ok":true,"seq":2}\n')
    image = jpstore.contents()
    # It was killed, since the end of `serve` seals. The frames have 67 and 39 bytes, and the store was opened twice. Bytes 16 to 23 of a slot are the number of its commit. The last is that of the deletion, the one before it of the opening.
    numbers = {slot: int.from_bytes(image[slot * 512 + 16:slot * 512 + 24], "big") for slot in SLOTS}
    last = [slot for slot in SLOTS if numbers[slot] == max(numbers.values())]
    first = [slot for slot in SLOTS if slot not in last]
    for damaged, word, documents, seq, used, opens in (
        ([], "whole", 0, 2, 106, 1), (last[:1], "mended", 0, 2, 106, 1), (last[1:], "mended", 0, 2, 106, 1), (first[:1], "whole", 0, 2, 106, 1),
        (first, "cut-off", 0, 2, 106, 1), (last, "cut-off", 1, 1, 67, 1), ([*first, last[0]], "cut-off", 0, 2, 106, 2), ([*last, first[0]], "cut-off", 1, 1, 67, 2),
    ):
        found = {"sectors": 300, "version": 3, "slots": word}
        said = "" if word == "whole" else f'{{"slots":"{word}"}}\n'
        jpstore.put(damaged_slots(image, damaged))
        names = '["d"]' if documents else "[]"
        jpstore.shows("serve", jpstore.file, given='{"cmd":"list"}\n', output=f'{{"names":{names},"ok":true}}\n', errors=said)
        for strict in (["check"], ["serve"]):
            jpstore.put(damaged_slots(image, damaged))
            if word != "cut-off":
                jpstore.run(*strict, jpstore.file, "--strict")
                continue
            # It is refused, and no byte is written.
            jpstore.fails(*strict, jpstore.file, "--strict", given=CREATE, errors="jpstore: cut-off (75)\n")
            if jpstore.contents() != damaged_slots(image, damaged):
                raise Wrong(f"{strict[0]} --strict changed the file")
        for words, slots in ((["check"], word), (["repair"], word)):
            jpstore.put(damaged_slots(image, damaged))
            jpstore.shows(*words, jpstore.file, output=status_line(documents, 3, seq, used, **{**found, "slots": slots}))
            if opens == 2:
                jpstore.run("repair", jpstore.file)
            jpstore.shows("check", jpstore.file, "--strict", output=status_line(documents, 3 + opens, seq, used, **{**found, "slots": "whole"}))


def formats_1_and_2_have_no_slots(jpstore):
    jpstore.run("format", jpstore.file, *SIXTEEN)
    for opens, words in enumerate((["check"], ["check", "--strict"], ["repair"]), 1):
        jpstore.shows(words[0], jpstore.file, *words[1:], output=status_line(0, opens, 0, 0))
    jpstore.shows("serve", jpstore.file, "--strict", given=CREATE, output=DONE)
    jpstore.fails("repair", os.path.join(jpstore.folder, "none"), errors="jpstore: file\n")


# Schemas with the numbers by which a document that is the text `a` is refused under them in format 2 and in format 3, by PROTOCOL.md;
# 0: it isn't.
PROFILES = [
    ({"pattern": "^a$"}, 41, 0), ({"pattern": "b"}, 41, 45), ({"pattern": "("}, 41, 40), ({"pattern": 5}, 41, 40), ({"pattern": "^(?=a)"}, 41, 40),
    ({"pattern": "a" * 4096}, 41, 45), ({"pattern": "a" * 4097}, 41, 44), ({"pattern": "\u00e9" * 2049}, 41, 44),
    ({"allOf": [{"pattern": "a"}] * 64}, 41, 0), ({"allOf": [{"pattern": "a"}] * 65}, 41, 44), ({"pattern": "((a{100}){100}){100}"}, 41, 44),
    ({"pattern": r"^\w{1,255}$", "items": {"pattern": "("}}, 41, 40), ({"pattern": r"^\w{1,255}$", "not": {"$ref": "x"}}, 41, 42),
    ({"pattern": r"^\w{1,255}$", "$ref": "#"}, 41, 43), ({"pattern": r"^\w{1,255}$", "maxLength": 0}, 41, 44),
    ({"pattern": "(", "minLength": -1}, 40, 40), ({"pattern": "(", "$ref": "x"}, 41, 40), ({"pattern": "a", "$ref": "x"}, 41, 42),
    ({"dependentSchemas": {"b": False}}, 41, 0), ({"dependentSchemas": {"b": 5}}, 41, 40), ({"dependentSchemas": []}, 41, 40),
    ({"dependentSchemas": {"b": {"pattern": "("}}}, 41, 40), ({"dependentSchemas": {"b": {"$ref": "#"}}}, 41, 43),
    ({"default": {"pattern": "("}, "enum": ["a"]}, 0, 0), ({"properties": {"pattern": {"maxLength": 0}}}, 0, 0),
    ({"patternProperties": {}}, 41, 0), ({"patternProperties": {"(": True}}, 41, 40), ({"patternProperties": {"a": 5}}, 41, 40),
    ({"patternProperties": []}, 41, 40), ({"patternProperties": {"a": {"$ref": "x"}}}, 41, 42), ({"patternProperties": {"a": {"$ref": "#"}}}, 41, 0),
    ({"patternProperties": {"a" * 4096: True}}, 41, 0), ({"patternProperties": {"a" * 4097: True}}, 41, 44),
    ({"patternProperties": {f"a{number}": True for number in range(64)}}, 41, 0),
    ({"patternProperties": {f"a{number}": True for number in range(64)}, "pattern": "a"}, 41, 44),
    ({"type": "object", "patternProperties": {"a": True}}, 41, 45), ({"unevaluatedItems": False}, 41, 41), ({"$anchor": "a"}, 41, 0),
    ({"$anchor": "1"}, 41, 40), ({"$anchor": 1}, 41, 40), ({"items": {"$anchor": "a"}, "not": {"$anchor": "a", "type": "null"}}, 41, 40),
    ({"$ref": "#a", "not": {"$anchor": "a", "type": "null"}}, 41, 45), ({"$id": "x", "$ref": "x#%61", "$defs": {"b": {"$anchor": "a"}}}, 41, 0),
    ({"$id": "x#", "$ref": "x#/not", "not": {"type": "null"}}, 42, 45), ({"$id": "x#", "not": {"$ref": "x##/items"}, "items": True}, 42, 42),
    ({"$anchor": "a", "$ref": "#a"}, 41, 43), ({"$ref": "#a", "default": {"$anchor": "a"}}, 42, 42), ({"$anchor": "a", "const": "a"}, 41, 0),
    ({"$ref": "#/allOf/0", "allOf": [True]}, 42, 0), ({"$ref": "#/allOf/00", "allOf": [True]}, 42, 42),
    ({"$ref": "#/properties/b~1%25", "properties": {"b/%": False}}, 42, 45), ({"$ref": "#/not/%ff", "not": False}, 42, 42),
    ({"$id": "x", "items": {"$ref": "x#/not"}, "not": False}, 42, 0), ({"$id": "x", "items": {"$ref": "x"}}, 42, 0), ({"$ref": ""}, 42, 43),
    ({"$ref": "#/%24defs/%", "$defs": {"%": False}}, 42, 45), ({"$ref": "#/default", "default": {}}, 42, 42),
    ({"$ref": "#/properties", "properties": {}}, 42, 42), ({"$ref": "#/not/~2", "not": False}, 42, 42),
    ({"allOf": [{"$ref": "#/allOf/1"}, {"$ref": "#/allOf/0"}]}, 42, 43), ({"$ref": "#/pattern"}, 42, 42), ({"$ref": "#a"}, 42, 42),
    ({"items": {"$id": "a"}}, 41, 41), ({"title": "x" * 262131}, 0, 0), ({"title": "x" * 262132, "pattern": "("}, 44, 44),
]


def compact(value):
    return json.dumps(value, separators=(",", ":"), ensure_ascii=False)


def formats_read_their_keywords(jpstore):
    lines = [compact({"cmd": "create", "doc": "a", "name": f"d{place}", "schema": schema}) for place, (schema, _, _) in enumerate(PROFILES)]
    for version in (2, 3):
        jpstore.run("format", jpstore.file, "--sectors", "16384", "--format", str(version))
        # Opened again, the store has those that were accepted.
        for number_of in (lambda number: number, lambda number: number or 20):
            replies = [json.loads(line) for line in jpstore.run("serve", jpstore.file, given="\n".join(lines)).stdout.splitlines()]
            for (schema, *numbers), reply in zip(PROFILES, replies):
                if reply.get("number", 0) != number_of(numbers[version - 2]):
                    raise Wrong(f"format {version}, {compact(schema)[:200]}: {reply}")
        os.unlink(jpstore.file)


# Patterns whose tables take more room than those of a schema may.
LARGE_PATTERNS = [r"^\w{1,255}$", r"^\p{L}{1,100}$", r"^[\w.-]{1,64}@[\w.-]{1,255}$"]


def lines_with_large_patterns():
    """Lines among which some bring patterns that are too large, each with what it is answered if it comes alone."""
    seq = 0
    for place, pattern in enumerate(LARGE_PATTERNS * 8):
        schema = [{"pattern": pattern}, {"patternProperties": {pattern: True}}, {"items": {"pattern": "a"}, "not": {"pattern": pattern}}][place % 3]
        good, heavy = ({"cmd": "create", "doc": {"a": place}, "name": f"{word}{place}", "schema": rules} for word, rules in (("d", True), ("h", schema)))
        seq += 1
        yield good, {"ok": True, "seq": seq}
        large = {"error": "schema-size", "number": 44, "ok": False}
        yield heavy, large
        yield {"cmd": "schema", "name": f"d{place}", "schema": schema}, large
        yield {"changes": [{"cmd": "delete", "name": f"d{place}"}, heavy], "cmd": "transaction"}, {"change": 1, **large}
        # What stands before the schema is told before it.
        yield {**heavy, "name": f"d{place}"}, {"error": "exists", "number": 20, "ok": False}


def patterns_that_are_too_large_are_refused_alone(jpstore):
    lines, wanted = zip(*lines_with_large_patterns())
    given = "\n".join(map(compact, lines))
    for words in ([], ["--batch", "64"]):
        jpstore.run("format", jpstore.file, "--sectors", "4096", "--format", "3")
        replies = [json.loads(line) for line in jpstore.run("serve", jpstore.file, *words, given=given).stdout.splitlines()]
        for line, reply, asked in zip(lines, replies, wanted, strict=True):
            if reply != asked:
                raise Wrong(f"{words}, {compact(line)}: {reply}")
        # What was stored is there after another opening, and nothing else.
        jpstore.shows("serve", jpstore.file, given='{"cmd":"list"}\n', output=compact({"names": [f"d{place}" for place in range(len(LARGE_PATTERNS) * 8)], "ok": True}) + "\n")
        os.unlink(jpstore.file)


def a_schema_of_profile_3_stays_in_format_3(jpstore):
    keyword, reference = '{"error":"schema-keyword","number":41,"ok":false}\n', '{"error":"schema-ref","number":42,"ok":false}\n'
    for schema in ('{"dependentSchemas":{"a":{"maxProperties":1}}}', '{"pattern":"^a"}', '{"patternProperties":{"^a":true}}', '{"$anchor":"a"}'):
        stays_in_format_3(jpstore, schema, keyword)
        os.unlink(jpstore.file)
    stays_in_format_3(jpstore, '{"items":{"$ref":"#/not"},"not":false}', reference)


def stays_in_format_3(jpstore, schema, refusal):
    """The refusal is that of a store of format 2."""
    new = os.path.join(jpstore.folder, "new")
    newer = CREATE.replace("true", schema)
    jpstore.run("format", jpstore.file, *BOTH)
    jpstore.shows("serve", jpstore.file, given=newer, output=refusal)
    jpstore.shows("upgrade", jpstore.file, output=upgraded(3, 2))
    jpstore.shows("serve", jpstore.file, given=newer, output=DONE)
    jpstore.fails("upgrade", jpstore.file, "--format", "2", errors="jpstore: newer-schema (76)\n")
    jpstore.fails("copy", jpstore.file, new, *SIXTEEN, "--format", "2", errors="jpstore: newer-schema (76)\n")
    if os.path.exists(new) or jpstore.contents()[8:12] != bytes([0, 0, 0, 3]):
        raise Wrong("a store that can't be brought back, or copied, was changed")
    # In format 3 it is copied.
    jpstore.run("copy", jpstore.file, new, *BOTH)
    jpstore.shows("serve", new, given='{"cmd":"get-schema","name":"d"}\n', output=f'{{"ok":true,"value":{schema}}}\n')
    os.unlink(new)
    # Without that schema it goes back.
    jpstore.shows("serve", jpstore.file, given='{"cmd":"schema","name":"d","schema":true}\n', output='{"ok":true,"seq":2}\n')
    jpstore.shows("upgrade", jpstore.file, "--format", "2", output=upgraded(2, 3))


# A change of d, and questions of the mark of k.
PATCH = '{"cmd":"patch","name":"d","ops":[]}\n'
MARK_OF_K = '{"cmd":"mark","key":"k"}\n'
NO_MARK = '{"mark":null,"ok":true}\n'
NO_COMMAND, NO_NAME = '{"error":"command","number":14,"ok":false}\n', '{"error":"name","number":15,"ok":false}\n'


def with_mark(line, value, key="k", **asked):
    """The line of changes with a mark, and with what it asks of the mark before."""
    return compact({**json.loads(line), "mark": {"key": key, "value": value}, **asked}) + "\n"


def done(seq):
    return f'{{"ok":true,"seq":{seq}}}\n'


def mark(value, seq):
    return f'{{"mark":"{value}","ok":true,"seq":{seq}}}\n'


def other_mark(value, seq):
    return f'{{"error":"mark","mark":"{value}","number":25,"ok":false,"seq":{seq}}}\n'


# What a store of format 3 answers to changes with marks, from its beginning.
MARKED = [
    (MARK_OF_K, NO_MARK),
    # Another mark is asked for, and then none.
    (with_mark(CREATE, "a", if_mark="b"), '{"error":"mark","mark":null,"number":25,"ok":false}\n'),
    (with_mark(CREATE, "a", if_mark=None), done(1)),
    (MARK_OF_K, mark("a", 1)),
    (with_mark(PATCH, "b", if_mark=None), other_mark("a", 1)),
    (with_mark(PATCH, "b", if_mark="b"), other_mark("a", 1)),
    # The change is refused, and so the mark stays.
    (with_mark('{"cmd":"delete","name":"e"}', "b", if_mark="a"), '{"error":"no-document","number":21,"ok":false}\n'),
    (MARK_OF_K, mark("a", 1)),
    # The mark of a transaction has the number of its last change.
    (with_mark('{"changes":[{"cmd":"create","doc":1,"name":"e","schema":true},{"cmd":"delete","name":"e"}],"cmd":"transaction"}', "b", if_mark="a"), done(3)),
    (with_mark('{"changes":[{"cmd":"delete","name":"d"},{"cmd":"delete","name":"e"}],"cmd":"transaction"}', "c"),
     '{"change":1,"error":"no-document","number":21,"ok":false}\n'),
    (MARK_OF_K, mark("b", 3)),
    (with_mark('{"cmd":"patch","if_rev":1,"name":"d","ops":[]}', "", key="l"), done(4)),
    (with_mark('{"cmd":"schema","name":"d","schema":true}', "\t\"", if_mark="b"), done(5)),
    (MARK_OF_K, '{"mark":"\\t\\"","ok":true,"seq":5}\n'),
    ('{"cmd":"mark","key":"l"}\n', mark("", 4)),
    # Its key, then its length, then the mark before, and then the row.
    (with_mark('{"cmd":"delete","name":"e"}', "x" * 129, key="k k", if_mark="a"), NO_NAME),
    (with_mark('{"cmd":"delete","name":"e"}', "x" * 129, if_mark="a"), NO_COMMAND),
    (with_mark('{"cmd":"delete","name":"e"}', "x" * 128, if_mark="a"), '{"error":"mark","mark":"\\t\\"","number":25,"ok":false,"seq":5}\n'),
    (with_mark(PATCH, "x" * 128), done(6)),
    ('{"cmd":"mark","key":"k k"}\n', NO_NAME),
    # Lines of other forms.
    (PATCH.replace("}", ',"if_mark":"a"}'), NO_COMMAND),
    (PATCH.replace("}", ',"mark":"a"}'), NO_COMMAND),
    (PATCH.replace("}", ',"mark":{"key":"k"}}'), NO_COMMAND),
    (PATCH.replace("}", ',"mark":{"key":"k","value":1}}'), NO_COMMAND),
    (PATCH.replace("}", ',"mark":{"key":"k","seq":1,"value":"a"}}'), NO_COMMAND),
    (with_mark(PATCH, "a", if_mark=1), NO_COMMAND),
    (with_mark('{"cmd":"list"}', "a"), NO_COMMAND),
    ('{"changes":[' + with_mark(PATCH, "a").strip() + '],"cmd":"transaction"}\n', NO_COMMAND),
    ('{"cmd":"mark"}\n', NO_COMMAND),
    ('{"cmd":"mark","key":"k","name":"d"}\n', NO_COMMAND),
]


def a_mark_is_set_with_its_changes_or_not_at_all(jpstore):
    lines, replies = "".join(line for line, _ in MARKED), "".join(reply for _, reply in MARKED)
    jpstore.run("format", jpstore.file, *BOTH, "--format", "3")
    jpstore.shows("serve", jpstore.file, given=lines, output=replies)


def a_mark_stays_in_format_3(jpstore):
    new = os.path.join(jpstore.folder, "new")
    jpstore.run("format", jpstore.file, *BOTH, "--format", "3")
    jpstore.serves_until_killed(with_mark(CREATE, "a"), done(1))
    # The document takes 67 bytes, and the mark 63.
    jpstore.shows("serve", jpstore.file, given=MARK_OF_K + '{"cmd":"snapshot"}\n' + MARK_OF_K, output=mark("a", 1) + '{"ok":true,"used":130}\n' + mark("a", 1))
    jpstore.shows("serve", jpstore.file, given=MARK_OF_K + with_mark(PATCH, "b", if_mark="a"), output=mark("a", 1) + done(2))
    # By a copied snapshot too.
    pump = '{"cmd":"pump","max":1000000}\n'
    ended = jpstore.run("serve", jpstore.file, given=pump)
    if '"switched"' not in ended.stdout:
        raise Wrong(f"no snapshot was copied: {ended.stdout}")
    jpstore.shows("serve", jpstore.file, given=MARK_OF_K, output=mark("b", 2))
    for words, answer in (([], mark("b", 2)), (["--format", "3"], mark("b", 2)), (["--format", "2"], NO_MARK)):
        jpstore.run("copy", jpstore.file, new, *BOTH, *words)
        jpstore.shows("serve", new, given=MARK_OF_K, output=answer)
        os.unlink(new)
    for version, answer in (("3", mark("b", 2)), ("2", NO_MARK), ("3", NO_MARK)):
        jpstore.run("upgrade", jpstore.file, "--format", version)
        jpstore.shows("serve", jpstore.file, given=MARK_OF_K, output=answer)


def format_2_has_no_marks(jpstore):
    jpstore.run("format", jpstore.file, *BOTH)
    given = with_mark(CREATE, "a", key="k k", if_mark="b") + CREATE + with_mark(PATCH, "a") + MARK_OF_K + '{"cmd":"mark","key":"k k"}\n'
    jpstore.shows("serve", jpstore.file, given=given, output=NO_COMMAND + DONE + NO_COMMAND + NO_MARK + NO_NAME)


def a_refused_mark_has_that_which_its_batch_left(jpstore):
    given = with_mark(CREATE, "a") + with_mark(PATCH, "b", if_mark="x") + with_mark(PATCH, "c", if_mark="a") + MARK_OF_K
    for words, told in (([], other_mark("a", 1)), (["--batch", "8"], other_mark("c", 2))):
        jpstore.run("format", jpstore.file, *BOTH, "--format", "3")
        jpstore.shows("serve", jpstore.file, *words, given=given, output=DONE + told + done(2) + mark("c", 2))
        os.unlink(jpstore.file)


# Transactions, and how the line `changes` tells each: a change, one with a mark, and two together.
FOLLOWED = [
    (CREATE, done(1), '{"changes":[{"cmd":"create","doc":{"a":1},"name":"d","schema":true}],"first":1,"last":1}'),
    (with_mark(PATCH, "\t\""), done(2),
     '{"changes":[{"cmd":"patch","name":"d","ops":[]}],"first":2,"last":2,"mark":{"key":"k","value":"\\t\\""}}'),
    ('{"cmd":"transaction","changes":[{"schema":true,"doc":"\\u00e9","cmd":"create","name":"e"},{"name":"e","cmd":"delete"}]}\n', done(4),
     '{"changes":[{"cmd":"create","doc":"\u00e9","name":"e","schema":true},{"cmd":"delete","name":"e"}],"first":3,"last":4}'),
]
FOLLOWED_LINES, FOLLOWED_REPLIES = "".join(line for line, _, _ in FOLLOWED), "".join(reply for _, reply, _ in FOLLOWED)


def changes(after, most=4_194_304):
    return f'{{"cmd":"changes","from":{after},"max":{most}}}\n'


def told(first, last, seq, identity=IDENTITY):
    """The reply that tells these of FOLLOWED."""
    shown = ",".join(transaction for _, _, transaction in FOLLOWED[first:last])
    named = f'"identity":"{identity}",' if identity else ""
    return f'{{"changes":[{shown}],{named}"ok":true,"seq":{seq}}}\n'


def gone(floor, seq):
    return f'{{"from":{floor},"gone":true,"ok":true,"seq":{seq}}}\n'


def the_changes_after_one_are_told_whole(jpstore):
    jpstore.run("format", jpstore.file, *BOTH, "--format", "3", "--id", IDENTITY)
    refused = '{"cmd":"delete","name":"f"}\n'
    given = changes(0) + FOLLOWED_LINES + refused + "".join(map(changes, range(6)))
    wanted = told(0, 0, 0) + FOLLOWED_REPLIES + '{"error":"no-document","number":21,"ok":false}\n'
    wanted += told(0, 3, 4) + told(1, 3, 4) + told(2, 3, 4) + gone(0, 4) + told(3, 3, 4) + gone(0, 4)
    jpstore.shows("serve", jpstore.file, given=given, output=wanted)
    # An opening knows them again: the first has 67 bytes, and the second 113.
    jpstore.shows("serve", jpstore.file, given=changes(0, 1) + changes(0, 179) + changes(0, 180) + changes(2, 1), output=told(0, 1, 4) * 2 + told(0, 2, 4) + told(2, 3, 4))
    # A snapshot forgets none, but is all that the next opening knows.
    jpstore.shows("serve", jpstore.file, given='{"cmd":"snapshot"}\n' + changes(0), output='{"ok":true,"used":133}\n' + told(0, 3, 4))
    jpstore.shows("serve", jpstore.file, given=changes(0) + changes(4) + changes(5), output=gone(4, 4) + told(3, 3, 4) + gone(4, 4))


def the_changes_of_a_killed_program_are_told(jpstore):
    jpstore.run("format", jpstore.file, *BOTH, "--format", "3", "--id", IDENTITY)
    jpstore.serves_until_killed(FOLLOWED_LINES, FOLLOWED_REPLIES)
    jpstore.shows("serve", jpstore.file, "--batch", "8", given=changes(1), output=told(1, 3, 4))


def a_history_has_the_bytes_that_were_asked_for(jpstore):
    jpstore.run("format", jpstore.file, *BOTH, "--format", "3", "--id", IDENTITY)
    jpstore.shows("serve", jpstore.file, "--history", "0", given=FOLLOWED_LINES + changes(2) + changes(4), output=FOLLOWED_REPLIES + gone(4, 4) + told(3, 3, 4))
    jpstore.shows("serve", jpstore.file, "--history", "0", given=changes(0), output=gone(4, 4))
    # The last transaction has 103 bytes.
    jpstore.shows("serve", jpstore.file, "--history", "103", given=changes(0) + changes(2), output=gone(2, 4) + told(2, 3, 4))
    jpstore.shows("serve", jpstore.file, "--history", "102", given=changes(2), output=gone(4, 4))
    jpstore.shows("mem", "--sectors", "16", "--history", "66", given=CREATE + changes(0), output=DONE + gone(1, 1))
    jpstore.shows("mem", "--sectors", "16", "--history", "67", given=CREATE + changes(0), output=DONE + told(0, 1, 1, None))


def a_store_of_format_2_tells_what_it_did_since_it_was_opened(jpstore):
    jpstore.run("format", jpstore.file, *BOTH)
    jpstore.shows("serve", jpstore.file, given=CREATE + changes(0), output=DONE + told(0, 1, 1, None))
    jpstore.shows("serve", jpstore.file, given=changes(0) + changes(1), output=gone(1, 1) + told(0, 0, 1, None))


def lines_that_ask_for_no_changes(jpstore):
    lines = [changes(0, 0), changes(0, 4_194_305), changes(-1), changes('"0"'), '{"cmd":"changes","from":0}\n', '{"cmd":"changes","max":1}\n', changes(0).replace("}", ',"name":"d"}')]
    jpstore.shows("mem", "--sectors", "16", given="".join(lines), output=NO_COMMAND * len(lines))


def upgrades_that_fail(jpstore):
    jpstore.fails("upgrade", jpstore.file, errors="jpstore: file\n")
    jpstore.run("format", jpstore.file, *BOTH)
    with subprocess.Popen([jpstore.program, "serve", jpstore.file], stdin=subprocess.PIPE, stdout=subprocess.PIPE) as served:
        served.stdin.write(CREATE.encode())
        served.stdin.flush()
        served.stdout.readline()
        jpstore.fails("upgrade", jpstore.file, errors="jpstore: in-use\n")
        served.stdin.close()
    jpstore.fails("upgrade", jpstore.file, most_bytes=0, errors="jpstore: device (61)\n")
    # The store is brought there before that can be said.
    with open("/dev/full", "w") as full:
        jpstore.fails("upgrade", jpstore.file, stdout=full, errors="jpstore: writer\n")
    jpstore.shows("upgrade", jpstore.file, output=upgraded(3, 3))
    jpstore.put(bytes(8192))
    jpstore.fails("upgrade", jpstore.file, errors="jpstore: not-a-store (72)\n")


def one_patch_keeps_no_more_than_three_documents(jpstore):
    # Each copy replaces 15,000 small objects, which need some 14 MB. A hundred of them would need 1,400.
    copies = ",".join(['{"from":"/a","op":"copy","path":"/b"}'] * 100)
    elements = ",".join(['{"c":1}'] * 15_000)
    lines = f'{{"cmd":"create","doc":{{"a":[{elements}],"b":0}},"name":"d","schema":true}}\n{{"cmd":"patch","name":"d","ops":[{copies}]}}\n'
    jpstore.shows("mem", "--sectors", "65536", given=lines, most_memory=600 << 20, output=DONE + '{"ok":true,"seq":2}\n')


def output_that_cannot_be_written(jpstore):
    with open("/dev/full", "w") as full:
        for words in (
            ["format", jpstore.file, *SIXTEEN],
            ["check", jpstore.file],
            ["serve", jpstore.file],
            ["mem", "--sectors", "3"],
            ["--help"],
            ["--version"],
        ):
            jpstore.fails(*words, given=CREATE, stdout=full, errors="jpstore: writer\n")


def input_that_cannot_be_read(jpstore):
    folder = os.open(jpstore.folder, os.O_RDONLY)
    try:
        jpstore.fails("mem", "--sectors", "3", stdin=folder, errors="jpstore: reader\n")
    finally:
        os.close(folder)


def a_device_that_fails_is_told_at_the_end(jpstore):
    jpstore.run("format", jpstore.file, *SIXTEEN)
    # The commit sector can be written, and no byte after it.
    refused = '{"error":"device","number":61,"ok":false}\n'
    jpstore.shows("serve", jpstore.file, given=CREATE, most_bytes=512, output=refused, errors="jpstore: device (61)\n", status=1)
    jpstore.fails("serve", jpstore.file, given=CREATE, most_bytes=0, errors="jpstore: device (61)\n")
    jpstore.shows("serve", jpstore.file, given=CREATE, output=DONE)


def changes_of_a_batch_meet_one_failure(jpstore):
    jpstore.run("format", jpstore.file, *SIXTEEN)
    # The commit sector can be written, and no byte after it: both changes of the batch are hit, and nothing is kept.
    refused = '{"error":"device","number":61,"ok":false}\n'
    given = CREATE + CREATE.replace('"d"', '"e"') + '{"cmd":"list"}\n'
    output = 2 * refused + '{"names":[],"ok":true}\n'
    jpstore.shows("serve", jpstore.file, "--batch", "8", given=given, most_bytes=512, output=output, errors="jpstore: device (61)\n", status=1)
    jpstore.shows("serve", jpstore.file, "--batch", "8", given=given, output=DONE + '{"ok":true,"seq":2}\n{"names":["d","e"],"ok":true}\n')


def a_transaction_over_its_limit_is_refused_alone(jpstore):
    # The text of the document has 1,000,000 bytes: 33 of it are within the limit of 33,554,432, and 34 are not.
    create = CREATE.replace('{"a":1}', f'"{"x" * 999_998}"')
    patch = '{"cmd":"patch","name":"d","ops":[]}'
    touch = '{"cmd":"schema","name":"d","schema":true}'
    lines = create + "".join(
        f'{{"changes":[{",".join([touch] * count)}],"cmd":"transaction"}}\n{patch}\n' for count in (34, 33)
    ) + '{"cmd":"rev","name":"d"}\n'
    large = '{"error":"transaction-large","number":65,"ok":false}\n'
    output = DONE + large + '{"ok":true,"seq":2}\n{"ok":true,"seq":35}\n{"ok":true,"seq":36}\n{"ok":true,"rev":36}\n'
    for options in ([], ["--batch", "8"]):
        for version in ("2", "3"):
            jpstore.run("format", jpstore.file, "--sectors", "5000", "--format", version)
            jpstore.shows("serve", jpstore.file, *options, given=lines, output=output)
            os.remove(jpstore.file)


def a_copy_is_stepped_by_itself_where_an_option_asks_for_it(jpstore):
    # A frame has 12 bytes and its text: 2,062 for the creation, 47 for each patch. The copy begins after the creation,
    # since twice the used bytes are over a half, and its fifth sector is the last, after the fourth patch.
    create = CREATE.replace('{"a":1}', f'"{"x" * 2000}"')
    patch = '{"cmd":"patch","name":"d","ops":[]}\n'
    replies = "".join(f'{{"ok":true,"seq":{seq}}}\n' for seq in range(1, 6))
    for words, half in (([], 0), (["--pump", "1"], 1)):
        jpstore.run("format", jpstore.file, *SIXTEEN)
        shown = replies + status_line(1, 1, 5, 2250, half=half)
        jpstore.shows("serve", jpstore.file, *words, given=create + 4 * patch + '{"cmd":"status"}\n', output=shown)
        jpstore.shows("check", jpstore.file, output=status_line(1, 2, 5, 2250, half=half))
        os.remove(jpstore.file)


def each_reply_comes_before_more_input_is_awaited(jpstore):
    words = [jpstore.program, "mem", "--sectors", "16"]
    with subprocess.Popen(words, stdin=subprocess.PIPE, stdout=subprocess.PIPE) as served:
        for seq, line in enumerate([CREATE, '{"cmd":"delete","name":"d"}\n', CREATE], 1):
            served.stdin.write(line.encode())
            served.stdin.flush()
            if not select.select([served.stdout], [], [], PATIENCE)[0]:
                served.kill()
                raise Wrong(f"no reply to line {seq} while the input is open")
            if served.stdout.readline() != f'{{"ok":true,"seq":{seq}}}\n'.encode():
                raise Wrong(f"another reply to line {seq}")
        served.stdin.close()
        if served.wait(PATIENCE) != 0:
            raise Wrong("it didn't end well")


def words_that_are_no_call_end_with_2(jpstore):
    calls = [
        "", "frob", "mem", "mem --sectors 2", "mem --sectors 1048577", "mem --sectors x", "mem --sectors 16 x",
        "format --sectors 16", "format f", "format f --sectors 2", "format f --sectors 4294967297",
        "format f g --sectors 16", "format f --sectors 16 --format 1", "format f --sectors 16 --format 4",
        "format f --sectors 16 --sparse --sparse", "format f --sectors 16 --sparse=true",
        "serve", "serve f g", "serve f --pump 0", "serve f --pump 1000001", "serve f --pump", "serve f --pump 1 --pump 1",
        "serve f --batch 0", "serve f --batch 1025", "serve f --batch", "serve f --batch 2 --batch 2", "serve f --batch 2 3", "serve --batch 2",
        "mem --sectors 16 --batch 2", "mem --sectors 16 --pump 2", "serve -f", "check", "check f g",
        "copy f --sectors 16", "copy f g", "copy f g h --sectors 16", "copy f g --sectors 2", "copy f g --sectors 16 --batch 2",
        "serve f --halt", "serve f --sparse", "upgrade", "upgrade f g", "upgrade f --format 1",
        "upgrade f --format 4", "upgrade f --format", "upgrade f --sectors 16", "copy f g --sectors 16 --format 1", "copy f g --sectors 16 --format 4",
        "mem --sectors 16 --format 1", "mem --sectors 160 --format 4", "mem --sectors 160 --format 3 --format 3",
        "new", "new f g", "new f --size", "new f --size M", "new f --size 16m", "new f --size 16MB", "new f --size 1.5M", "new f --size -16M",
        "new f --size 1024", "new f --size 2049G", "new f --size 2199023255553", "new f --size 18446744073709551616", "new f --size 18014398509481984K",
        "new f --size 16M --size 16M", "new f --sectors 160", "new f --format 3", "new f --mode 600", "new f --sparse", "new f --id 0",
        "mem --sectors 16 --why", "check f --why --why", "check f --strict=yes", "check f --strict --strict", "repair", "repair f g", "repair f --strict",
        "salvage f --strict", "mem --sectors 16 --strict", "serve f --why=yes", "check f --mode 600", "copy f g --sectors 16 --mode 600",
        "format f --sectors 16 --mode", "format f --sectors 16 --mode 8", "format f --sectors 16 --mode 600 --mode 600",
        "format f --sectors 160 --id", "format f --sectors 160 --id 0", f"format f --sectors 160 --id {IDENTITY}0", f"format f --sectors 160 --id {IDENTITY[:-1]}g",
        f"copy f g --sectors 160 --id {IDENTITY[1:]}", f"upgrade f --id -{IDENTITY[1:]}", f"check f --id {IDENTITY}", f"serve f --id {IDENTITY}",
    ]
    for call in calls:
        ended = jpstore.run(*call.split())
        if ended.returncode != 2 or ended.stdout or not ended.stderr:
            raise Wrong(f"{call}: {ended}")
    if "2 is not in 3..=1048576" not in jpstore.run("mem", "--sectors", "2").stderr:
        raise Wrong("the range isn't told")
    if "a similar subcommand exists: 'serve'" not in jpstore.run("serv").stderr:
        raise Wrong("the nearest command isn't told")


def options_stand_where_they_like(jpstore):
    made = '{"capacity":3584,"ok":true,"sectors":16}\n'
    for words in (["--sectors", "16", jpstore.file], ["--sectors=16", jpstore.file], [jpstore.file, "--sectors=+016"]):
        jpstore.shows("format", *words, output=made)
        os.remove(jpstore.file)
    jpstore.shows("mem", "--sectors=16", given=CREATE, output=DONE)
    counted = '{"cmd":"list"}\n'
    for words in (["--batch", "1024", "--pump", "1"], ["--pump=1000000", "--batch=1"], ["--batch", "2"], ["--pump", "2"]):
        jpstore.run("format", jpstore.file, *SIXTEEN)
        jpstore.shows("serve", jpstore.file, *words, given=CREATE + counted, output=DONE + '{"names":["d"],"ok":true}\n')
        jpstore.shows("serve", *words, jpstore.file, given=counted, output='{"names":["d"],"ok":true}\n')
        os.remove(jpstore.file)
    # After `--` comes a file, whatever it begins with; here none of that name.
    jpstore.fails("serve", "--", "-f", errors="jpstore: file\n")


def help_ends_with_0(jpstore):
    programs = (
        "Commands:\n  new      Make a file with an empty store of format 3 in it, which its owner alone may read and write\n"
        "  format   Make a file with an empty store of format 2 in it, or of the format that `--format` says; `new` makes one of format 3\n  serve    Answer command lines over the store in a file\n"
        "  check    Open the store in a file as `serve` does, and show its status, which counts as an opening; or, by `--deep`, read all of it, and tell what is damaged\n"
        "  repair   Open the store in a file, by which its commit slots are written anew, and show its status and what they said; this counts as an opening\n"
        "  copy     Copy the store in a file into a new file of another size; this counts as an opening\n"
        "  upgrade  Bring the store in a file to format 3, or back to 2; this counts as an opening\n"
        "  mem      Answer command lines over a new store in memory\n"
        "  salvage  Write what can still be read of a damaged store, as lines that make its documents; the file is only read\n"
        "  dump     Write each document of the store in a file as the line that makes it\n"
    )
    for words, text in (
        (["--help"], programs),
        (["--help"], "-V, --version  Print version\n"),
        (["-h"], "Usage: jpstore <COMMAND>\n"),
        (["help"], "Usage: jpstore <COMMAND>\n"),
        (["help", "serve"], "Usage: jpstore serve [OPTIONS] <FILE>\n"),
        (["serve", "-h"], "Usage: jpstore serve [OPTIONS] <FILE>\n"),
        (["format", "--help"], "<FILE>"),
        (["new", "--help"], "Usage: jpstore new [OPTIONS] <FILE>\n"),
        (["new", "--help"], "--size <SIZE>"),
        (["serve", "--help"], "--batch <N>"),
        (["serve", "--help"], "--pump <N>"),
        (["check", "--help"], "Usage: jpstore check [OPTIONS] <FILE>\n"),
        (["copy", "--help"], "Usage: jpstore copy [OPTIONS] --sectors <N> <FILE> <NEW>\n"),
        (["format", "--help"], "      --sparse "),
        (["format", "--help"], "--mode <MODE>"),
        (["check", "--help"], "      --why "),
        (["check", "--help"], "      --strict "),
        (["serve", "--help"], "      --strict "),
        (["copy", "--help"], "      --strict "),
        (["upgrade", "--help"], "      --strict "),
        (["dump", "--help"], "      --strict "),
        (["repair", "--help"], "Usage: jpstore repair [OPTIONS] <FILE>\n"),
        (["upgrade", "--help"], "Usage: jpstore upgrade [OPTIONS] <FILE>\n"),
        (["mem", "--help"], "Usage: jpstore mem [OPTIONS] --sectors <N>\n"),
    ):
        ended = jpstore.run(*words)
        if ended.returncode or ended.stderr or text not in ended.stdout:
            raise Wrong(f"{' '.join(words)}: {ended}")


def the_version_is_that_of_this_repository(jpstore):
    ended = jpstore.run("--version")
    shown = re.fullmatch(r"jpstore (\S+) \(formats (\d+) and 3, (\S+)\)\n", ended.stdout)
    if ended.returncode or ended.stderr or not shown:
        raise Wrong(f"--version: {ended}")
    jpstore.shows("-V", output=ended.stdout)
    with open(VERSION, encoding="utf-8") as file:
        version = file.read().strip()
    # The bytes 8 to 11 of a store file are its format.
    jpstore.run("format", jpstore.file, *SIXTEEN)
    form = str(int.from_bytes(jpstore.contents()[8:12], "big"))
    if shown.groups()[:2] != (version, form):
        raise Wrong(f"wanted version {version} and format {form}, found {ended.stdout}")
    if shutil.which("rt"):
        kit = subprocess.run(["rt", "version"], stdout=subprocess.PIPE, text=True, check=True).stdout.split()[0]
        # The letter after the number counts editions of one kit.
        if shown[3] != kit.rstrip("abcdefghijklmnopqrstuvwxyz"):
            raise Wrong(f"wanted the kit {kit}, found {ended.stdout}")


def a_version_is_asked_for_alone(jpstore):
    for words in (["serve", "--version"], ["mem", "-V"], ["version"], ["format", jpstore.file, *SIXTEEN, "--version"]):
        ended = jpstore.run(*words)
        if ended.returncode != 2 or ended.stdout or not ended.stderr:
            raise Wrong(f"{' '.join(words)}: {ended}")


TESTS = [
    a_store_in_memory_shows_its_status,
    a_store_in_memory_may_be_of_format_3,
    a_new_store_is_of_format_3_and_of_the_size_that_is_said,
    a_new_store_takes_no_other_file_and_has_an_identity,
    a_store_in_a_file_is_made_checked_and_served,
    an_odd_number_of_sectors_has_the_halves_of_the_even_one_below,
    files_that_cannot_be_made_or_opened,
    why_a_file_is_not_made_or_opened,
    why_a_user_without_rights_makes_and_opens_no_file,
    other_faults_are_told_alike_with_and_without_why,
    the_manual_page_has_each_cause,
    a_new_file_is_its_owners_alone_unless_its_mode_is_given,
    a_copy_has_the_rights_of_its_source,
    a_copy_has_the_owner_and_the_group_that_its_maker_may_give,
    files_that_hold_no_store_or_a_damaged_one,
    a_store_of_format_1_becomes_one_of_format_2,
    a_store_of_format_1_without_room_in_format_2_is_refused,
    a_store_is_copied_into_a_file_of_another_size,
    a_store_is_copied_into_either_format,
    copies_that_are_refused_leave_what_was_there,
    a_store_in_use_is_not_copied,
    a_new_file_has_all_its_blocks_unless_it_is_sparse,
    a_new_file_without_room_is_not_made,
    a_new_file_on_a_full_disk_is_not_made,
    a_store_is_brought_to_format_3_and_back,
    a_store_of_format_1_is_brought_to_format_3,
    a_store_of_format_3_keeps_its_identity,
    what_the_slots_say_is_told,
    formats_1_and_2_have_no_slots,
    formats_read_their_keywords,
    patterns_that_are_too_large_are_refused_alone,
    a_schema_of_profile_3_stays_in_format_3,
    a_mark_is_set_with_its_changes_or_not_at_all,
    a_mark_stays_in_format_3,
    format_2_has_no_marks,
    a_refused_mark_has_that_which_its_batch_left,
    the_changes_after_one_are_told_whole,
    the_changes_of_a_killed_program_are_told,
    a_history_has_the_bytes_that_were_asked_for,
    a_store_of_format_2_tells_what_it_did_since_it_was_opened,
    lines_that_ask_for_no_changes,
    upgrades_that_fail,
    one_patch_keeps_no_more_than_three_documents,
    output_that_cannot_be_written,
    input_that_cannot_be_read,
    a_device_that_fails_is_told_at_the_end,
    changes_of_a_batch_meet_one_failure,
    a_transaction_over_its_limit_is_refused_alone,
    a_copy_is_stepped_by_itself_where_an_option_asks_for_it,
    each_reply_comes_before_more_input_is_awaited,
    words_that_are_no_call_end_with_2,
    options_stand_where_they_like,
    help_ends_with_0,
    the_version_is_that_of_this_repository,
    a_version_is_asked_for_alone,
]


def main():
    if len(sys.argv) != 2:
        print(__doc__, file=sys.stderr)
        return 2
    program = os.path.abspath(sys.argv[1])
    failed = 0
    for test in TESTS:
        with tempfile.TemporaryDirectory(prefix="jpstore-") as folder:
            try:
                test(Jpstore(program, folder))
            except (Wrong, OSError, subprocess.TimeoutExpired) as error:
                failed += 1
                print(f"{test.__name__}: {error}")
    print(f"{len(TESTS) - failed} passed, {failed} failed")
    return 1 if failed else 0


if __name__ == "__main__":
    sys.exit(main())
