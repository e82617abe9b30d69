#!/usr/bin/env python3
"""Runs a program over store files with standard streams closed or broken, and by two processes at one time.

    files_and_streams.py PROGRAM

Each row is a real process: its status, its standard output and standard error, and the bytes of the store's file after
it are compared with what they must be; the last line is `N passed, M failed`. A closed stream's number goes to the next file that a process opens: no store may
get it, or replies and complaints would be written over the store. A file that is in use is refused, by whatever name,
and not one byte of it changes; a process that was killed keeps nobody out.
"""
import contextlib
import itertools
import os
import shutil
import signal
import subprocess
import sys
import tempfile

SECTORS = 16
SECTOR_BYTES = 512

# The store's file is these bytes: the commit sector's length ends after the opens and the sectors.
OPENS_AT = slice(32, 40)

CREATE = b'{"cmd":"create","doc":1,"name":"d","schema":true}\n'
CREATED = b'{"ok":true,"seq":1}\n'
GET = b'{"cmd":"get","name":"d","path":""}\n'
FOUND = b'{"ok":true,"value":1}\n'
FORMATTED = b'{"capacity":3584,"ok":true,"sectors":16}\n'
IN_USE = b"jpstore: in-use\n"

INPUT, OUTPUT, ERRORS = range(3)
NAMES = {INPUT: "<&-", OUTPUT: ">&-", ERRORS: "2>&-"}


class Wrong(Exception):
    """A row that ends with something else."""


def status_line(opens, documents, seq, used):
    return (b'{"broken":false,"capacity":3584,"documents":%d,"half":0,"ok":true,"opens":%d,"sectors":16,"seq":%d,"used":%d}\n'
            % (documents, opens, seq, used))


def run(program, words, given=b"", closed=()):
    """The status, output and complaint of a process that starts with these streams closed; of a closed one nothing."""
    def close():
        for stream in closed:
            os.close(stream)
    process = subprocess.Popen([program, *words], stdin=subprocess.PIPE, stdout=subprocess.PIPE, stderr=subprocess.PIPE,
                               preexec_fn=close)
    output, errors = process.communicate(given, timeout=60)
    return process.returncode, output, errors


def same(what, found, wanted):
    if found != wanted:
        raise Wrong("%s is %r, and should be %r" % (what, found, wanted))


def check_run(found, status, output, errors, closed):
    """What a stream that was open received; a closed one receives nothing."""
    same("the status", found[0], status)
    same("standard output", found[1], b"" if OUTPUT in closed else output)
    same("standard error", found[2], b"" if ERRORS in closed else errors)


def contents(file):
    with open(file, "rb") as opened:
        return opened.read()


def opened_once_more(before, after):
    """Nothing but the count of openings changed."""
    same("the number of openings", int.from_bytes(after[OPENS_AT], "big"), int.from_bytes(before[OPENS_AT], "big") + 1)
    same("the rest of the file", after[:OPENS_AT.start] + after[OPENS_AT.stop:],
         before[:OPENS_AT.start] + before[OPENS_AT.stop:])


def holds_the_document(program, file):
    """The store is whole: it opens, and has the one document."""
    same("a session afterwards", run(program, ["serve", file], GET), (0, FOUND, b""))


def ends(closed, reads, writes):
    """The status and the complaint of a program that reads its input or not, and writes a line or not."""
    if reads and INPUT in closed:
        return 1, b"jpstore: reader\n"
    if writes and OUTPUT in closed:
        return 1, b"jpstore: writer\n"
    return 0, b""


def format_row(program, folder, closed):
    file = os.path.join(folder, "made")
    status, complaint = ends(closed, reads=False, writes=True)
    check_run(run(program, ["format", file, "--sectors", str(SECTORS)], closed=closed), status, FORMATTED, complaint, closed)
    same("the length of the file", os.path.getsize(file), SECTORS * SECTOR_BYTES)
    same("a check afterwards", run(program, ["check", file]), (0, status_line(1, 0, 0, 0), b""))


def check_row(program, folder, closed):
    file = os.path.join(folder, "store")
    before = contents(file)
    status, complaint = ends(closed, reads=False, writes=True)
    check_run(run(program, ["check", file], closed=closed), status, status_line(2, 1, 1, 61), complaint, closed)
    opened_once_more(before, contents(file))
    holds_the_document(program, file)


def serve_row(program, folder, closed):
    file = os.path.join(folder, "store")
    before = contents(file)
    status, complaint = ends(closed, reads=True, writes=True)
    check_run(run(program, ["serve", file], GET, closed), status, b"" if INPUT in closed else FOUND, complaint, closed)
    opened_once_more(before, contents(file))
    holds_the_document(program, file)


def serve_changes_row(program, folder, closed):
    """A change whose reply can't be written is made, and stays."""
    file = os.path.join(folder, "empty")
    status, complaint = ends(closed, reads=True, writes=True)
    check_run(run(program, ["serve", file], CREATE, closed), status, b"" if INPUT in closed else CREATED, complaint, closed)
    if INPUT in closed:
        same("a check afterwards", run(program, ["check", file]), (0, status_line(2, 0, 0, 0), b""))
    else:
        holds_the_document(program, file)


STREAM_ROWS = [format_row, check_row, serve_row, serve_changes_row]


def every_choice_of_streams():
    return itertools.chain.from_iterable(itertools.combinations(NAMES, n) for n in range(len(NAMES) + 1))


@contextlib.contextmanager
def serving(program, file):
    """A process that has the store open: it has answered a line, and its input has not ended."""
    server = subprocess.Popen([program, "serve", file], stdin=subprocess.PIPE, stdout=subprocess.PIPE)
    try:
        server.stdin.write(GET)
        server.stdin.flush()
        same("the server's reply", server.stdout.readline(), FOUND)
        yield server
    finally:
        server.kill()
        server.wait()
        server.stdin.close()
        server.stdout.close()


def refused_in_use(program, file, name):
    before = contents(file)
    for words, given in [(["serve", name], CREATE), (["check", name], b"")]:
        same("%s beside a server" % words[0], run(program, words, given), (1, b"", IN_USE))
        same("the file's bytes", contents(file), before)


def in_use_row(program, folder):
    file = os.path.join(folder, "store")
    with serving(program, file):
        refused_in_use(program, file, file)


def hard_link_row(program, folder):
    file, link = os.path.join(folder, "store"), os.path.join(folder, "hard")
    os.link(file, link)
    with serving(program, file):
        refused_in_use(program, file, link)


def symbolic_link_row(program, folder):
    file, link = os.path.join(folder, "store"), os.path.join(folder, "symbolic")
    os.symlink(file, link)
    with serving(program, link):
        refused_in_use(program, file, file)


def closed_streams_row(program, folder):
    """A server without standard error keeps its lock too, under whatever number the file got."""
    file = os.path.join(folder, "store")
    server = subprocess.Popen([program, "serve", file], stdin=subprocess.PIPE, stdout=subprocess.PIPE,
                              preexec_fn=lambda: os.close(ERRORS))
    server.stdin.write(GET)
    server.stdin.flush()
    same("the server's reply", server.stdout.readline(), FOUND)
    refused_in_use(program, file, file)
    output, _ = server.communicate(timeout=60)
    same("the end of the server", (server.returncode, output), (0, b""))


def format_beside_a_server_row(program, folder):
    """If a file exists none is made, in use or not."""
    file = os.path.join(folder, "store")
    with serving(program, file):
        before = contents(file)
        same("format beside a server", run(program, ["format", file, "--sectors", str(SECTORS)]), (1, b"", b"jpstore: file\n"))
        same("the file's bytes", contents(file), before)


def served_on_row(program, folder):
    """The server that has the file goes on after another was refused."""
    file = os.path.join(folder, "store")
    with serving(program, file) as server:
        refused_in_use(program, file, file)
        server.stdin.write(GET)
        server.stdin.flush()
        same("the server's next reply", server.stdout.readline(), FOUND)


def nobody_reads_row(program, folder):
    """A change whose reply nobody reads any more is made, and stays, and the program says why it ends."""
    file = os.path.join(folder, "empty")
    server = subprocess.Popen([program, "serve", file], stdin=subprocess.PIPE, stdout=subprocess.PIPE, stderr=subprocess.PIPE)
    server.stdout.close()
    _, errors = server.communicate(CREATE, timeout=60)
    same("the end of the server", (server.returncode, errors), (1, b"jpstore: writer\n"))
    holds_the_document(program, file)


def ended_row(program, folder):
    """A server that came to its end keeps nobody out."""
    file = os.path.join(folder, "store")
    same("the first session", run(program, ["serve", file], GET), (0, FOUND, b""))
    same("the second session", run(program, ["serve", file], GET), (0, FOUND, b""))


def killed_row(program, folder):
    """A killed server keeps nobody out, from the moment on at which the system has ended it."""
    file = os.path.join(folder, "store")
    with serving(program, file) as server:
        server.send_signal(signal.SIGKILL)
        server.wait()
        same("a session after the kill", run(program, ["serve", file], GET), (0, FOUND, b""))


OTHER_ROWS = [in_use_row, hard_link_row, symbolic_link_row, closed_streams_row, format_beside_a_server_row, served_on_row,
              nobody_reads_row, ended_row, killed_row]


def make_stores(program, folder):
    """An empty store, and one with a document."""
    for name, given, wanted in [("empty", None, None), ("store", CREATE, CREATED)]:
        file = os.path.join(folder, name)
        same("format", run(program, ["format", file, "--sectors", str(SECTORS)]), (0, FORMATTED, b""))
        if given:
            same("a session", run(program, ["serve", file], given), (0, wanted, b""))


def all_rows():
    for closed in every_choice_of_streams():
        for row in STREAM_ROWS:
            name = "%s %s" % (row.__name__, " ".join(NAMES[stream] for stream in closed))
            yield name, lambda program, folder, row=row, closed=closed: row(program, folder, closed)
    for row in OTHER_ROWS:
        yield row.__name__, row


def main():
    if len(sys.argv) != 2:
        sys.exit(__doc__.splitlines()[2].strip())
    program = os.path.abspath(sys.argv[1])
    failed = count = 0
    with tempfile.TemporaryDirectory() as folder:
        stores = os.path.join(folder, "stores")
        os.mkdir(stores)
        make_stores(program, stores)
        for count, (name, row) in enumerate(all_rows(), 1):
            copy = os.path.join(folder, "row")
            shutil.copytree(stores, copy)
            try:
                row(program, copy)
            except Wrong as error:
                failed += 1
                print("%s: %s" % (name.strip(), error))
            shutil.rmtree(copy)
    print("%d passed, %d failed" % (count - failed, failed))
    sys.exit(1 if failed else 0)


if __name__ == "__main__":
    main()
