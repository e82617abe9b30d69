"""Who may read and write the files that the package makes."""
import contextlib
import os
import socket
import stat
import threading

from jpstore import copy_file, format_file, grow
from jpstore.replica.copying import copy_of, receive_copy


@contextlib.contextmanager
def umask(mask):
    before = os.umask(mask)
    try:
        yield
    finally:
        os.umask(before)


def mode_of(file):
    return stat.S_IMODE(os.stat(file).st_mode)


def test_a_new_file_is_its_owners_alone_unless_a_mode_is_given(place):
    with umask(0o022):
        place.format(16)
        format_file(place.path("other"), 16, place.program, 0o640)
    assert (mode_of(place.file), mode_of(place.path("other"))) == (0o600, 0o640)


def test_a_copy_has_the_rights_of_its_source(place):
    place.made(16).close()
    os.chmod(place.file, 0o640)
    with umask(0o077):
        copy_file(place.file, place.path("copy"), 32, place.program)
        grow(place.file, place.path("grown"), 32, place.program)
    assert [mode_of(place.path(name)) for name in ("copy", "grown")] == [0o640] * 2


def test_a_store_from_another_node_has_the_rights_of_that_nodes_file(place):
    place.made(16).close()
    os.chmod(place.file, 0o640)
    with socket.socket(socket.AF_UNIX) as listening:
        listening.bind(place.path("socket"))
        listening.listen()
        node = threading.Thread(target=hand_out, args=(listening, place.file))
        node.start()
        with umask(0o077):
            assert receive_copy(place.path("socket"), place.path("joined")) == (16, "place")
        node.join()
    assert mode_of(place.path("joined")) == 0o640
    with open(place.file, "rb") as old, open(place.path("joined"), "rb") as new:
        assert old.read(512) == new.read(512)


def hand_out(listening, file):
    """Hands out a store once, as a node does."""
    with listening.accept()[0] as joining:
        joining.recv(4096)
        copy = copy_of(file, "place")
        joining.sendall(copy.line)
        joining.sendall(copy.spool.read())
