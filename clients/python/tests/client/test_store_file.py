"""What the client reads of a store's file, in both formats."""
import os
import socket
import threading
import warnings

import pytest
from jpstore import JpstoreError, JpstoreWarning, Store, check_file, copy_file, upgrade_file
from jpstore.replica.copying import copy_of, receive_copy
from jpstore.wire.store_file import committed_in, format_of
from support import raised

FORMATS = pytest.mark.parametrize("version", [2, 3])
SECTORS = 512
#: Lengths of texts: small ones, one that fills blocks, and one that is too long for a slot.
LENGTHS = [1, 700, 5000, 20000, 3]


def filled(place, version):
    """A store with a document of each length; what its status is."""
    place.format(SECTORS, version=version)
    with place.store() as store:
        for number, length in enumerate(LENGTHS):
            store.create(f"d{number}", "x" * length)
        store.snapshot()
        store.patch("d0", [{"op": "replace", "path": "", "value": "y"}])
        return store.status()


@FORMATS
def test_what_is_committed_is_what_the_status_says(place, version):
    status = filled(place, version)
    with open(place.file, "rb") as file:
        found = committed_in(file)
        frames = b"".join(found.pieces(file, found.length))
    assert (found.version, found.sectors, found.length, found.seq) == (version, SECTORS, status.used, status.seq)
    assert found.identity.hex() == (status.id or "")
    assert format_of(place.file) == version
    at, seq, kinds = 0, 0, []
    while at < len(frames):
        size, seq = int.from_bytes(frames[at + 1:at + 4], "big"), int.from_bytes(frames[at + 4:at + 12], "big")
        kinds.append(frames[at])
        at += 12 + size
    # In format 3 a document of the snapshot is told from a change.
    assert kinds == [2 if version == 3 else 0] * len(LENGTHS) + [0]
    assert (at, seq) == (len(frames), status.seq)


@FORMATS
def test_a_node_hands_out_a_store(place, version):
    filled(place, version)
    with socket.socket(socket.AF_UNIX) as listening:
        listening.bind(place.path("socket"))
        listening.listen()
        node = threading.Thread(target=hand_out, args=(listening, place.file))
        node.start()
        assert receive_copy(place.path("socket"), place.path("joined")) == (SECTORS, "place")
        node.join()
    with place.store() as old, Store(place.path("joined"), program=place.program) as new:
        names = old.list()
        assert new.list() == names and [old.get(name) for name in names] == [new.get(name) for name in names]
        assert (old.status().seq, old.status().used) == (new.status().seq, new.status().used)


def hand_out(listening, file):
    """Hands out a store once, as a node does."""
    with listening.accept()[0] as joining:
        joining.recv(4096)
        copy = copy_of(file, "place")
        joining.sendall(copy.line)
        joining.sendall(copy.spool.read())


def test_what_is_no_store(place):
    for content in (b"", b"JPSTORE1", bytes(1 << 17), b"JPSTORE1\0\0\0\3" + bytes(1 << 17)):
        with open(place.file, "wb") as file:
            file.write(content)
        assert "is not a store of format 2 or 3" in str(raised(JpstoreError, format_of, place.file))


def test_a_slot_whose_twin_is_damaged_is_read(place):
    filled(place, 3)
    with open(place.file, "r+b") as file:
        seq = committed_in(file).seq
        for first in (0, 64 * 512):
            file.seek(first)
            kept = file.read(512)
            file.seek(first)
            file.write(os.urandom(512))
            file.flush()
            assert committed_in(file).seq == seq
            file.seek(first)
            file.write(kept)
            file.flush()
    assert check_file(place.file, place.program).seq == seq


def slots_of(place, damaged):
    """Zeros that many slots of the last commit."""
    with open(place.file, "r+b") as file:
        content = file.read()
        numbers = [int.from_bytes(content[at + 16:at + 24], "big") for at in range(0, 65536, 16384)]
        newest = [slot for slot in range(4) if numbers[slot] == max(numbers)]
        for slot in newest[:damaged]:
            file.seek(16384 * slot)
            file.write(bytes(16384))


@pytest.mark.parametrize("said, damaged", [("whole", 0), ("mended", 1), ("cut-off", 2)])
def test_what_the_slots_say_is_told(place, said, damaged):
    def opened_by(call, *words, **named):
        filled(place, 3)
        slots_of(place, damaged)
        with warnings.catch_warnings(record=True) as told:
            warnings.simplefilter("always", JpstoreWarning)
            answer = call(*words, **named)
        os.unlink(place.file)
        return answer, [str(each.message).startswith(f"{place.file}: its slots are {said}: ") for each in told]

    warned = [True] * bool(damaged)
    checked, none = opened_by(check_file, place.file, place.program)
    assert (checked.slots, none) == (said, [])
    copied, told = opened_by(copy_file, place.file, place.path("new"), SECTORS, place.program)
    assert (copied.slots, told) == (said if damaged else None, warned)
    before, told = opened_by(upgrade_file, place.file, 2, place.program)
    assert (before, told) == (3, warned)
    shown = opened_by(place.run, "check", place.file)[0]
    assert f"\nslots      {said}".encode() in shown.stdout
    for words in (["copy", place.file, place.path("other")], ["upgrade", place.file, "--format", "2"]):
        errors = opened_by(place.run, *words)[0].stderr
        assert errors.startswith(f"warning: {place.file}: its slots are {said}".encode()) == bool(damaged), errors
