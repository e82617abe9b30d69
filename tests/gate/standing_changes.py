"""What stands in the slots of a store of format 3, read from the bytes of its file: for tests of damaged files."""
import json

SECTOR, SLOTS = 512, 128
POLYNOMIAL = 0x82F63B78


def table_of():
    """The table of CRC-32C."""
    table = []
    for value in range(256):
        for _ in range(8):
            value = value >> 1 ^ (POLYNOMIAL if value & 1 else 0)
        table.append(value)
    return table


TABLE = table_of()


def checksum(data):
    """CRC-32C."""
    value = 0xFFFFFFFF
    for byte in data:
        value = value >> 8 ^ TABLE[(value ^ byte) & 255]
    return value ^ 0xFFFFFFFF


def runs_of(content):
    """What sectors of slots hold that have their checksum: those of one commit that follow one another, joined."""
    runs, before = [], None
    for place in range(SLOTS):
        sector = content[place * SECTOR:(place + 1) * SECTOR]
        if len(sector) < SECTOR or sector[:12] != b"JPSTORE1\0\0\0\3" or checksum(sector[16:]) != int.from_bytes(sector[12:16], "big"):
            before = None
            continue
        key = (place // 32, int.from_bytes(sector[16:24], "big"), place)
        if int.from_bytes(sector[24:28], "big") != place % 32:
            before = None
            continue
        if before == (key[0], key[1], place - 1):
            runs[-1] += sector[28:]
        else:
            runs.append(sector[28:])
        before = key
    return runs


def compact(value):
    """The compact text of a value."""
    return json.dumps(value, separators=(",", ":"), sort_keys=True, ensure_ascii=False)


def frame_of(seq, change):
    """The frame of a change, but for the kind in its first byte."""
    text = compact(change).encode()
    return len(text).to_bytes(4, "big")[1:] + seq.to_bytes(8, "big") + text


def standing(changes, parts):
    """The changes whose frames are in one of these bytes."""
    return [change for seq, change in enumerate(changes, 1) if any(frame_of(seq, change) in part for part in parts)]
