#!/usr/bin/env python3
"""Damages images of stores of format 3 with 1 to 40 documents at random, and asks what `check` and `salvage` say of them.

    damaged_images.py PROGRAM [--images N] [--processes P] [--seed S]

None may be silent: a store that `check` calls whole has all that was sent. None may lose what stands: `salvage` writes the
documents that the changes make which stand in the blocks or in sectors of slots that have their checksum. The last line is
`N passed, M failed`.
"""
import argparse
import json
import multiprocessing
import os
import pathlib
import random
import sys
import tempfile

sys.dont_write_bytecode = True
sys.path.insert(0, str(pathlib.Path(__file__).resolve().parent.parent / "gate"))
from damaged_files import BLOCK, SECTOR, Wrong, after, run, written
from salvaged_files import HALF, SLOT, changes_for, log_of, made
from standing_changes import runs_of, standing

IMAGES_OF_A_STORE = 200


def harm(rng, content, blocks):
    """An image, what was done to it, and the damaged blocks of the half."""
    way = rng.choice(["cut", "padded", "block", "slot", "slots", "bits"])
    if way == "cut":
        return content[:-SECTOR * rng.randrange(1, 9)], way, []
    if way == "padded":
        return content + bytes(SECTOR * rng.randrange(1, 4000)), way, []
    image = bytearray(content)
    if way == "block":
        block = rng.randrange(len(content) // BLOCK)
        image[block * BLOCK:(block + 1) * BLOCK] = rng.choice([bytes(BLOCK), b"\xff" * BLOCK, rng.randbytes(BLOCK)])
        return bytes(image), f"block {block}", [block - 16] if 16 <= block < 16 + blocks else []
    if way == "slot":
        slot = rng.randrange(4)
        image[slot * SLOT:(slot + 1) * SLOT] = rng.choice([bytes(SLOT), rng.randbytes(SLOT)])
        return bytes(image), f"slot {slot}", []
    for slot in range(4) if way == "slots" else rng.sample(range(4), rng.randrange(1, 5)):
        if way == "slots":
            image[slot * SLOT:slot * SLOT + BLOCK] = bytes(BLOCK)
        else:
            image[slot * SLOT + rng.randrange(28, 512)] ^= 1 << rng.randrange(8)
    return bytes(image), way, []


def is_one_of(given, states):
    """Whether the documents are those of one of the states."""
    return any(given == state for state in states)


def try_image(program, file, changes, content, rng):
    """Tries one image of a store."""
    log, blocks = log_of(content)
    image, what, holes = harm(rng, content, blocks)
    written(file, image)
    said = run(program, "salvage", file)
    lines = [json.loads(line) for line in said.stdout.splitlines()]
    given = {line["name"]: (line["doc"], line["schema"]) for line in lines[:-1]}
    if not holes and what in ("cut", "padded") or what.startswith(("block", "slot ")) and not holes:
        states = [after(changes)]
    else:
        kept = [log[:holes[0] * BLOCK], log[(holes[0] + 1) * BLOCK:]] if holes else [image[HALF:]]
        states = [after(standing(changes, [*kept, *runs_of(image)]))]
        if what == "bits":
            states += [after(changes), after(changes[:-1])]
    if not is_one_of(given, states):
        raise Wrong(f"{what}: salvage gave {sorted(given)}")
    whole = run(program, "check", file)
    if whole.returncode == 0 and '"slots":"whole"' in whole.stdout:
        dumped = run(program, "dump", file, "--read-only")
        documents = [json.loads(line) for line in dumped.stdout.splitlines()][:-1]
        if {line["name"]: (line["doc"], line["schema"]) for line in documents} != after(changes):
            raise Wrong(f"{what}: it is called whole, and isn't")


def try_stores(work):
    """Makes stores, and tries images of each; answers how many passed, and what failed."""
    program, seed, images = work
    rng, passed, failed = random.Random(seed), 0, []
    with tempfile.TemporaryDirectory() as folder:
        file = os.path.join(folder, "store")
        changes, content = [], b""
        for number in range(images):
            if number % IMAGES_OF_A_STORE == 0:
                changes = changes_for(rng.randrange(1, 41), rng.randrange(1 << 30))
                content = made(program, file, 3, changes, rng.randrange(2) == 0)
            try:
                try_image(program, file, changes, content, rng)
                passed += 1
            except (Wrong, ValueError, KeyError, IndexError) as error:
                failed.append(f"seed {seed}, image {number}: {error!r:.600}")
    return passed, failed


def main():
    parser = argparse.ArgumentParser(description=__doc__, formatter_class=argparse.RawDescriptionHelpFormatter)
    parser.add_argument("program")
    parser.add_argument("--images", type=int, default=200_000)
    parser.add_argument("--processes", type=int, default=os.cpu_count())
    parser.add_argument("--seed", type=int, default=1)
    given = parser.parse_args()
    program, share = os.path.abspath(given.program), 1000
    works = [(program, given.seed * 1_000_000 + number, min(share, given.images - number * share)) for number in range((given.images + share - 1) // share)]
    passed, failed = 0, 0
    with multiprocessing.Pool(given.processes) as pool:
        for some, wrong in pool.imap_unordered(try_stores, works):
            passed, failed = passed + some, failed + len(wrong)
            for line in wrong:
                print(f"FAILED {line}", flush=True)
    print(f"{passed} passed, {failed} failed")
    sys.exit(failed > 0)


if __name__ == "__main__":
    main()
