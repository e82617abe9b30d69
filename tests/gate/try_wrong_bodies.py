#!/usr/bin/env python3
"""Tries the wrong bodies of tests/wrong_bodies/, each on the function that it makes wrong: the prover must refuse each.

    try_wrong_bodies.py [CRATE..] [--long] [--as-it-stands] [--fit] [--alone] [--follow] [--record]

A function is proved from the contracts of those that it calls. So wrong bodies of several functions are made in one copy
of the crate, all other functions have nothing left there but their contracts (contracts_alone.py), and these functions
are checked, over the libraries that `rt ci` left in the folders out/ of the crates below. They cost one check of these
functions, and not one of the whole crate for each. One is refused if the check says of its function that it is not
proved, and names a goal of its own for which that is so. An answer that names what the edit took away says nothing of
the contract: a wrong body that is refused by such answers alone is NOT TRIED, and needs an edit that keeps the names. If
no goal is named it is tried once more, without the others, as are all with --alone. Of functions that call one another in
a cycle, of one function, and of edits that meet in a text, a check has one at most; a crate's next check begins with what
those before it proved of the same text.

With --follow a crate is begun as soon as standard input named it and all crates below it as proved, one check at a time
until the input ends: so they take what `rt ci` leaves of the processors. A wrong body that the record has as refused (refused.py)
is not tried then, and what is refused is noted in this clone. With --record nothing is tried: the record is written of
what it had and what was noted, as far as that still holds.

With --long those are tried that the gate leaves out. Some of them no contract can refuse, as one that takes no
lock: for these a test is run over the sources, by `rt try`, and must fail. With --as-it-stands the functions are checked
without the edits, and each must be proved; with --fit nothing is proved: only whether each edit still fits the sources.
The last line is `N passed, M failed`. RT_JOBS says how many checks run side by side.
"""
import argparse
import collections
import concurrent.futures
import os
import pathlib
import re
import shutil
import subprocess
import sys
import tempfile
import threading
import time

sys.dont_write_bytecode = True
sys.path.insert(0, str(pathlib.Path(__file__).resolve().parents[2] / "tools"))
import refused
from contracts_alone import functions_of, homes_of, leave_contracts
from crates import PARTS, below, libraries_of
from wrong_body import ROOT, WrongBody

BODIES = ROOT / "tests" / "wrong_bodies"
REFUSED = re.compile(r"(not proved|no proof)\b")
PROVED = re.compile(r"proved|no holes|depends on a hole")
NOTED = re.compile(r"^note: (src/\S+?):(\d+):\d+: it is not proved that .*?\(`([^`]+)`\)", re.M)
UNREAD = re.compile(r"^\./proofs/(\S+)/(Answers|Invariants)\.antt:\d+:\d+: error: (?:`([^`]+)`: )?.*\b(?:has no|is not in scope|was not admitted)\b", re.M)
READS = {"stdin": subprocess.DEVNULL, "stdout": subprocess.PIPE, "stderr": subprocess.STDOUT, "text": True, "errors": "replace"}


def go_together(one, other):
    """Whether two wrong bodies of a crate can be checked together."""
    return one.ring() != other.ring() and not one.disturbs(other) and not other.disturbs(one)


def rounds_of(wrongs, alone):
    """The wrong bodies of a crate in groups that can be checked together."""
    rounds = []
    for wrong in wrongs:
        group = next((group for group in rounds if not alone and all(go_together(wrong, other) for other in group)), None)
        if group is None:
            rounds.append([wrong])
        else:
            group.append(wrong)
    return rounds


def words_of(crate, kit):
    """The words by which the kit's `rt` has a crate checked."""
    libraries = libraries_of()
    root = "main" if (ROOT / "crates" / crate / "src" / "main.rt").is_file() else "lib"
    words = [f"{kit}/bin/rattle", "check", "--crate-name", crate, f"src/{root}.rt"]
    for library in ["std", *libraries[crate]]:
        own = f"{ROOT}/crates/{library}/out/rlib/{library}.rlib"
        words += ["--extern", f"{library}={own if library in libraries else f'{kit}/rlibs/{library}.rlib'}"]
    words += ["-L", f"dependency={kit}/rlibs"]
    for library in sorted(below([crate])):
        words += ["-L", f"dependency={ROOT}/crates/{library}/out/rlib"]
    return [*words, "--antt-project", f"{kit}/rattle/logic/antt-project.json", "--logic-built", f"{kit}/logic_built", "--jobs", "1"]


def check(group, kit, proved, as_it_stands=False):
    """What a check says of a group's functions, of all others of the crate by their contracts; what it proves is kept."""
    crate = group[0].crate
    with tempfile.TemporaryDirectory(prefix="wrong-bodies-") as folder:
        room = pathlib.Path(folder)
        for part in PARTS:
            if (ROOT / "crates" / crate / part).is_dir():
                shutil.copytree(ROOT / "crates" / crate / part, room / part)
        for wrong in group:
            if not as_it_stands:
                wrong.make(room)
        leave_contracts(room, crate, {wrong.function for wrong in group})
        words = [*words_of(crate, kit), "--allow-holes", "--short-goals", "--incremental", proved]
        for wrong in group:
            words += ["--only", wrong.function]
        said = subprocess.run(words, cwd=room, **READS).stdout
        return Told(crate, said, noted_in(said, room))


def noted_in(said, room):
    """The goals that a check's notes name as not proved, by the function in whose lines they are."""
    noted, homes = collections.defaultdict(set), homes_of(room / "src")
    for place, line, goal in NOTED.findall(said):
        for function in functions_of(room / place, room / "src", homes):
            if function.head < int(line) <= function.last + 1:
                noted[function.name()].add(goal)
    return noted


class Told:
    """What a check says of a crate's functions."""

    def __init__(self, crate, said, noted):
        self.noted = noted
        ended = re.search(r"^only=\d+ holes=\d+$", said, re.M)
        self.crate, self.end = crate, said[-600:]
        self.functions = dict(re.findall(rf"^fn {crate}::(\S+): (.*)$", said, re.M)) if ended else {}
        # What rests on an invariant is refused with it, so no goal of the function's own is read then.
        self.unread = {(folder, goal if file == "Answers" else "") for folder, file, goal in UNREAD.findall(said)}

    def of(self, wrong):
        """What it says of the function that is made wrong."""
        return self.functions.get(wrong.function, "")

    def goals(self, wrong):
        """The goals of its own for which it isn't proved: those that no answer was found for, and those whose answers are refused."""
        searched, refused, said = set(), set(), self.of(wrong)
        for place in wrong.places():
            folder = place.replace("::", "/")
            sought = re.search(rf"\./proofs/{re.escape(folder)}/Answers\.antt; `search` did not prove ((?:`[^`]+`(?:, )?)+)", said)
            searched |= {(folder, goal) for goal in re.findall(r"`([^`]+)`", sought[1] if sought else "")}
            searched |= {(folder, goal) for goal in self.noted.get(place, ())}
            module = re.escape(f"Rattle.{self.crate}.proofs.{place.replace('::', '.')}")
            refused |= {(folder, goal) for goal in re.findall(rf"`{module}\.Answers\.([^`]+)`", said)}
        return searched, refused

    def is_telling(self, wrong):
        """Whether a goal is refused for what the contract says, and not for a name that the edit took away."""
        searched, refused = self.goals(wrong)
        folders = {folder for folder, _ in searched | refused}
        unread = {each for each in self.unread if each[0] in folders}
        if any(not goal for _, goal in unread):
            return False
        return bool(refused - unread or searched and not unread)


def verdict(wrong, told):
    """Whether a check refuses the wrong body, as it must (None: another of the check may hide that), and what to say of it."""
    said = told.of(wrong)
    if PROVED.match(said):
        return False, "NOT REFUSED: the function is still proved"
    if not REFUSED.match(said):
        return None, f"NOT TRIED: {said[:300] or told.end}"
    if not any(told.goals(wrong)):
        return None, f"NOT TRIED: no goal of its own is named: {said[:300]}"
    if not told.is_telling(wrong):
        return False, f"NOT TRIED: its answers name what the edit took away: {said[:300]}"
    return True, f"refused, as it must be: {said[:200]}"


def try_group(group, kit, proved):
    """What is said of each wrong body of a group, with whether all is well."""
    told = check(group, kit, proved)
    results = {wrong: verdict(wrong, told) for wrong in group}
    for wrong, (is_refused, _) in results.items():
        if is_refused is None and len(group) > 1:
            results[wrong] = verdict(wrong, check([wrong], kit, proved))
    return results


def try_test(wrong):
    """Whether the test that a wrong body names fails, and no other way out is taken: the sources are run, and not proved."""
    crate, test = wrong.test.split()
    with tempfile.TemporaryDirectory(prefix="wrong-bodies-") as folder:
        room = pathlib.Path(folder)
        for part in ("crates.txt", "HANDLES"):
            shutil.copy(ROOT / part, room)
        shutil.copytree(ROOT / "crates", room / "crates", ignore=shutil.ignore_patterns("out"))
        wrong.make(room / "crates" / wrong.crate)
        said = subprocess.run(["rt", "try", "--test"], cwd=room / "crates" / crate, **READS).stdout
    told = re.search(rf"^test {re.escape(test)} \.\.\. (\w+)$", said, re.M)
    if not told:
        return False, f"NOT TRIED: {said[-300:]}"
    return told[1] == "FAILED", f"the test {wrong.test}: {told[1]}"


def prove_group(group, kit, proved):
    """The same of the functions as they are, none of which may be refused."""
    told = check(group, kit, proved, as_it_stands=True)
    refused = {name: said for name, said in told.functions.items() if not PROVED.match(said)}
    return {wrong: (bool(told.of(wrong)) and not refused, str(refused or told.of(wrong) or told.end)[:300]) for wrong in group}


def try_crate(wrongs, kit, asked):
    """The same of all wrong bodies of a crate, one group after another."""
    results, begin = {}, time.monotonic()
    rounds = rounds_of([wrong for wrong in wrongs if not wrong.test], asked.alone)
    with tempfile.TemporaryDirectory(prefix="wrong-bodies-") as proved:
        for group in rounds:
            results.update((prove_group if asked.as_it_stands else try_group)(group, kit, proved))
    results.update((wrong, try_test(wrong)) for wrong in wrongs if wrong.test and not asked.as_it_stands)
    if wrongs:
        print(f"{wrongs[0].crate}: {len(wrongs)} tried by {len(rounds)} checks in {(time.monotonic() - begin) / 60:.1f} minutes", flush=True)
    return results


def size_of(crate):
    """How much there is to check in a crate: the dearest begin first."""
    files = [file for part in PARTS for file in (ROOT / "crates" / crate / part).rglob("*") if file.is_file()]
    return sum(file.stat().st_size for file in files)


def lanes():
    number = os.environ.get("RT_JOBS", "")
    return int(number) if number.isdigit() and int(number) else len(os.sched_getaffinity(0))


class Lanes:
    """The checks that run side by side: one beside a gate that is followed, and all once it has ended."""

    def __init__(self, follows):
        self.all = lanes()
        self._later = self.all - 1 if follows else 0
        self._free = threading.Semaphore(self.all - self._later)

    def open(self):
        """Lets all run."""
        for _ in range(self._later):
            self._free.release()

    def run(self, *call):
        """Runs one when its turn has come."""
        with self._free:
            return call[0](*call[1:])


class Proved:
    """The libraries that `rt ci` proved or took over in this run, as they were when it said so."""

    def __init__(self):
        self._marks = {}

    @staticmethod
    def _mark(crate):
        try:
            told = (ROOT / "crates" / crate / "out" / "rlib" / f"{crate}.rlib" / "format").stat()
        except OSError:
            return None
        return told.st_ino, told.st_size, told.st_mtime_ns

    def add(self, crate):
        """Notes a crate that is said to be proved."""
        self._marks[crate] = self._mark(crate)

    def are_there(self, crates):
        """Whether the libraries of these crates are still those."""
        return all(self._marks.get(crate) is not None and self._marks[crate] == self._mark(crate) for crate in crates)


def proved_first(names, told, proved, lanes_of_checks):
    """These crates, each as soon as it and all crates below it are said to be proved; at the end those that are left."""
    waits = {name: {name} | below([name]) for name in names}
    for line in told:
        proved.add(line.strip())
        for name in [name for name, left in waits.items() if left <= {line.strip()}]:
            del waits[name]
            yield name
        for left in waits.values():
            left.discard(line.strip())
    lanes_of_checks.open()
    yield from waits


def show(results):
    """Says what came of wrong bodies."""
    for wrong, (_, said) in results.items():
        print(f"wrong body {wrong.crate}/{wrong.file.stem}: {said}", flush=True)


def try_all(wrongs, asked):
    """The results of these wrong bodies, by crate, shown as they come, and those that were tried over what `rt ci` proved in this run."""
    kit = pathlib.Path(subprocess.run(["rt", "doc"], check=True, capture_output=True, text=True).stdout.strip()).parent
    checks, proved, results, sound = Lanes(asked.follow), Proved(), {}, set()

    def run(name):
        result = try_crate(wrongs[name], kit, asked)
        return result, proved.are_there(below([name]))

    largest = sorted(wrongs, key=size_of, reverse=True)
    order = proved_first(largest, sys.stdin, proved, checks) if asked.follow else largest
    with concurrent.futures.ThreadPoolExecutor(checks.all) as pool:
        for begun in [pool.submit(checks.run, run, name) for name in order]:
            result, is_sound = begun.result()
            show(result)
            results.update(result)
            sound.update(result if is_sound else ())
    return results, sound


def try_unknown(wrongs, asked):
    """The results of the wrong bodies that the record doesn't have as refused. Those that are now are noted, if all on which
    that rests is as it was before."""
    every = [wrong for name in wrongs for wrong in wrongs[name]]
    before, known = {wrong: refused.checksum_of(wrong) for wrong in every}, refused.known()
    results = {wrong: (True, "refused, as the record has it") for wrong in every if before[wrong] in known}
    print(f"the record has {len(results)} of {len(every)} wrong bodies as refused; {len(every) - len(results)} are tried", flush=True)
    left = {name: [wrong for wrong in wrongs[name] if wrong not in results] for name in wrongs}
    tried, sound = try_all(left, asked)
    if not tried:
        return results
    refused.forget()
    is_refused = [wrong for wrong, (is_well, _) in tried.items() if is_well and wrong in sound and not wrong.test]
    refused.note([wrong for wrong in is_refused if before[wrong] == refused.checksum_of(wrong)])
    return {**results, **tried}


def write_record(wrongs):
    """Writes the record of these wrong bodies, and says which it doesn't have."""
    recorded = refused.write_record(wrongs)
    for wrong in wrongs:
        if wrong not in recorded:
            print(f"wrong body {wrong.crate}/{wrong.file.stem}: not recorded, so ./test tries it")
    print(f"{len(recorded)} of {len(wrongs)} wrong bodies are recorded as refused")


def bodies_of(crates, asked):
    """The wrong bodies that are asked for, by crate: those that the gate tries, or the others; both, where only the fit is asked."""
    names = crates or sorted(each.name for each in BODIES.iterdir() if each.is_dir())
    every = {name: [WrongBody(file) for file in sorted((BODIES / name).glob("*.edit"))] for name in names}
    return {name: [wrong for wrong in every[name] if asked.fit or (wrong.tried in ("long", "test")) == asked.long] for name in every}


def main():
    parser = argparse.ArgumentParser(description="Tries the wrong bodies of tests/wrong_bodies/, each on its function.")
    parser.add_argument("crates", nargs="*", metavar="CRATE")
    parser.add_argument("--long", action="store_true", help="try those that the gate leaves out")
    parser.add_argument("--as-it-stands", action="store_true", help="check the functions without the edits")
    parser.add_argument("--fit", action="store_true", help="look only whether each, the long ones too, still fits the sources")
    parser.add_argument("--alone", action="store_true", help="try each by a check of its own")
    parser.add_argument("--follow", action="store_true", help="begin a crate once standard input named it and those below it; believe the record")
    parser.add_argument("--record", action="store_true", help="write the record, and try nothing")
    asked = parser.parse_args()
    if (asked.follow or asked.record) and any(said for word, said in vars(asked).items() if word not in ("follow", "record")):
        parser.error("--follow and --record are of all wrong bodies that the gate tries, and go with no other word")
    wrongs = bodies_of(asked.crates, asked)
    every = [wrong for name in wrongs for wrong in wrongs[name]]
    if asked.record:
        return write_record(every)
    unfit = {wrong: wrong.why_unfit() for wrong in every}
    results = {wrong: (not why, why or "fits") for wrong, why in unfit.items()}
    show({wrong: told for wrong, told in results.items() if asked.fit or unfit[wrong]})
    if not asked.fit:
        fit = {name: [it for it in wrongs[name] if not unfit[it]] for name in wrongs}
        results.update(try_unknown(fit, asked) if asked.follow else try_all(fit, asked)[0])
    failed = sum(not is_well for is_well, _ in results.values())
    print(f"{len(every) - failed} passed, {failed} failed")
    return 1 if failed else 0


if __name__ == "__main__":
    sys.exit(main())
