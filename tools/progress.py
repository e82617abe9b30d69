"""How far `rt ci` is with its proofs, by what it says of each crate."""
import pathlib
import re
import time

from crates import PARTS, ROOT

# A line at most each 30 seconds.
PAUSE = 30

# How much must be proved until it is known how long the rest takes.
ENOUGH = 0.03


def sizes_of(names, root=ROOT):
    """The bytes of each crate that its proof reads. The time that proofs take grows by them."""
    parts = {name: [root / "crates" / name / part for part in PARTS] for name in names}
    return {name: sum(file.stat().st_size for part in all_of for file in part.rglob("*") if file.is_file()) for name, all_of in parts.items()}


class Progress:
    """Hears the lines of `rt ci`, and says how many crates are proved, in how many minutes, and about how many it still takes."""

    def __init__(self, sizes, say, now=time.monotonic):
        self._left, self._all, self._say, self._now = dict(sizes), len(sizes), say, now
        self._begin, self._said, self._proved = now(), None, 0

    def hear(self, line):
        """Hears a line of what it says. A crate that is kept took no time."""
        found = re.match(r"rt: (\w+) (proved$|is kept:)", line)
        if not found or found[1] not in self._left:
            return
        size = self._left.pop(found[1])
        self._proved += size if found[2] == "proved" else 0
        now = self._now()
        if not self._left or self._said is None or now - self._said >= PAUSE:
            self._said = now
            self._say(self._told((now - self._begin) / 60))

    def _told(self, minutes):
        done = f"{self._all - len(self._left)} of {self._all} crates are proved, after {minutes:.0f} minutes"
        if not self._left:
            return f"{done}; then their tests are"
        if self._proved < ENOUGH * (self._proved + sum(self._left.values())):
            return done
        return f"{done}; about {minutes * sum(self._left.values()) / self._proved:.0f} more"
