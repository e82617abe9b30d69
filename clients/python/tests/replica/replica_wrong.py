"""Nodes with one fault each. The cases or a short chaos must find every one of them."""
import os
import shutil
from typing import NamedTuple

import replica_cases
import replica_kept
import replica_space
import replica_stops
import replicas
from replica_chaos import Chaos
from support import PACKAGE

_CASES = {case.__name__: case for module in (replica_cases, replica_kept, replica_space, replica_stops)
          for _, case in module.CASES}


# How many chaoses may find a fault.
TURNS = 6


class Wrong(NamedTuple):
    """A fault: what it is, the edit of a module that makes it, and the case that finds it, or the rounds of chaos."""

    what: str
    module: str
    old: str
    new: str
    case: str = ""
    rounds: int = 0

    def is_found(self, folder, program):
        """Raises if nothing finds it; tells what was found."""
        package = self.planted(folder)
        if self.rounds:
            return self._found_by_chaos(folder, program, package)
        found = None
        before, replicas.DEFAULT_PACKAGE = replicas.DEFAULT_PACKAGE, package
        try:
            _CASES[self.case](folder, program)
        except replicas.NotMade:
            raise
        except Exception as error:  # Whatever else the case raises, it has found the fault.
            found = error
        finally:
            replicas.DEFAULT_PACKAGE = before
        assert found is not None, "not found"
        return f"{type(found).__name__} {found}".strip().splitlines()[0][:160]

    def _found_by_chaos(self, folder, program, package):
        """What one of some chaoses finds: how much happens in one is the machine's."""
        for turn in range(TURNS):
            place = f"{folder}/{turn}"
            os.mkdir(place)
            try:
                problems, _ = Chaos(place, program, self.rounds, 7 + turn, package).run()
            except AssertionError as error:
                # A node that ends for good never comes to the end of the log.
                problems = [str(error)]
            if problems:
                return problems[0].strip().splitlines()[-1][:160]
        raise AssertionError("not found")

    def planted(self, folder):
        """A copy of the package with the fault."""
        target = f"{folder}/package"
        shutil.copytree(f"{PACKAGE}/jpstore", f"{target}/jpstore", ignore=shutil.ignore_patterns("__pycache__", "*.so"))
        path = os.path.join(target, "jpstore", "replica", self.module)
        with open(path, encoding="utf-8") as file:
            text = file.read()
        assert text.count(self.old) == 1, f"{self.module} has {text.count(self.old)} places for this fault"
        with open(path, "w", encoding="utf-8") as file:
            file.write(text.replace(self.old, self.new))
        return target


WRONG = [
    Wrong("a node that begins its next start with the entry that it has done", "log.py",
          "(n, r, digest), 0, 0", "(n - 1, r, digest) if n > 1 else (0, 0, ''), 0, 0",
          "trimmed_log"),
    Wrong("a node that does an entry anew that it has begun line by line", "place.py",
          "digest, int(next), chain", "digest, -1, chain", "stopped_line_by_line"),
    Wrong("a node that passes over the rest of an entry that it has begun line by line", "applying.py",
          "self._lines_in(entry), {}), self.place.next)", "self._lines_in(entry), {}), len(entry.lines))",
          "stopped_line_by_line"),
    Wrong("a node that tells the place of a change in the entry", "applying.py",
          'told["change"] = change - begin', 'told["change"] = change', "refusals_in_one_entry"),
    Wrong("a node that numbers the lines of an entry by their last change", "applying.py",
          "= done(self.seq)", "= done(seq_in(reply) or 0)", "refusals_in_one_entry"),
    Wrong("marks that ask for none before, so that an entry is done after one that was refused", "place.py",
          "before and before.text", "False", rounds=8),
    Wrong("questions that are asked of no majority", "running.py",
          "self._paths = [(settings.socket, True)]", "self._paths = [(settings.socket, False)]",
          "reads_at_another_node"),
    Wrong("an answer before the change is made here", "appending.py",
          "                self._refusing = False\n",
          "                self._refusing = False\n"
          "                for at, waiting in enumerate(some):\n"
          "                    reply = b'{\"ok\":true,\"seq\":%d}\\n' % (self._applier.seq + at + 1)\n"
          "                    waiting.answer.set_result(reply)\n",
          rounds=6),
    Wrong("a change that its own file has no room for is left to the store", "capacity.py",
          "if self._total + growth <= self.room.documents:", "if True:", "full_store"),
    Wrong("a heavy entry that is sent as one transaction", "capacity.py",
          "if sum(weights.values()) <= limits.MOST_TRANSACTION_BYTES:", "if True:", "heavy_entries"),
    Wrong("a node that appends what it has no memory for", "trial.py",
          "return len(text) > _LONG or any(word in text for word in _WORDS)", "return False", "without_memory"),
    Wrong("a log that isn't kept for a node that is being made", "init_join.py",
          'await log.tell(PLACES, node, {"n": 0, "r": 0})', "pass", "trimmed_log"),
    Wrong("a store that somebody else changed is taken as it is", "store.py",
          'if told["seq"] != self.status["seq"]:', 'if told["seq"] > self.status["seq"]:', "foreign_changes"),
    Wrong("any store without a place is taken for the first state of the log", "store.py",
          "if await self.digest() != agreed.digest:", "if False:", "foreign_changes"),
    Wrong("a node that begins after the last change, though it was refused more since", "place.py",
          'if (told.get("log"), told.get("seq")) != (log, seq):', "if True:", "other_version"),
    Wrong("a node that is joined after the last change, though the log was trimmed since", "init_join.py",
          "as_told(place_in(place), agreed.log,", "as_told(place_in(place), '',", "trimmed_without_changes"),
    Wrong("an entry of another log is taken for the one that the store has done", "log.py",
          "if (not known or entry.n == last[0]) and place != last:", "if False:", "older_log"),
    Wrong("another version of the program judges what the one before should", "applying.py",
          "if entry.kind is EntryKind.LINES and self.place.version != self.version:", "if False:", "other_version"),
    Wrong("nodes that never compare what they have", "comparing.py",
          "if is_outvoted(self._node, digest.n, told):", "if False:", "differing_nodes"),
    Wrong("a node that ends as one other differs from it", "comparing.py",
          "2 * len(most) > len(most) + sum(map(len, others))", "2 * len(most) >= len(most) + sum(map(len, others))",
          "two_that_differ"),
    Wrong("digests without what documents say", "digest.py", 'b"".join(told), digest', 'told[0], digest',
          "two_that_differ"),
    Wrong("a node that makes all comparisons that it has missed", "node.py", "if self._is_waited_for():", "if True:",
          "compared_once"),
    Wrong("an append without its condition", "log.py", 'body = {"compare": compare, "success": [_put(key, id.encode())',
          'body = {"compare": [], "success": [_put(key, id.encode())', "lost_answers"),
    Wrong("a refusal for want of space that is taken as it is", "log.py",
          "return await self._settled(key, body, refused)", "raise refused", "refused_after_all"),
    Wrong("a trim that asks for the nodes of one log alone", "log.py",
          "for log in logs for place in", "for log in [self._name.encode()] for place in", "two_logs"),
    Wrong("a node that passes over what was trimmed", "log.py",
          "        if entry.n > last[0]:\n", "        if False:\n", "compacted"),
    Wrong("a join that holds the log when it has failed", "init_join.py",
          "        _let_go(members, name, node, before)\n", "", "failed_join"),
    Wrong("a node that waits at its end for the look-up of a name", "tasks.py",
          "threading.Thread(target=run, daemon=True).start()", "threading.Thread(target=run).start()",
          "ended_as_a_name_is_looked_up"),
    Wrong("a node that waits at its end for a program whose answers it doesn't read", "store.py",
          "        while await self._output.read(_PIECE):\n            pass\n", "        await asyncio.sleep(0)\n",
          "ended_in_the_midst_of_answers"),
]
