"""Wrong bodies: edits of a crate's code that the prover must refuse.

A file CRATE/what_is_wrong.edit has, each on a line of its own, `try: gate`, `try: long` (which the gate leaves out) or
`try: test CRATE TEST` (no contract can refuse it, and this test must fail; the gate leaves it out too); `function: PATH` (the function that is made wrong, as a check
prints it after the crate's name), `file: PATH`, and `old: TEXT` and `new: TEXT` for each text that is put in the place of
another, which that file must have once. Each is put over what those before it left. A line `|TEXT` goes on with the text before
it on a line of its own: so a wrong body may bring a proof.
"""
import pathlib
import re

from contracts_alone import functions_of, homes_of

ROOT = pathlib.Path(__file__).resolve().parents[2]


class WrongBody:
    """A wrong body of a crate's function."""

    def __init__(self, file):
        self.crate, self.file, self.tried, self.function, self.test, self.edits = file.parent.name, file, "", "", "", []
        path = old = ""
        for line in re.sub(r"\n\|", "\v", file.read_text()).split("\n"):
            word, _, rest = line.replace("\v", "\n").partition(":")
            text = rest.removeprefix(" ")
            if word == "function":
                self.function = text.strip()
            elif word == "try":
                self.tried, _, self.test = text.strip().partition(" ")
            elif word == "file":
                path = text.strip()
            elif word == "old":
                old = text
            elif word == "new":
                self.edits.append((path, old, text))

    def texts(self, folder):
        """The files of a folder of the crate that it changes, with their texts then. ValueError: it doesn't fit them."""
        texts = {}
        for path, old, new in self.edits:
            if not (folder / path).is_file():
                raise ValueError(f"there is no file {path}")
            text = texts.setdefault(path, (folder / path).read_text())
            if text.count(old) != 1:
                raise ValueError(f"{path} has an old text {text.count(old)} times")
            texts[path] = text.replace(old, new)
        return texts

    def make(self, room):
        """Makes the body wrong in a copy of the crate."""
        for path, text in self.texts(room).items():
            (room / path).write_text(text)

    def disturbs(self, other):
        """Whether it changes or makes, in a file of both, a text that the other looks for."""
        return any(path == its and (old in was or old in new) for path, was, new in self.edits for its, old, _ in other.edits)

    def why_unfit(self):
        """Why it can't be tried over the crate as it stands, if it can't."""
        if self.tried not in ("gate", "long", "test") or (self.tried == "test") != bool(self.test):
            return "it doesn't say who tries it"
        if not self.function or not self.edits:
            return "it names no function" if self.edits else "it changes nothing"
        try:
            self.texts(ROOT / "crates" / self.crate)
        except ValueError as why:
            return str(why)
        return None

    def ring(self):
        """What no other of the same check may have: the function, or the cycle of calls in which it is."""
        return next((it.ring() for it in self.neighbours() if "::".join(it.path) == self.function), self.function)

    def places(self):
        """The places of its answers: under its name, under its cycle's, and in +NAME where it calls itself."""
        module, _, name = self.function.rpartition("::")
        return {self.function, self.ring(), f"{module}::+{name}"}

    def neighbours(self):
        """The functions of the files that it changes."""
        src = ROOT / "crates" / self.crate / "src"
        files = {src.parent / path for path, _, _ in self.edits if re.match(r"src/", path)}
        homes = homes_of(src)
        return [function for file in sorted(files) for function in functions_of(file, src, homes)]
