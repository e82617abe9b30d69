"""Parts of files that are written: whole files, and blocks between marker lines."""
import re

from .table import ROOT, SOURCE

WRITTEN = f"written by tools/protocol.py from {SOURCE}"


class Missing(Exception):
    """A file has no place for a part."""


class Whole:
    """A whole file."""

    def __init__(self, path, text):
        self.path, self.name, self._text = path, path, text

    def put(self, _):
        """The text of the file with this part."""
        return self._text


class Block:
    """What is between a line with the block's name and a line with its end; on a page its end is the next blank line."""

    def __init__(self, path, block, text):
        self.path, self.name, self._block, self._text = path, f"{path}, {block}", block, text

    def put(self, text):
        """The text of the file with this part."""
        begin = re.search(rf"^.*\b{re.escape(self._block)}: {re.escape(WRITTEN)}.*\n", text, re.M)
        if begin is None:
            raise Missing(f"{self.path} has no line with `{self._block}: {WRITTEN}`")
        end = r"^\n|\Z" if self.path.endswith(".md") else rf"^.*\bend of {re.escape(self._block)}\b"
        found = re.compile(end, re.M).search(text, begin.end())
        if found is None:
            raise Missing(f"{self.path} has no end of {self._block}")
        return text[:begin.end()] + self._text + text[found.start():]


def text_of(path):
    """The text of a file; empty if it isn't there."""
    file = ROOT / path
    return file.read_text(encoding="utf-8") if file.exists() else ""


def write(part):
    """Writes a part, and answers whether that changed its file."""
    before = text_of(part.path)
    after = part.put(before)
    if after != before:
        (ROOT / part.path).write_text(after, encoding="utf-8")
    return after != before


def fault_of(part):
    """What is wrong with a part as it is; empty if it is as it would be written."""
    before = text_of(part.path)
    try:
        same = part.put(before) == before
    except Missing as missing:
        return str(missing)
    return "" if same else f"{part.name}: differs from {SOURCE}; change that, and run tools/protocol.py"
