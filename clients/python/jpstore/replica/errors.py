"""The errors that end a node for good: what it has isn't what the log makes."""
from ..errors import JpstoreError

__all__ = ["ANEW", "Astray", "Changed", "Damaged", "MustBeMadeAnew", "OLDER", "WrongLog"]

#: What to do with the file of a node that can't go on. It may be the last copy of what was answered.
ANEW = ("move the file aside, and make it anew by `replica join`; if no other node runs, make a new log of the file "
        "that is furthest by `replica init` with another --log")

#: What to do with the stores of nodes that kept their place in a document.
OLDER = ("stop all nodes, bring the file of the one that is furthest to format 3 by `jpstore upgrade`, delete the "
         "document `_log` from it by `jpstore serve`, make a new log of it by `replica init` with another --log, and "
         "the others' files by `replica join`")


class MustBeMadeAnew(JpstoreError):
    """The store of a node can't go on with its log: it is made anew from another node's, by `replica join`."""


class Astray(MustBeMadeAnew):
    """The store of this node is not what the log makes."""


class Changed(MustBeMadeAnew):
    """The store was changed by somebody else."""


class Damaged(MustBeMadeAnew):
    """The file of this node is damaged."""


class WrongLog(MustBeMadeAnew):
    """The log is not that of the store: the file is no node's, or the log was made anew, or restored from an older
    copy."""
