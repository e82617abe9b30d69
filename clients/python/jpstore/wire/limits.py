"""The limits of the program, written by tools/protocol.py from docs/protocol.toml."""

__all__ = [
    "MOST_CHANGES", "MOST_DEPTH", "MOST_DOCUMENT_BYTES", "MOST_GROUP", "MOST_LEVELS", "MOST_LINE_BYTES",
    "MOST_MARK_BYTES", "MOST_OPERATIONS", "MOST_PATTERNS", "MOST_PATTERN_BYTES", "MOST_SCHEMA_BYTES",
    "MOST_SCHEMA_LEVELS", "MOST_STEP_SECTORS", "MOST_TOLD_BYTES", "MOST_TRANSACTION_BYTES",
]

#: The most bytes of a line, without its LF.
MOST_LINE_BYTES = 1_048_576

#: The most levels that a line nests.
MOST_DEPTH = 127

#: The most bytes of a document's compact text.
MOST_DOCUMENT_BYTES = 1_048_576

#: The most levels that a document nests.
MOST_LEVELS = 64

#: The most bytes of a schema's compact text.
MOST_SCHEMA_BYTES = 262_144

#: The most levels that a schema nests.
MOST_SCHEMA_LEVELS = 64

#: The most patterns of a schema.
MOST_PATTERNS = 64

#: The most bytes of a pattern.
MOST_PATTERN_BYTES = 4_096

#: The most operations of a patch.
MOST_OPERATIONS = 4_096

#: The most changes of a transaction.
MOST_CHANGES = 1_024

#: The most bytes that a transaction copies, with the documents that it puts under other schemas.
MOST_TRANSACTION_BYTES = 33_554_432

#: The most bytes of the value of a mark.
MOST_MARK_BYTES = 128

#: The most bytes of changes that may be asked for at once.
MOST_TOLD_BYTES = 4_194_304

#: The most sectors that a step of a copied snapshot may be asked to write.
MOST_STEP_SECTORS = 1_000_000

#: The most changes that the program makes in one commit.
MOST_GROUP = 1_024
