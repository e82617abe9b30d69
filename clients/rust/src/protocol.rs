//! The reasons of refusals, and the kinds of changes, written by tools/protocol.py from docs/protocol.toml.

/// Why the store refuses something; [`Reason::advice`] says what to do about it.
#[derive(Clone, Copy, Debug, PartialEq, Eq, Hash)]
#[non_exhaustive]
#[repr(u16)]
pub enum Reason {
    /// The change or question has over 1,048,576 bytes as a line.
    LineTooLong = 10,
    /// A document, schema or patch isn't one JSON text, or a text isn't UTF-8.
    NotJson = 11,
    /// A number is not a 64-bit whole number.
    Number = 12,
    /// The document would nest deeper than 64 levels.
    Depth = 13,
    /// No command has this form: as a transaction of no changes, or of over 1,024.
    Command = 14,
    /// A name has not 1 to 64 of the letters, digits, `-`, `_` and `.`.
    Name = 15,
    /// A document of that name exists already.
    Exists = 20,
    /// No document has that name.
    NoDocument = 21,
    /// There are 1,024 documents already, or 65,536 in format 3.
    TooMany = 22,
    /// The document would have over 1,048,576 bytes.
    TooLarge = 23,
    /// The document has another revision, [`Refusal::rev`](crate::Refusal::rev).
    Revision = 24,
    /// The changes ask for another mark than the present one, [`Refusal::mark`](crate::Refusal::mark).
    Mark = 25,
    /// The patch is no list of operations of RFC 6902.
    PatchShape = 30,
    /// A place in an operation is no JSON Pointer.
    PatchPointer = 31,
    /// A place that an operation needs isn't there.
    PatchMissing = 32,
    /// A value is moved into itself.
    PatchIntoItself = 33,
    /// A `test` found another value.
    PatchTest = 34,
    /// The patch removes the whole document.
    PatchRoot = 35,
    /// The patch has over 4,096 operations or 2,097,152 bytes, or nests too deep.
    PatchLong = 36,
    /// The document has no value at this place.
    NoValue = 37,
    /// The place is no JSON Pointer.
    Pointer = 38,
    /// A schema is neither a boolean nor an object, a keyword has a wrong form, or a pattern is none.
    SchemaForm = 40,
    /// A keyword of the schema isn't supported.
    SchemaKeyword = 41,
    /// A `$ref` leads nowhere.
    SchemaRef = 42,
    /// The schema leads back to itself at the same value.
    SchemaLoop = 43,
    /// The schema has over 262,144 bytes or 64 patterns, a pattern over 4,096 bytes, or it nests too deep, or its patterns take too much memory.
    SchemaSize = 44,
    /// The document would not be valid under its schema.
    Invalid = 45,
    /// The query is no JSONPath.
    Path = 50,
    /// The query has `match`, `search`, or another number than a 64-bit whole one.
    PathLeftOut = 51,
    /// The query has over 1,024 bytes.
    PathLong = 52,
    /// The query selects over 100,000 nodes.
    PathNodes = 53,
    /// The reply would have over 16,777,216 bytes.
    ReplyLong = 54,
    /// The store has no room for the change.
    Full = 60,
    /// The disk failed during the change: the next opening shows whether it is there.
    Device = 61,
    /// The disk has failed before: questions are answered, and changes once the store is opened again.
    Broken = 62,
    /// Out of memory for this; it may be tried again.
    Memory = 63,
    /// The count of changes is at its end.
    SeqEnd = 64,
    /// What a transaction copies, and the documents that it puts under other schemas, have over 33,554,432 bytes of text.
    TransactionLarge = 65,
    /// Only programs in Rattle are told this.
    AlreadyAStore = 70,
    /// Only programs in Rattle are told this.
    Small = 71,
    /// The file is no store.
    NotAStore = 72,
    /// The file is a damaged store.
    Damaged = 73,
    /// The documents don't fit in the new file of a copy, or in format 2.
    NoRoom = 74,
    /// Only the program says this, with `--strict`: a commit was cut off in the store.
    CutOff = 75,
    /// A document's schema has a keyword that only format 3 reads, and format 2 was asked for.
    NewerSchema = 76,
}

/// Each reason, what it means, and what to do about it.
#[rustfmt::skip]
pub(crate) const ROWS: &[(Reason, &str, &str)] = &[
    (Reason::LineTooLong, "the line has over 1,048,576 bytes", "send a smaller document, or make it by several patches"),
    (Reason::NotJson, "this is not a JSON text in UTF-8, or nests deeper than 127 levels", "correct the text; a JSON parser tells the place"),
    (Reason::Number, "the text has a number that is not a 64-bit whole number, such as `1.5`", "send whole numbers, or a text"),
    (Reason::Depth, "the document would nest deeper than 64 levels", "make the document flatter"),
    (Reason::Command, "no command has this form: a member is missing, unknown, or has a wrong value", "compare with the command in `docs/use/PROTOCOL.md`; `create` needs `schema` too"),
    (Reason::Name, "the name is not 1 to 64 of the allowed characters", "use the letters A to Z and a to z, digits, `.`, `_` and `-`"),
    (Reason::Exists, "a document of that name exists already", "choose another name, or patch the document that exists"),
    (Reason::NoDocument, "no document has that name", "list the names, and compare"),
    (Reason::TooMany, "the store has 1,024 documents already, or 65,536 in format 3", "delete one, join several in one document, or bring a store in format 2 to format 3 by `upgrade`"),
    (Reason::TooLarge, "the document's compact text would have over 1,048,576 bytes", "make the document smaller, or divide it into several"),
    (Reason::Revision, "the document has another revision than `if_rev`; `rev` is the document's", "read the document again, and send a patch that fits it, with its new revision"),
    (Reason::Mark, "the mark is another than `if_mark`; `mark` is the present one", "if it is your own, the change is made"),
    (Reason::PatchShape, "`ops` is not a list, or an operation is not an object, has no known `op`, or lacks a member", "compare the operations with RFC 6902, section 4"),
    (Reason::PatchPointer, "`path` or `from` of an operation is not a JSON Pointer", "begin it with `/`, and write `~` as `~0` and `/` in a name as `~1`"),
    (Reason::PatchMissing, "a place that the operation needs does not exist", "read the document; `add` the parent first"),
    (Reason::PatchIntoItself, "a `move` puts a value into itself", "use `copy` instead"),
    (Reason::PatchTest, "a `test` found another value", "read the document again, and send a patch that fits it"),
    (Reason::PatchRoot, "the patch removes the whole document", "use the command `delete` instead"),
    (Reason::PatchLong, "there are over 4,096 operations, their text has over 2,097,152 bytes, or it nests deeper than 66 levels", "divide the patch into several"),
    (Reason::NoValue, "the document has no value at this place", "read the value at a shorter path, to see what is there"),
    (Reason::Pointer, "the path is not a JSON Pointer", "begin it with `/`, or leave it empty for the whole document; write `~` as `~0` and `/` in a name as `~1`"),
    (Reason::SchemaForm, "a schema is neither a boolean nor an object, a keyword's value has a wrong form, two schemas have one `$anchor`, or a pattern is none", "compare the schema with JSON Schema Validation 2020-12, section 6, and a pattern with `docs/use/MODELLING.md`"),
    (Reason::SchemaKeyword, "the schema has a keyword that is not supported, or only in format 3, has `$id` or `$schema` below its root, or names another dialect", "leave the keyword out, or use supported ones; `jpstore upgrade FILE` makes format 3"),
    (Reason::SchemaRef, "a `$ref` leads to no schema in this one; format 2 reads `#` and `#/$defs/NAME` alone", "define the schema under `$defs` of the root"),
    (Reason::SchemaLoop, "a schema leads back to itself without a step into the value, by `$ref` and what asks the same value, such as `allOf`", "put `properties` or `items` between"),
    (Reason::SchemaSize, "the schema's compact text has over 262,144 bytes, it nests deeper than 64 levels, or has over 64 patterns, or one of over 4,096 bytes; or, if 40 to 43 don't apply, its patterns take too much memory", "make the schema smaller, for instance by `$defs` and `$ref`; *Patterns* in `docs/use/MODELLING.md`"),
    (Reason::Invalid, "the document, as the change would leave it, is not valid under its schema", "change the value that is not valid, or the schema first"),
    (Reason::Path, "the path is not a JSONPath query (RFC 9535): its syntax or the types of its functions are wrong, or it begins or ends with a blank", "compare the query with RFC 9535, section 2; a query begins with `$`"),
    (Reason::PathLeftOut, "the path is a query, but calls `match` or `search`, or has a number that is not a 64-bit whole number without fraction and exponent", "compare with whole numbers and `==`, and match texts in your own program"),
    (Reason::PathLong, "the path has over 1,024 bytes", "send several shorter queries"),
    (Reason::PathNodes, "a list of nodes, after some segment of the query or of a query in its filters, would have over 100,000", "select less, for instance by a slice such as `[0:100000]`"),
    (Reason::ReplyLong, "the reply would have over 16,777,216 bytes without its LF", "select less, or read the values one by one; of `changes`, read the documents anew"),
    (Reason::Full, "there is no room for the change, not even after a snapshot, and in format 3 none for the documents and marks that it would leave; or the requested snapshot is longer than a half", "make it larger by `jpstore-cli grow STORE`, also while a hub serves it; in format 2 a `delete` takes room too"),
    (Reason::Device, "reading, writing or syncing the file failed during this change, snapshot or step, perhaps as the file system is full; the next opening shows whether it is stored", "look at the disk and its free space, end the program and open the store again (a hub's service does that)"),
    (Reason::Broken, "the device failed before; nothing is written any more, and questions are answered from the state after the last change that was answered as done", "look at the disk and its free space, end the program and open the store again (a hub's service does that)"),
    (Reason::Memory, "the program ran out of memory for this line or its batch; nothing was changed", "send the line again; a smaller document or query needs less"),
    (Reason::SeqEnd, "the count of accepted changes is at its end (2^64-1)", "go on reading; for more changes `dump` it, and `load` the dump into a new store"),
    (Reason::TransactionLarge, "what a transaction copies, and the documents that it puts under other schemas, have over 33,554,432 bytes of text", "divide it"),
    (Reason::AlreadyAStore, "the device holds a store already; only programs in Rattle are told this, by `Store::format`", "format another device"),
    (Reason::Small, "`format` or `copy` for format 3 was given under 160 sectors, or a program in Rattle, by `Store::format`, a device with under 3 or over 4,294,967,296", "choose another number"),
    (Reason::NotAStore, "the file does not begin as a store does, or has too few or too many sectors", "check that it is the right file"),
    (Reason::Damaged, "the file begins as a store, but what follows is not one, or was not copied whole", "restore it from a copy or a dump; without one, `jpstore salvage FILE` writes what can still be read"),
    (Reason::NoRoom, "the documents do not fit in a half of the file that `copy` would make, or, of a file of format 1, of format 2; or `upgrade` lacks room for both formats. No document was written", "copy it to a larger file; `dump` one of format 1 with the program that wrote it, and load that into a larger store"),
    (Reason::CutOff, "a store of format 3 was opened with `--strict`, and a commit was cut off in it: one under way at a stop, or the last one answered. The file was left as it is", "compare it with a copy, or with what its clients know; `jpstore repair FILE` takes it as it is"),
    (Reason::NewerSchema, "a schema has a keyword or a reference that format 2 lacks", "change the schema, or stay in format 3"),
];

/// The kind of `create`, as `enum jpstore_change_kind` has it.
pub(crate) const CREATE: i32 = 1;

/// The kind of `patch`, as `enum jpstore_change_kind` has it.
pub(crate) const PATCH: i32 = 2;

/// The kind of `schema`, as `enum jpstore_change_kind` has it.
pub(crate) const SET_SCHEMA: i32 = 3;

/// The kind of `delete`, as `enum jpstore_change_kind` has it.
pub(crate) const DELETE: i32 = 4;

/// The kind of `transaction`, as `enum jpstore_change_kind` has it.
pub(crate) const TRANSACTION: i32 = 5;
