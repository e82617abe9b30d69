//! The tables of the protocol, written by tools/protocol.py from docs/protocol.toml.

// Not each row is used here.
#![allow(dead_code)]

use crate::refusals::Refusal;

/// How the value of a keyword holds schemas.
#[derive(Clone, Copy, Debug, PartialEq, Eq)]
pub enum Holds {
    /// Not at all.
    Nothing,
    /// It is one.
    One,
    /// It is a list of them.
    Several,
    /// It is an object of them by name.
    Named,
}

/// The refusals of a store. From 70 on they are of its opening, and no request is answered them.
#[rustfmt::skip]
pub const REFUSALS: &[Refusal] = &[
    Refusal { number: 10, name: "line-too-long", status: 413, meaning: "the line has over 1,048,576 bytes", advice: "send a smaller document, or make it by several patches" },
    Refusal { number: 11, name: "not-json", status: 400, meaning: "this is not a JSON text in UTF-8, or nests deeper than 127 levels", advice: "correct the text; a JSON parser tells the place" },
    Refusal { number: 12, name: "number", status: 422, meaning: "the text has a number that is not a 64-bit whole number, such as `1.5`", advice: "send whole numbers, or a text" },
    Refusal { number: 13, name: "depth", status: 422, meaning: "the document would nest deeper than 64 levels", advice: "make the document flatter" },
    Refusal { number: 14, name: "command", status: 400, meaning: "no command has this form: a member is missing, unknown, or has a wrong value", advice: "compare with the command in `docs/use/PROTOCOL.md`; `create` needs `schema` too" },
    Refusal { number: 15, name: "name", status: 400, meaning: "the name is not 1 to 64 of the allowed characters", advice: "use the letters A to Z and a to z, digits, `.`, `_` and `-`" },
    Refusal { number: 20, name: "exists", status: 409, meaning: "a document of that name exists already", advice: "choose another name, or patch the document that exists" },
    Refusal { number: 21, name: "no-document", status: 404, meaning: "no document has that name", advice: "list the names, and compare" },
    Refusal { number: 22, name: "too-many", status: 507, meaning: "the store has 1,024 documents already, or 65,536 in format 3", advice: "delete one, join several in one document, or bring a store in format 2 to format 3 by `upgrade`" },
    Refusal { number: 23, name: "too-large", status: 413, meaning: "the document's compact text would have over 1,048,576 bytes", advice: "make the document smaller, or divide it into several" },
    Refusal { number: 24, name: "revision", status: 412, meaning: "the document has another revision than `if_rev`; `rev` is the document's", advice: "read the document again, and send a patch that fits it, with its new revision" },
    Refusal { number: 25, name: "mark", status: 409, meaning: "the mark is another than `if_mark`; `mark` is the present one", advice: "if it is your own, the change is made" },
    Refusal { number: 30, name: "patch-shape", status: 400, meaning: "`ops` is not a list, or an operation is not an object, has no known `op`, or lacks a member", advice: "compare the operations with RFC 6902, section 4" },
    Refusal { number: 31, name: "patch-pointer", status: 400, meaning: "`path` or `from` of an operation is not a JSON Pointer", advice: "begin it with `/`, and write `~` as `~0` and `/` in a name as `~1`" },
    Refusal { number: 32, name: "patch-missing", status: 409, meaning: "a place that the operation needs does not exist", advice: "read the document; `add` the parent first" },
    Refusal { number: 33, name: "patch-into-itself", status: 422, meaning: "a `move` puts a value into itself", advice: "use `copy` instead" },
    Refusal { number: 34, name: "patch-test", status: 409, meaning: "a `test` found another value", advice: "read the document again, and send a patch that fits it" },
    Refusal { number: 35, name: "patch-root", status: 422, meaning: "the patch removes the whole document", advice: "use the command `delete` instead" },
    Refusal { number: 36, name: "patch-long", status: 413, meaning: "there are over 4,096 operations, their text has over 2,097,152 bytes, or it nests deeper than 66 levels", advice: "divide the patch into several" },
    Refusal { number: 37, name: "no-value", status: 404, meaning: "the document has no value at this place", advice: "read the value at a shorter path, to see what is there" },
    Refusal { number: 38, name: "pointer", status: 400, meaning: "the path is not a JSON Pointer", advice: "begin it with `/`, or leave it empty for the whole document; write `~` as `~0` and `/` in a name as `~1`" },
    Refusal { number: 40, name: "schema-form", status: 422, meaning: "a schema is neither a boolean nor an object, a keyword's value has a wrong form, two schemas have one `$anchor`, or a pattern is none", advice: "compare the schema with JSON Schema Validation 2020-12, section 6, and a pattern with `docs/use/MODELLING.md`" },
    Refusal { number: 41, name: "schema-keyword", status: 422, meaning: "the schema has a keyword that is not supported, or only in format 3, has `$id` or `$schema` below its root, or names another dialect", advice: "leave the keyword out, or use supported ones; `jpstore upgrade FILE` makes format 3" },
    Refusal { number: 42, name: "schema-ref", status: 422, meaning: "a `$ref` leads to no schema in this one; format 2 reads `#` and `#/$defs/NAME` alone", advice: "define the schema under `$defs` of the root" },
    Refusal { number: 43, name: "schema-loop", status: 422, meaning: "a schema leads back to itself without a step into the value, by `$ref` and what asks the same value, such as `allOf`", advice: "put `properties` or `items` between" },
    Refusal { number: 44, name: "schema-size", status: 422, meaning: "the schema's compact text has over 262,144 bytes, it nests deeper than 64 levels, or has over 64 patterns, or one of over 4,096 bytes; or, if 40 to 43 don't apply, its patterns take too much memory", advice: "make the schema smaller, for instance by `$defs` and `$ref`; *Patterns* in `docs/use/MODELLING.md`" },
    Refusal { number: 45, name: "invalid", status: 422, meaning: "the document, as the change would leave it, is not valid under its schema", advice: "change the value that is not valid, or the schema first" },
    Refusal { number: 50, name: "path", status: 400, meaning: "the path is not a JSONPath query (RFC 9535): its syntax or the types of its functions are wrong, or it begins or ends with a blank", advice: "compare the query with RFC 9535, section 2; a query begins with `$`" },
    Refusal { number: 51, name: "path-left-out", status: 422, meaning: "the path is a query, but calls `match` or `search`, or has a number that is not a 64-bit whole number without fraction and exponent", advice: "compare with whole numbers and `==`, and match texts in your own program" },
    Refusal { number: 52, name: "path-long", status: 414, meaning: "the path has over 1,024 bytes", advice: "send several shorter queries" },
    Refusal { number: 53, name: "path-nodes", status: 422, meaning: "a list of nodes, after some segment of the query or of a query in its filters, would have over 100,000", advice: "select less, for instance by a slice such as `[0:100000]`" },
    Refusal { number: 54, name: "reply-long", status: 422, meaning: "the reply would have over 16,777,216 bytes without its LF", advice: "select less, or read the values one by one; of `changes`, read the documents anew" },
    Refusal { number: 60, name: "full", status: 507, meaning: "there is no room for the change, not even after a snapshot, and in format 3 none for the documents and marks that it would leave; or the requested snapshot is longer than a half", advice: "make it larger by `jpstore-cli grow STORE`, also while a hub serves it; in format 2 a `delete` takes room too" },
    Refusal { number: 61, name: "device", status: 500, meaning: "reading, writing or syncing the file failed during this change, snapshot or step, perhaps as the file system is full; the next opening shows whether it is stored", advice: "look at the disk and its free space, end the program and open the store again (a hub's service does that)" },
    Refusal { number: 62, name: "broken", status: 503, meaning: "the device failed before; nothing is written any more, and questions are answered from the state after the last change that was answered as done", advice: "look at the disk and its free space, end the program and open the store again (a hub's service does that)" },
    Refusal { number: 63, name: "memory", status: 503, meaning: "the program ran out of memory for this line or its batch; nothing was changed", advice: "send the line again; a smaller document or query needs less" },
    Refusal { number: 64, name: "seq-end", status: 507, meaning: "the count of accepted changes is at its end (2^64-1)", advice: "go on reading; for more changes `dump` it, and `load` the dump into a new store" },
    Refusal { number: 65, name: "transaction-large", status: 413, meaning: "what a transaction copies, and the documents that it puts under other schemas, have over 33,554,432 bytes of text", advice: "divide it" },
    Refusal { number: 70, name: "already-a-store", status: 500, meaning: "the device holds a store already; only programs in Rattle are told this, by `Store::format`", advice: "format another device" },
    Refusal { number: 71, name: "small", status: 500, meaning: "`format` or `copy` for format 3 was given under 160 sectors, or a program in Rattle, by `Store::format`, a device with under 3 or over 4,294,967,296", advice: "choose another number" },
    Refusal { number: 72, name: "not-a-store", status: 500, meaning: "the file does not begin as a store does, or has too few or too many sectors", advice: "check that it is the right file" },
    Refusal { number: 73, name: "damaged", status: 500, meaning: "the file begins as a store, but what follows is not one, or was not copied whole", advice: "restore it from a copy or a dump; without one, `jpstore salvage FILE` writes what can still be read" },
    Refusal { number: 74, name: "no-room", status: 500, meaning: "the documents do not fit in a half of the file that `copy` would make, or, of a file of format 1, of format 2; or `upgrade` lacks room for both formats. No document was written", advice: "copy it to a larger file; `dump` one of format 1 with the program that wrote it, and load that into a larger store" },
    Refusal { number: 75, name: "cut-off", status: 500, meaning: "a store of format 3 was opened with `--strict`, and a commit was cut off in it: one under way at a stop, or the last one answered. The file was left as it is", advice: "compare it with a copy, or with what its clients know; `jpstore repair FILE` takes it as it is" },
    Refusal { number: 76, name: "newer-schema", status: 500, meaning: "a schema has a keyword or a reference that format 2 lacks", advice: "change the schema, or stay in format 3" },
];

/// The names of the refusals that no store has.
#[rustfmt::skip]
pub const OWN_REFUSALS: &[(u64, &str)] = &[
    (80, "gone"),
    (81, "watching"),
    (82, "no-majority"),
    (83, "not-grown"),
];

/// The number of `line-too-long`.
pub const LINE_TOO_LONG: u64 = 10;

/// The number of `not-json`.
pub const NOT_JSON: u64 = 11;

/// The number of `number`.
pub const NUMBER: u64 = 12;

/// The number of `depth`.
pub const DEPTH: u64 = 13;

/// The number of `command`.
pub const COMMAND: u64 = 14;

/// The number of `name`.
pub const NAME: u64 = 15;

/// The number of `exists`.
pub const EXISTS: u64 = 20;

/// The number of `no-document`.
pub const NO_DOCUMENT: u64 = 21;

/// The number of `too-many`.
pub const TOO_MANY: u64 = 22;

/// The number of `too-large`.
pub const TOO_LARGE: u64 = 23;

/// The number of `revision`.
pub const REVISION: u64 = 24;

/// The number of `mark`.
pub const MARK: u64 = 25;

/// The number of `patch-shape`.
pub const PATCH_SHAPE: u64 = 30;

/// The number of `patch-pointer`.
pub const PATCH_POINTER: u64 = 31;

/// The number of `patch-missing`.
pub const PATCH_MISSING: u64 = 32;

/// The number of `patch-into-itself`.
pub const PATCH_INTO_ITSELF: u64 = 33;

/// The number of `patch-test`.
pub const PATCH_TEST: u64 = 34;

/// The number of `patch-root`.
pub const PATCH_ROOT: u64 = 35;

/// The number of `patch-long`.
pub const PATCH_LONG: u64 = 36;

/// The number of `no-value`.
pub const NO_VALUE: u64 = 37;

/// The number of `pointer`.
pub const POINTER: u64 = 38;

/// The number of `schema-form`.
pub const SCHEMA_FORM: u64 = 40;

/// The number of `schema-keyword`.
pub const SCHEMA_KEYWORD: u64 = 41;

/// The number of `schema-ref`.
pub const SCHEMA_REF: u64 = 42;

/// The number of `schema-loop`.
pub const SCHEMA_LOOP: u64 = 43;

/// The number of `schema-size`.
pub const SCHEMA_SIZE: u64 = 44;

/// The number of `invalid`.
pub const INVALID: u64 = 45;

/// The number of `path`.
pub const PATH: u64 = 50;

/// The number of `path-left-out`.
pub const PATH_LEFT_OUT: u64 = 51;

/// The number of `path-long`.
pub const PATH_LONG: u64 = 52;

/// The number of `path-nodes`.
pub const PATH_NODES: u64 = 53;

/// The number of `reply-long`.
pub const REPLY_LONG: u64 = 54;

/// The number of `full`.
pub const FULL: u64 = 60;

/// The number of `device`.
pub const DEVICE: u64 = 61;

/// The number of `broken`.
pub const BROKEN: u64 = 62;

/// The number of `memory`.
pub const MEMORY: u64 = 63;

/// The number of `seq-end`.
pub const SEQ_END: u64 = 64;

/// The number of `transaction-large`.
pub const TRANSACTION_LARGE: u64 = 65;

/// The number of `already-a-store`.
pub const ALREADY_A_STORE: u64 = 70;

/// The number of `small`.
pub const SMALL: u64 = 71;

/// The number of `not-a-store`.
pub const NOT_A_STORE: u64 = 72;

/// The number of `damaged`.
pub const DAMAGED: u64 = 73;

/// The number of `no-room`.
pub const NO_ROOM: u64 = 74;

/// The number of `cut-off`.
pub const CUT_OFF: u64 = 75;

/// The number of `newer-schema`.
pub const NEWER_SCHEMA: u64 = 76;

/// The changes after a number are gone.
pub const GONE: u64 = 80;

/// A line came after `watch`.
pub const WATCHING: u64 = 81;

/// No majority of a replicated store's log answered in time; the change is not made, and never will be.
pub const NO_MAJORITY: u64 = 82;

/// The store has not grown.
pub const NOT_GROWN: u64 = 83;

/// The most bytes of a line, without its LF.
pub const MOST_LINE_BYTES: usize = 1_048_576;

/// The most levels that a line nests.
pub const MOST_DEPTH: usize = 127;

/// The most bytes of a document's compact text.
pub const MOST_DOCUMENT_BYTES: usize = 1_048_576;

/// The most levels that a document nests.
pub const MOST_LEVELS: usize = 64;

/// The most bytes of a schema's compact text.
pub const MOST_SCHEMA_BYTES: usize = 262_144;

/// The most levels that a schema nests.
pub const MOST_SCHEMA_LEVELS: usize = 64;

/// The most patterns of a schema.
pub const MOST_PATTERNS: usize = 64;

/// The most bytes of a pattern.
pub const MOST_PATTERN_BYTES: usize = 4_096;

/// The most operations of a patch.
pub const MOST_OPERATIONS: usize = 4_096;

/// The most changes of a transaction.
pub const MOST_CHANGES: usize = 1_024;

/// The most bytes that a transaction copies, with the documents that it puts under other schemas.
pub const MOST_TRANSACTION_BYTES: usize = 33_554_432;

/// The most bytes of the value of a mark.
pub const MOST_MARK_BYTES: usize = 128;

/// The most bytes of changes that may be asked for at once.
pub const MOST_TOLD_BYTES: usize = 4_194_304;

/// The most sectors that a step of a copied snapshot may be asked to write.
pub const MOST_STEP_SECTORS: usize = 1_000_000;

/// The most changes that the program makes in one commit.
pub const MOST_GROUP: usize = 1_024;

/// The words of the commands that change documents.
#[rustfmt::skip]
pub const CHANGES: &[&[u8]] = &[
    b"create",
    b"patch",
    b"schema",
    b"delete",
    b"transaction",
];

/// The words of the commands that write the file anew or a part of it, and change no document.
#[rustfmt::skip]
pub const SNAPSHOTS: &[&[u8]] = &[
    b"snapshot",
    b"pump",
    b"seal",
];

/// The words of the commands that the server answers itself.
#[rustfmt::skip]
pub const OWN_COMMANDS: &[&[u8]] = &[
    b"watch",
    b"export",
    b"grow",
];

/// The keywords of JSON Schema 2020-12, and words beside them that name no mistake.
#[rustfmt::skip]
pub const KEYWORDS: &[(&str, Holds)] = &[
    ("$defs", Holds::Named),
    ("$ref", Holds::Nothing),
    ("$anchor", Holds::Nothing),
    ("$schema", Holds::Nothing),
    ("$id", Holds::Nothing),
    ("allOf", Holds::Several),
    ("anyOf", Holds::Several),
    ("oneOf", Holds::Several),
    ("not", Holds::One),
    ("if", Holds::One),
    ("then", Holds::One),
    ("else", Holds::One),
    ("dependentSchemas", Holds::Named),
    ("prefixItems", Holds::Several),
    ("items", Holds::One),
    ("contains", Holds::One),
    ("properties", Holds::Named),
    ("patternProperties", Holds::Named),
    ("additionalProperties", Holds::One),
    ("propertyNames", Holds::One),
    ("type", Holds::Nothing),
    ("enum", Holds::Nothing),
    ("const", Holds::Nothing),
    ("multipleOf", Holds::Nothing),
    ("maximum", Holds::Nothing),
    ("exclusiveMaximum", Holds::Nothing),
    ("minimum", Holds::Nothing),
    ("exclusiveMinimum", Holds::Nothing),
    ("maxLength", Holds::Nothing),
    ("minLength", Holds::Nothing),
    ("pattern", Holds::Nothing),
    ("maxItems", Holds::Nothing),
    ("minItems", Holds::Nothing),
    ("uniqueItems", Holds::Nothing),
    ("maxContains", Holds::Nothing),
    ("minContains", Holds::Nothing),
    ("maxProperties", Holds::Nothing),
    ("minProperties", Holds::Nothing),
    ("required", Holds::Nothing),
    ("dependentRequired", Holds::Nothing),
    ("unevaluatedProperties", Holds::One),
    ("unevaluatedItems", Holds::One),
    ("$dynamicRef", Holds::Nothing),
    ("$dynamicAnchor", Holds::Nothing),
    ("$vocabulary", Holds::Nothing),
    ("contentSchema", Holds::One),
    ("definitions", Holds::Named),
    ("$comment", Holds::Nothing),
    ("$recursiveAnchor", Holds::Nothing),
    ("$recursiveRef", Holds::Nothing),
    ("contentEncoding", Holds::Nothing),
    ("contentMediaType", Holds::Nothing),
    ("default", Holds::Nothing),
    ("dependencies", Holds::Nothing),
    ("deprecated", Holds::Nothing),
    ("description", Holds::Nothing),
    ("examples", Holds::Nothing),
    ("format", Holds::Nothing),
    ("readOnly", Holds::Nothing),
    ("title", Holds::Nothing),
    ("writeOnly", Holds::Nothing),
];

/// Keywords of earlier drafts without an effect, with those of 2020-12 that say the same.
#[rustfmt::skip]
pub const EARLIER: &[(&str, &str)] = &[
    ("$recursiveRef", "$ref"),
    ("additionalItems", "prefixItems` and `items"),
    ("dependencies", "dependentRequired"),
    ("disallow", "not"),
    ("divisibleBy", "multipleOf"),
    ("extends", "allOf"),
    ("id", "$id"),
];
