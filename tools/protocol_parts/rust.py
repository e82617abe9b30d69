"""The tables of the server, and those of the crate `jpstore`."""
import json

from .parts import WRITTEN, Whole
from .table import constant

SERVER, CRATE = "clients/server/src/protocol.rs", "clients/rust/src/protocol.rs"
SHAPES = {"one": "One", "several": "Several", "named": "Named"}

SERVER_HEAD = f"""//! The tables of the protocol, {WRITTEN}.

// Not each row is used here.
#![allow(dead_code)]

use crate::refusals::Refusal;

/// How the value of a keyword holds schemas.
#[derive(Clone, Copy, Debug, PartialEq, Eq)]
pub enum Holds {{
    /// Not at all.
    Nothing,
    /// It is one.
    One,
    /// It is a list of them.
    Several,
    /// It is an object of them by name.
    Named,
}}
"""

REASON_HEAD = f"""//! The reasons of refusals, and the kinds of changes, {WRITTEN}.

/// Why the store refuses something; [`Reason::advice`] says what to do about it.
#[derive(Clone, Copy, Debug, PartialEq, Eq, Hash)]
#[non_exhaustive]
#[repr(u16)]
pub enum Reason {{
"""

# The members of a refusal that tell more.
MORE = {name: f"[`Refusal::{name}`](crate::Refusal::{name})" for name in ("rev", "mark")}


def text(value):
    """A text in quotes."""
    return json.dumps(value, ensure_ascii=False)


def _rows(comment, name, kind, rows):
    lines = "".join(f"    {row},\n" for row in rows)
    return f"/// {comment}\n#[rustfmt::skip]\npub const {name}: &[{kind}] = &[\n{lines}];\n"


def _declared(comment, name, kind, value):
    return f"/// {comment}\npub const {name}: {kind} = {value};\n"


def _refusal(row):
    texts = ", ".join(f"{key}: {text(row[key])}" for key in ("meaning", "advice"))
    return f'Refusal {{ number: {row["number"]}, name: {text(row["name"])}, status: {row["status"]}, {texts} }}'


def _constants(table):
    for number, row in {**table.refusals, **table.own_refusals}.items():
        yield _declared(row.get("says") or f"The number of `{row['name']}`.", constant(row["name"]), "u64", number)
    for name, row in table.limits.items():
        yield _declared(row["says"], name, "usize", f"{row['value']:_}")


def _server(table):
    shapes = {name: f"Holds::{SHAPES.get(row.get('holds'), 'Nothing')}" for name, row in table.keywords.items()}
    own = [f"({number}, {text(row['name'])})" for number, row in table.own_refusals.items()]
    words = {"CHANGES": "change", "SNAPSHOTS": "snapshot", "OWN_COMMANDS": "own"}
    said = {"CHANGES": "change documents", "SNAPSHOTS": "write the file anew or a part of it, and change no document",
            "OWN_COMMANDS": "the server answers itself"}
    return "\n".join([
        SERVER_HEAD,
        _rows("The refusals of a store. From 70 on they are of its opening, and no request is answered them.", "REFUSALS", "Refusal",
              map(_refusal, table.refusals.values())),
        _rows("The names of the refusals that no store has.", "OWN_REFUSALS", "(u64, &str)", own),
        *_constants(table),
        *(_rows(f"The words of the commands that {said[name]}.", name, "&[u8]", [f"b{text(word)}" for word in table.of_kind(kind)])
          for name, kind in words.items()),
        _rows("The keywords of JSON Schema 2020-12, and words beside them that name no mistake.", "KEYWORDS", "(&str, Holds)",
              [f"({text(name)}, {shape})" for name, shape in shapes.items()]),
        _rows("Keywords of earlier drafts without an effect, with those of 2020-12 that say the same.", "EARLIER", "(&str, &str)",
              [f"({text(name)}, {text(same)})" for name, same in table.earlier.items()]),
    ])


def camel(name):
    """The name of a refusal as that of a variant."""
    return "".join(map(str.capitalize, name.split("-")))


def sentence(brief):
    """A line of a header as a sentence of Rust."""
    told = brief.format(**MORE)
    return told[:1].upper() + told[1:] + "."


def _crate(table):
    rows = table.refusals.values()
    variants = "".join(f"    /// {sentence(row.get('brief', row['meaning']))}\n    {camel(row['name'])} = {row['number']},\n" for row in rows)
    meanings = [f"(Reason::{camel(row['name'])}, {text(row['meaning'])}, {text(row['advice'])})" for row in rows]
    kinds = [_declared(f"The kind of `{word}`, as `enum jpstore_change_kind` has it.", row.get("c_name", constant(word)), "i32", row["number"])
             for word, row in table.commands.items() if "number" in row]
    told = _rows("Each reason, what it means, and what to do about it.", "ROWS", "(Reason, &str, &str)", meanings)
    return (REASON_HEAD + variants + "}\n\n" + "\n".join([told, *kinds])).replace("pub const", "pub(crate) const")


def parts(table):
    """The modules of the server and of the crate."""
    return [Whole(SERVER, _server(table)), Whole(CRATE, _crate(table))]
