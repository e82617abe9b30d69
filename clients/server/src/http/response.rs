//! What a request is answered with.

use super::changes::Events;
use super::lines::DocumentLines;
use crate::limits::SMALL;
use crate::program::room::Taken;
use bytes::Bytes;

/// The content of an answer.
pub enum Body {
    /// There is none, and the status needs none.
    None,
    /// These bytes, and the room that they take.
    Bytes(Bytes, Option<Taken>),
    /// The changes, as they are made.
    Events(Box<Events>),
    /// The documents of one moment.
    Lines(Box<DocumentLines>),
}

/// An answer.
pub struct Response {
    /// The status.
    pub status: u16,
    /// The media type of the content.
    pub kind: &'static str,
    /// Further fields.
    pub fields: Vec<(&'static str, String)>,
    /// The content.
    pub body: Body,
}

impl Response {
    /// An answer without content.
    pub fn empty(status: u16) -> Response {
        Response { status, kind: "", fields: Vec::new(), body: Body::None }
    }

    /// An answer with these bytes.
    pub fn bytes(status: u16, kind: &'static str, bytes: Bytes) -> Response {
        Response { status, kind, fields: Vec::new(), body: Body::Bytes(bytes, None) }
    }

    /// An answer with a text.
    pub fn text(status: u16, kind: &'static str, text: String) -> Response {
        Response::bytes(status, kind, text.into())
    }

    /// An answer with a JSON text.
    pub fn json(status: u16, text: String) -> Response {
        Response::text(status, "application/json", text + "\n")
    }

    /// Whether its end isn't known when it begins.
    pub fn is_stream(&self) -> bool {
        matches!(self.body, Body::Events(_) | Body::Lines(_))
    }

    /// Whether its content is large.
    pub fn is_large(&self) -> bool {
        matches!(&self.body, Body::Bytes(bytes, _) if bytes.len() > SMALL) || self.is_stream()
    }

    /// The same with a further field.
    pub fn with(mut self, name: &'static str, value: impl Into<String>) -> Response {
        self.fields.push((name, value.into()));
        self
    }
}
