//! The page to look at the store: its HTML, its CSS and its module of JavaScript; and the description by OpenAPI 3.1.

use super::connection::Request;
use super::problem::Problem;
use super::response::Response;
use super::target::parameters;
use bytes::Bytes;

/// Nothing but what the server itself serves is run or asked for.
const POLICY: &str = "default-src 'none'; script-src 'self'; style-src 'self'; connect-src 'self'; img-src data:; \
    base-uri 'none'; form-action 'none'; frame-ancestors 'none'";

/// The description, in which the version is left out.
const DESCRIPTION: &str = include_str!("openapi.json");

/// A file of the page.
#[derive(Debug, PartialEq, Eq)]
pub struct File {
    path: &'static str,
    kind: &'static str,
    text: &'static str,
}

const FILES: [File; 3] = [
    File { path: "/", kind: "text/html; charset=utf-8", text: include_str!("../../page/index.html") },
    File { path: "/page.css", kind: "text/css; charset=utf-8", text: include_str!("../../page/page.css") },
    File { path: "/page.js", kind: "text/javascript; charset=utf-8", text: include_str!("../../page/page.js") },
];

/// The file at a path.
pub fn file_at(path: &str) -> Option<&'static File> {
    const KNOWN: &[File] = &FILES;
    KNOWN.iter().find(|file| file.path == path)
}

impl File {
    /// The answer with it.
    pub fn response(&self) -> Response {
        Response::bytes(200, self.kind, Bytes::from_static(self.text.as_bytes()))
            .with("Content-Security-Policy", POLICY)
    }
}

/// The description.
pub fn description(request: &Request) -> Result<Response, Problem> {
    let [] = parameters(&request.query, [])?;
    Ok(Response::json(200, DESCRIPTION.trim_end().replace("@VERSION@", env!("CARGO_PKG_VERSION"))))
}
