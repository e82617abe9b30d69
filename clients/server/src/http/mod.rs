//! The store over HTTP, as `docs/use/HTTP.md` says it.

mod accept;
pub mod app;
mod body;
mod changes;
mod conditions;
mod connection;
mod date;
mod documents;
mod facts;
mod fields;
mod filters;
pub mod guard;
mod head;
mod lines;
mod link;
pub mod listening;
mod making;
mod merge;
mod moving;
mod notices;
mod once;
mod pace;
mod page;
pub mod problem;
pub mod reasons;
mod response;
mod routes;
mod schemas;
mod target;
mod transactions;
mod trees;

pub use app::App;
pub use connection::serve;
