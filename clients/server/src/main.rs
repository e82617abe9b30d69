//! Serves a store to many clients, by a Unix socket and over HTTP, with the proved program in a process of its own.
#![warn(missing_docs)]

mod doors;
mod ending;
mod error;
mod history;
mod http;
mod hub;
mod json;
mod limits;
mod lines;
mod options;
mod other;
mod program;
mod protocol;
mod refusals;
mod run;
mod say;
mod store;
mod threads;

use options::Asked;

fn main() {
    let status = match options::read(std::env::args_os().skip(1)) {
        Ok(Asked::Show(text)) => say::show(&text).map_or_else(|error| said(&error, 1), |()| 0),
        Ok(Asked::Serve(options)) => run::run(*options).map_or_else(|error| said(&error, 1), |()| 0),
        Err(error) => said(&error, 2),
    };
    std::process::exit(status);
}

fn said(error: &error::Error, status: i32) -> i32 {
    say::complain(&error.to_string());
    status
}
