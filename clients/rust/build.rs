//! Links the library: in the folder that JPSTORE_LIB names, in this repository's `clients/c/out`, or the installed one, which
//! pkg-config finds. That one is linked as the shared one, and others as the static one, unless JPSTORE_LINK says `static` or
//! `shared`.

use std::path::{Path, PathBuf};
use std::process::Command;
use std::{env, process};

fn main() {
    println!("cargo:rerun-if-env-changed=JPSTORE_LIB");
    println!("cargo:rerun-if-env-changed=JPSTORE_LINK");
    if env::var_os("DOCS_RS").is_some() {
        // Pages alone are made, where there is no library.
        return;
    }
    let (folder, usual) = library();
    let is_shared = env::var("JPSTORE_LINK").map_or(usual == "shared", |kind| kind == "shared");
    let (kind, name) = if is_shared {
        ("dylib", "libjpstore.so")
    } else {
        ("static", "libjpstore.a")
    };
    let file = folder.join(name);
    if !file.exists() {
        stop(&format!("{} isn't there", file.display()));
    }
    println!("cargo:rerun-if-changed={}", file.display());
    println!("cargo:rustc-link-search=native={}", folder.display());
    println!("cargo:rustc-link-lib={kind}=jpstore");
}

/// The library's folder, and how it is linked there unless somebody says otherwise.
fn library() -> (PathBuf, &'static str) {
    let repository = Path::new(env!("CARGO_MANIFEST_DIR")).join("../../clients/c");
    match env::var_os("JPSTORE_LIB") {
        Some(folder) => (PathBuf::from(folder), "static"),
        None if repository.join("jpstore.h").exists() => (repository.join("out"), "static"),
        None => (installed(), "shared"),
    }
}

/// The folder of the installed library.
fn installed() -> PathBuf {
    match Command::new("pkg-config")
        .args(["--variable=libdir", "jpstore"])
        .output()
    {
        Ok(told) if told.status.success() => {
            PathBuf::from(String::from_utf8_lossy(&told.stdout).trim())
        }
        _ => stop("pkg-config finds no jpstore"),
    }
}

fn stop(why: &str) -> ! {
    eprintln!("{why}: run clients/c/build, install libjpstore-dev, or name the library's folder in JPSTORE_LIB");
    process::exit(1)
}
