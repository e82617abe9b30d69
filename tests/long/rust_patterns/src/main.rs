//! Searches texts for patterns by Rust's crate `regex`. Each line of input has a pattern and texts, in hexadecimal UTF-8
//! between blanks; each line of output says of each text whether it matches (1 or 0), or `-` if there is no such pattern, and `+` if
//! it is too large.
use std::io::{self, BufRead, Write};

use regex::{Error, Regex};

fn text_of(hexadecimal: &str) -> String {
    let digits = hexadecimal.as_bytes().chunks(2).map(|pair| std::str::from_utf8(pair).expect("ASCII"));
    let bytes = digits.map(|pair| u8::from_str_radix(pair, 16).expect("hexadecimal")).collect();
    String::from_utf8(bytes).expect("UTF-8")
}

fn main() -> io::Result<()> {
    let mut out = io::BufWriter::new(io::stdout().lock());
    for line in io::stdin().lock().lines() {
        let line = line?;
        let mut words = line.split(' ').map(text_of);
        match Regex::new(&words.next().unwrap_or_default()) {
            Ok(pattern) => {
                let found: String = words.map(|text| if pattern.is_match(&text) { '1' } else { '0' }).collect();
                writeln!(out, "{found}")?;
            }
            Err(Error::CompiledTooBig(_)) => writeln!(out, "+")?,
            Err(_) => writeln!(out, "-")?,
        }
    }
    Ok(())
}
