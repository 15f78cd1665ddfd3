//! A script from standard input, run by hand, to standard output.

#![forbid(unsafe_code)]

use std::io::{Read, Write};

fn main() -> std::io::Result<()> {
    let mut script = Vec::new();
    std::io::stdin().take(65_537).read_to_end(&mut script)?;
    std::io::stdout().write_all(speed::script::output(&String::from_utf8_lossy(&script)).as_bytes())
}
