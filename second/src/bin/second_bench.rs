//! The second bench program: a script on standard input, its outcome on
//! standard output.

#![forbid(unsafe_code)]

use std::io::{Read, Write};

use second::{script, Fault};

fn main() -> std::io::Result<()> {
    let mut input = Vec::new();
    std::io::stdin().lock().read_to_end(&mut input)?;
    let output = script::run(&input, Fault::None);
    std::io::stdout().lock().write_all(&output)
}
