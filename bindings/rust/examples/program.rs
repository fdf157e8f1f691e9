//! The program `witx` in Rust: words on the command line, a bundle on standard input. tools/check-bindings holds
//! what it writes against what the proved program writes.

use std::io::{self, Read, Write};
use std::process::ExitCode;

fn main() -> io::Result<ExitCode> {
    let words: Vec<String> = std::env::args().skip(1).collect();
    let words: Vec<&str> = words.iter().map(String::as_str).collect();
    let mut input = Vec::new();
    io::stdin().read_to_end(&mut input)?;
    let outcome = witx_proved::run(&words, &input);
    io::stdout().write_all(&outcome.out)?;
    io::stderr().write_all(&outcome.err)?;
    Ok(ExitCode::from(outcome.status))
}
