//! From Rust: the text of a mesh on standard input, the text of its cut on standard output.
//!
//!     cargo run --release --example convert < ../examples/shell-wall.mesh

use std::io::{self, Read, Write};
use std::process::ExitCode;

fn main() -> io::Result<ExitCode> {
    let mut input = Vec::new();
    let limit = brinetoggle::FILE_LIMIT as u64 + 1;
    io::stdin().lock().take(limit).read_to_end(&mut input)?;
    let mut out = io::stdout().lock();
    match brinetoggle::convert_text(&input) {
        Ok(cut) => {
            out.write_all(&cut)?;
            Ok(ExitCode::SUCCESS)
        }
        Err(refusal) => {
            writeln!(out, "{refusal}")?;
            Ok(ExitCode::from(1))
        }
    }
}
