//! The twin as a program: from standard input to standard output, as the proved program does it.
//! On a refusal standard error names it; a failed read or write leaves status 2.

use brinetoggle_twin::twin::{self, FILE_LIMIT};
use std::io::{self, Read, Write};
use std::process::ExitCode;

fn main() -> ExitCode {
    match run() {
        Ok(()) => ExitCode::SUCCESS,
        Err(error) => {
            eprintln!("{error}");
            ExitCode::from(2)
        }
    }
}

/// One byte past the limit is enough to see that a file is too long.
fn run() -> io::Result<()> {
    let mut input = Vec::new();
    let limit = FILE_LIMIT as u64 + 1;
    io::stdin().lock().take(limit).read_to_end(&mut input)?;
    let output = twin::program(&input);
    if let Some(numbers) = output.strip_prefix(b"NO ") {
        eprint!("refused: {}", String::from_utf8_lossy(numbers));
    }
    io::stdout().lock().write_all(&output)
}
