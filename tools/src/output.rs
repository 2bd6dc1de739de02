//! What the commands write: results to standard output, complaints to standard error.

use std::fmt::Display;
use std::io::{self, Write};

/// Writes a result, all of it.
pub fn result(bytes: &[u8]) -> Result<(), String> {
    let mut output = io::stdout().lock();
    output.write_all(bytes).and_then(|()| output.flush()).map_err(lost)
}

/// What is said of a result that cannot be written.
pub fn lost(error: impl Display) -> String {
    format!("standard output: {error}")
}

/// Complains of something. Where even this cannot be written, the exit status alone tells it.
pub fn complain(what: &str) {
    let _ = io::stderr().lock().write_all(format!("{what}\n").as_bytes());
}
