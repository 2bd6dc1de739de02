//! Files as they are named on a command line: `-` is standard input.

use crate::check::check;
use crate::fault::Fault;
use crate::readings::{numbered, Reading};
use crate::shown::printable;
use crate::source::Source;
use std::io::{self, Read};

pub fn read(file: &str) -> Result<Vec<u8>, String> {
    let mut bytes = Vec::new();
    let result = match file {
        "-" => io::stdin().lock().read_to_end(&mut bytes).map(|_| bytes),
        _ => std::fs::read(file),
    };
    result.map_err(|error| format!("{}: {error}", printable(file)))
}

/// The text of an agreement that the proved check accepts, or all that is wrong with it.
pub fn source(file: &str) -> Result<Source, String> {
    let text = read(file)?;
    let accepted = check(&text).map_err(|refused| refused.told(file, &text))?;
    Source::of(&printable(file), accepted.assembled, &text).map_err(|fault| told(file, &fault))
}

/// The readings of a file, each with its line.
pub fn readings(file: &str, source: &Source) -> Result<Vec<(usize, Reading)>, String> {
    numbered(&read(file)?, Some(&source.assembled.agreement)).map_err(|fault| told(file, &fault))
}

fn told(file: &str, fault: &Fault) -> String {
    format!("{}:{fault}", printable(file))
}
