//! The pond of the sample with other clauses: start 100, two parties, one type of reading with a number.

use reference::agreement::Type;
use reference::build::{agreement, reading_type};

pub fn pond(templates: &[Vec<u8>], main: &[u8]) -> Vec<u8> {
    agreement(100, 2, &[reading_type(&[Type::Number])], templates, main)
}
