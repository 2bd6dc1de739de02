//! The limits of paper 01, sections "Records" and "Typing", and of paper 02, No. 7.

use crate::fault::{Fault, Place};

pub const PARTIES: usize = 16;
pub const READINGS: usize = 16;
pub const TEMPLATES: usize = 32;
/// The values of a reading.
pub const READING_VALUES: usize = 4;
/// The values of a template.
pub const TEMPLATE_VALUES: usize = 8;
/// The party parameters of a template.
pub const PARAMETERS: usize = 4;
/// The values in sight.
pub const SIGHT: usize = 16;
/// How deep records nest, the agreement being depth 1.
pub const DEPTH: usize = 24;
/// The bytes of an agreement.
pub const BYTES: usize = 16_384;
/// The width of the main clause, of a template's body and of a `then`.
pub const WIDTH: usize = 256;
/// The units that a template may declare, and that the main clause may need in a sized agreement.
pub const UNITS: usize = 128;
/// The length and the kind that every record begins with.
pub const HEAD: usize = 4;
/// Numbers run from minus this to this.
pub const NUMBER: i64 = 1_000_000_000;
/// The blame byte of party parameter 0.
pub const FIRST_PARAMETER: u8 = 128;

/// Whether a number is one of the language.
pub fn is_number(value: i64) -> bool {
    (-NUMBER..=NUMBER).contains(&value)
}

/// The byte of an index that a limit above keeps small.
pub fn byte(index: usize) -> u8 {
    u8::try_from(index).unwrap_or(u8::MAX)
}

/// The fault of a text whose record would pass the bytes of an agreement: refusal 1.
pub fn too_long(at: Place) -> Fault {
    Fault::new(at, "the record would be over 16,384 bytes").refused(1)
}
