//! How deep the records stand and how many bytes they take.

use crate::fault::{Fault, Place};
use crate::limits;

#[derive(Default)]
pub struct Meter {
    bytes: usize,
    /// Whether some record stood too deep.
    pub deep: bool,
}

/// Whether a record has its place.
pub enum Room {
    Fits,
    /// The first record that is too deep says so; what is inside such a record is left out.
    Deep(Option<Fault>),
    /// The record that passes the bytes says so; from there on nothing is written.
    Full(Option<Fault>),
}

impl Meter {
    /// Counts a record at a depth, with so many bytes of fields that are no records.
    pub fn record(&mut self, at: Place, depth: usize, fields: usize) -> Room {
        if self.is_full() {
            return Room::Full(None);
        }
        self.bytes += limits::HEAD + fields;
        if self.is_full() {
            return Room::Full(Some(limits::too_long(at)));
        }
        if depth <= limits::DEPTH {
            return Room::Fits;
        }
        let first = !std::mem::replace(&mut self.deep, true);
        let what = format!("records nested deeper than {}", limits::DEPTH);
        Room::Deep(first.then(|| Fault::new(at, what).refused(2)))
    }

    /// Whether the bytes of an agreement are passed.
    pub fn is_full(&self) -> bool {
        self.bytes > limits::BYTES
    }
}
