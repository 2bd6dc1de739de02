//! What is wrong with an input, and where.

use crate::shown::printable;
use std::fmt;

/// A place in a text: line and column from 1, columns counted in characters.
#[derive(Clone, Copy, Debug, PartialEq, Eq, PartialOrd, Ord)]
pub struct Place {
    pub line: usize,
    pub column: usize,
}

impl Place {
    pub const START: Place = Place { line: 1, column: 1 };

    /// The place after a character that stood here.
    pub fn after(self, character: char) -> Place {
        match character {
            '\n' => Place { line: self.line + 1, column: 1 },
            _ => Place { column: self.column + 1, ..self },
        }
    }
}

impl fmt::Display for Place {
    fn fmt(&self, f: &mut fmt::Formatter) -> fmt::Result {
        write!(f, "{}:{}", self.line, self.column)
    }
}

/// A part of a text: where it begins, and its bytes.
#[derive(Clone, Copy, Debug, PartialEq, Eq)]
pub struct Span {
    pub at: Place,
    pub start: usize,
    pub end: usize,
}

impl Span {
    /// From the beginning of this part to the end of a later one.
    pub fn to(self, later: Span) -> Span {
        Span { end: later.end, ..self }
    }

    pub fn of(self, text: &str) -> &str {
        text.get(self.start..self.end).unwrap_or_default()
    }
}

/// What is wrong with a text.
#[derive(Clone, Debug, PartialEq, Eq)]
pub struct Fault {
    pub at: Place,
    /// In words, without control characters.
    pub what: String,
    /// How many characters are meant.
    pub length: usize,
    /// The papers' refusal that a record with this fault gets. None where the text stands for no record at all.
    pub refusal: Option<u32>,
}

impl Fault {
    pub fn new(at: Place, what: impl AsRef<str>) -> Fault {
        Fault { at, what: printable(what.as_ref()), length: 1, refusal: None }
    }

    pub fn err<T>(at: Place, what: impl AsRef<str>) -> Result<T, Fault> {
        Err(Fault::new(at, what))
    }

    /// The same for so many characters.
    pub fn of_length(self, length: usize) -> Fault {
        Fault { length: length.max(1), ..self }
    }

    /// The same with its refusal.
    pub fn refused(self, number: u32) -> Fault {
        Fault { refusal: Some(number), ..self }
    }
}

impl fmt::Display for Fault {
    fn fmt(&self, f: &mut fmt::Formatter) -> fmt::Result {
        write!(f, "{}: {}", self.at, self.what)
    }
}

/// The bytes without the mark that some editors put before a text.
pub fn unmarked(bytes: &[u8]) -> &[u8] {
    bytes.strip_prefix("\u{feff}".as_bytes()).unwrap_or(bytes)
}

/// The text of bytes, or the place where they are no text in lines.
pub fn utf8(bytes: &[u8]) -> Result<&str, Fault> {
    let bytes = unmarked(bytes);
    let text = std::str::from_utf8(bytes).map_err(|error| {
        let good = String::from_utf8_lossy(&bytes[..error.valid_up_to()]);
        Fault::new(good.chars().fold(Place::START, Place::after), "bytes that are no UTF-8 text")
    })?;
    match lone_return(text) {
        None => Ok(text),
        Some(at) => Fault::err(at, "a carriage return inside a line: lines end with a newline, or with both"),
    }
}

/// The first carriage return with more of its line behind it: a comment before it would hide that.
fn lone_return(text: &str) -> Option<Place> {
    (1..).zip(text.split('\n')).find_map(|(line, content)| {
        let (before, _) = content.trim_end_matches('\r').split_once('\r')?;
        Some(Place { line, column: 1 + before.chars().count() })
    })
}

/// What is wrong with a record.
#[derive(Clone, Debug, PartialEq, Eq)]
pub struct ByteFault {
    /// The byte place, counted from 0.
    pub at: usize,
    pub what: String,
}

impl ByteFault {
    pub fn err<T>(at: usize, what: impl Into<String>) -> Result<T, ByteFault> {
        Err(ByteFault { at, what: what.into() })
    }
}

impl fmt::Display for ByteFault {
    fn fmt(&self, f: &mut fmt::Formatter) -> fmt::Result {
        write!(f, "byte {}: {}", self.at, self.what)
    }
}
