//! The unread rest of a record's body.

use crate::fault::ByteFault;
use crate::limits;

pub struct Part<'a> {
    bytes: &'a [u8],
    /// The place in the agreement that is read next.
    pub at: usize,
    /// The place at which the record ends.
    end: usize,
    /// The depth of the record; 0 is outside the agreement.
    depth: usize,
}

impl<'a> Part<'a> {
    pub fn whole(bytes: &'a [u8]) -> Part<'a> {
        Part { bytes, at: 0, end: bytes.len(), depth: 0 }
    }

    pub fn take<const N: usize>(&mut self) -> Result<[u8; N], ByteFault> {
        let rest = self.bytes.get(self.at..self.end).unwrap_or(&[]);
        let Some(taken) = rest.first_chunk() else {
            return ByteFault::err(self.at, "the record ends before its parts do");
        };
        self.at += N;
        Ok(*taken)
    }

    pub fn byte(&mut self) -> Result<u8, ByteFault> {
        self.take().map(|[byte]| byte)
    }

    /// A byte that is less than a bound.
    pub fn index(&mut self, bound: usize, what: &str) -> Result<usize, ByteFault> {
        let at = self.at;
        let index = usize::from(self.byte()?);
        if index < bound {
            return Ok(index);
        }
        ByteFault::err(at, format!("{what} {index}, beyond the {bound} there are (counted from 0)"))
    }

    pub fn count(&mut self, least: usize, most: usize, what: &str) -> Result<usize, ByteFault> {
        let at = self.at;
        let count = usize::from(self.byte()?);
        if (least..=most).contains(&count) {
            return Ok(count);
        }
        ByteFault::err(at, format!("{count} {what} where {least} to {most} may be"))
    }

    /// "A record is a two-byte length (of the whole record), a two-byte kind, then its body."
    pub fn record(&mut self) -> Result<(u16, Part<'a>), ByteFault> {
        let place = self.at;
        let length = usize::from(u16::from_le_bytes(self.take()?));
        let kind = u16::from_le_bytes(self.take()?);
        if length < limits::HEAD || length > self.end - place {
            return ByteFault::err(place, format!("a record of {length} bytes where {} are left", self.end - place));
        }
        if self.depth == limits::DEPTH {
            return ByteFault::err(place, format!("records nested deeper than {}", limits::DEPTH));
        }
        let body = Part { bytes: self.bytes, at: self.at, end: place + length, depth: self.depth + 1 };
        self.at = body.end;
        Ok((kind, body))
    }

    pub fn record_of(&mut self, wanted: u16, what: &str) -> Result<Part<'a>, ByteFault> {
        let place = self.at;
        let (kind, body) = self.record()?;
        if kind == wanted {
            return Ok(body);
        }
        ByteFault::err(place + 2, format!("kind {kind} where {what}, kind {wanted}, must be"))
    }

    /// "Parts follow each other exactly; no byte is left over."
    pub fn end(&self) -> Result<(), ByteFault> {
        if self.at == self.end {
            return Ok(());
        }
        ByteFault::err(self.at, format!("{} bytes are left over in the record", self.end - self.at))
    }
}
