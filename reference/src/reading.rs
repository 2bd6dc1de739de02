//! A reading, with refusals 8 and 9.

use crate::agreement::{Agreement, Type};
use crate::Refusal;

#[derive(Clone, Debug, PartialEq, Eq)]
pub struct Reading {
    pub time: i64,
    /// The reading type; 0 is a time mark.
    pub kind: u8,
    pub values: Vec<i64>,
}

/// "one whole record of kind 64: time (4 bytes), type (1), 0 to 4 values of 4 bytes, signed"
pub fn parse(bytes: &[u8]) -> Result<Reading, Refusal> {
    let (head, values) = bytes.split_first_chunk::<9>().ok_or(Refusal::Reading)?;
    let [l0, l1, k0, k1, t0, t1, t2, t3, kind] = *head;
    let whole = usize::from(u16::from_le_bytes([l0, l1])) == bytes.len();
    let right_kind = u16::from_le_bytes([k0, k1]) == 64;
    if !whole || !right_kind || values.len() % 4 != 0 || values.len() > 16 {
        return Err(Refusal::Reading);
    }
    let time = i64::from(u32::from_le_bytes([t0, t1, t2, t3]));
    let values = values.chunks_exact(4).map(|v| i64::from(i32::from_le_bytes([v[0], v[1], v[2], v[3]]))).collect();
    Ok(Reading { time, kind, values })
}

impl Reading {
    /// Refusal 9: "type over the reading count, wrong value count, or value not of its type or out
    /// of its range".
    pub fn fits(&self, agreement: &Agreement) -> Result<(), Refusal> {
        let types = self.value_types(agreement).ok_or(Refusal::Unfit)?;
        let count = types.len() == self.values.len();
        let values = types.iter().zip(&self.values).all(|(t, value)| t.holds(*value, agreement.parties));
        if count && values {
            Ok(())
        } else {
            Err(Refusal::Unfit)
        }
    }

    /// "Reading type 0 is a time mark without values"
    fn value_types<'a>(&self, agreement: &'a Agreement) -> Option<&'a [Type]> {
        match self.kind {
            0 => Some(&[]),
            kind => agreement.readings.get(usize::from(kind) - 1).map(Vec::as_slice),
        }
    }
}
