//! Templates of kind 4.

/// A template of kind 3 as one of kind 4: behind its declared parties stand its units.
pub fn sized(template: &[u8], units: u8) -> Vec<u8> {
    let at = 8 + usize::from(template[4]);
    let mut record = [&template[..at], &[units], &template[at..]].concat();
    let length = u16::try_from(record.len()).expect("a record's length");
    record[..2].copy_from_slice(&length.to_le_bytes());
    record[2] = 4;
    record
}
