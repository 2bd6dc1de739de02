//! Records: readings as bytes, and the records of a stream.

use std::io::{self, Read};

/// The record of a reading: its time in minutes, its type and its values.
///
/// A truth is 0 or 1 and a party its number. A reading has at most 4 values: with more the record is made all the
/// same, and [`reading`](crate::reading) refuses it.
///
/// ```
/// assert_eq!(givuntha::record::reading(110, 1, &[240]), [13, 0, 64, 0, 110, 0, 0, 0, 1, 240, 0, 0, 0]);
/// ```
///
/// # Panics
///
/// Where the record's length does not fit into its two bytes, that is with over 16,381 values.
pub fn reading(time: u32, sort: u8, values: &[i32]) -> Vec<u8> {
    let length = u16::try_from(9 + 4 * values.len()).expect("a record of at most 65,535 bytes");
    let mut record = Vec::with_capacity(usize::from(length));
    record.extend(length.to_le_bytes());
    record.extend(64u16.to_le_bytes());
    record.extend(time.to_le_bytes());
    record.push(sort);
    record.extend(values.iter().flat_map(|value| value.to_le_bytes()));
    record
}

/// The record of a time mark, a reading of type 0 without values.
pub fn mark(time: u32) -> Vec<u8> {
    reading(time, 0, &[])
}

/// Takes the next record from a stream by its length field; none at the end of the stream.
///
/// A record that the end cuts short is answered as far as it goes. The entries refuse it for its length.
///
/// ```
/// let mut stream: &[u8] = &[4, 0, 16, 0, 9, 0, 64];
/// assert_eq!(givuntha::record::next(&mut stream)?, Some(vec![4, 0, 16, 0]));
/// assert_eq!(givuntha::record::next(&mut stream)?, Some(vec![9, 0, 64]));
/// assert_eq!(givuntha::record::next(&mut stream)?, None);
/// # Ok::<(), std::io::Error>(())
/// ```
pub fn next(stream: &mut impl Read) -> io::Result<Option<Vec<u8>>> {
    let mut record = Vec::new();
    stream.take(2).read_to_end(&mut record)?;
    let Ok(length) = <[u8; 2]>::try_from(&record[..]) else {
        return Ok(if record.is_empty() { None } else { Some(record) });
    };
    let body = u16::from_le_bytes(length).saturating_sub(2);
    stream.take(u64::from(body)).read_to_end(&mut record)?;
    Ok(Some(record))
}
