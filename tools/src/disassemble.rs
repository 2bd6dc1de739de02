//! A record into text.

use crate::decode::decode;
use crate::fault::ByteFault;
use crate::print::print;

/// Text with invented names that assembles to the same record.
pub fn disassemble(bytes: &[u8]) -> Result<String, ByteFault> {
    Ok(print(&decode(bytes)?))
}
