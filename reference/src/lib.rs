//! A reference monitor of brine agreements, written from the papers alone and built for clarity.
//!
//! An agreement is parsed into a tree ([`agreement`]), checked ([`check`](mod@check)), and
//! followed by rules on trees ([`rules`]); the lent table is read into such a tree and written
//! from it ([`table`]). The four entries of the papers stand in [`entries`] and are exported here.
//! [`build`] and [`generate`] make trial material, [`coverage`] counts what it reaches.

pub mod agreement;
pub mod build;
pub mod check;
pub mod coverage;
pub mod entries;
pub mod generate;
pub mod reading;
pub mod rules;
pub mod table;

pub use entries::{check, preview, reading, start, Checked, Forecast, Started, Taken};
pub use table::CELLS;

/// The conditions of the paper's refusal table, and of paper 02's No. 7, under their numbers.
#[derive(Clone, Copy, Debug, PartialEq, Eq, PartialOrd, Ord)]
pub enum Refusal {
    /// "agreement under 4 or over 16,384 bytes, or not as long as its length says"
    Length = 1,
    /// "record, count, type byte or nesting not as under Records, or an instance naming no
    /// template"
    Records = 2,
    /// "not typed; name, literal, blame or declared party out of range; over 16 in sight"
    Typing = 3,
    /// "unguarded instance of its own or a later template"
    Guard = 4,
    /// "a width over 256"
    Width = 5,
    /// "in a sized agreement a body's need is above its declared units or the main clause's above
    /// 128; it comes after 5 and before 6"
    Need = 15,
    /// "table not 3,080 cells"
    Cells = 6,
    /// "table breaks its layout or typing, ..."
    Table = 7,
    /// "reading not one whole record of kind 64 ..."
    Reading = 8,
    /// "type over the reading count, wrong value count, or value not of its type or out of its
    /// range"
    Unfit = 9,
    /// "time below the last reading time"
    Time = 10,
    /// "the residue by the rules needs over 128 units"
    Units = 11,
}

impl Refusal {
    /// The number in the paper's table.
    pub fn number(self) -> u32 {
        self as u32
    }
}
