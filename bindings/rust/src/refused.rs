//! Why a reading is refused, or would be, and at what cost.

use crate::refusal::Refusal;
use std::error::Error;
use std::fmt;

/// Why a reading is refused, or would be in a preview. It leaves every table as it was.
///
/// Only one that is refused with 11 has a cost: it was followed, and what it left was too much. Every other refusal
/// comes before the reading is followed. `?` turns it into a [`Refusal`], which the other entries answer.
///
/// ```
/// use givuntha::{record, Refusal, Refused, Table};
///
/// // Fulfilled from the start, minute 100.
/// let agreement = [20, 0, 1, 0, 100, 0, 0, 0, 1, 1, 0, 5, 0, 2, 0, 0, 4, 0, 16, 0];
/// let (mut table, _) = Table::start(&agreement)?;
/// let refused = table.reading(&agreement, &record::mark(99)).unwrap_err();
/// assert_eq!(refused, Refused::Other(Refusal::ReadingTime));
/// assert_eq!((refused.number(), refused.cost()), (10, 0));
/// # Ok::<(), givuntha::Refusal>(())
/// ```
#[derive(Clone, Copy, Debug, PartialEq, Eq, Hash)]
pub enum Refused {
    /// [`Refusal::Units`]: what the reading leaves needs over 128 units. This is what it cost, or would.
    Units { cost: u64 },
    /// Any other refusal, at no cost.
    Other(Refusal),
}

impl Refused {
    /// The refusal, as the other entries answer it.
    pub fn refusal(self) -> Refusal {
        match self {
            Refused::Units { .. } => Refusal::Units,
            Refused::Other(refusal) => refusal,
        }
    }

    /// The paper's number, from 1 on.
    pub fn number(self) -> u32 {
        self.refusal().number()
    }

    /// The paper's figure for the reading, which is 0 unless it was followed.
    pub fn cost(self) -> u64 {
        match self {
            Refused::Units { cost } => cost,
            Refused::Other(_) => 0,
        }
    }

    /// What the answer to a reading or to a preview says.
    pub(crate) fn answer(number: u32, cost: u64) -> Result<(), Refused> {
        Refusal::answer(number).map_err(|refusal| match refusal {
            Refusal::Units => Refused::Units { cost },
            other => Refused::Other(other),
        })
    }
}

impl From<Refused> for Refusal {
    fn from(refused: Refused) -> Refusal {
        refused.refusal()
    }
}

impl fmt::Display for Refused {
    fn fmt(&self, f: &mut fmt::Formatter<'_>) -> fmt::Result {
        self.refusal().fmt(f)
    }
}

impl Error for Refused {}
