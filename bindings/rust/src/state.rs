//! What a table's head says.

use crate::entries::Breach;
use crate::parties::Parties;
use crate::table::CELLS;

/// The head's cells, as `include/givuntha.h` names them.
const STATE: usize = 0;
const LAST_READING: usize = 1;
const BREACH_TIME: usize = 2;
const BLAMED: usize = 3;
const LAST_MOVED: usize = 5;

/// What a table's head says of its run.
#[derive(Clone, Copy, Debug, PartialEq, Eq, Hash)]
pub enum State {
    Running,
    Fulfilled,
    Breached(Breach),
}

impl State {
    /// Reads the head of lent cells; none where they are not a table's length or the head names no state.
    ///
    /// Only the head is looked at. Whether the whole table is in order, [`reading`](crate::reading) judges.
    ///
    /// ```
    /// use givuntha::{Breach, Parties, State, CELLS};
    ///
    /// let mut cells = [0; CELLS];
    /// assert_eq!(State::of(&cells), None);
    /// cells[..4].copy_from_slice(&[3, 161, 160, 1]);
    /// let breach = Breach { time: 160, parties: Parties::from_bits(1) };
    /// assert_eq!(State::of(&cells), Some(State::Breached(breach)));
    /// ```
    pub fn of(table: &[i64]) -> Option<State> {
        if table.len() != CELLS {
            return None;
        }
        match table[STATE] {
            1 => Some(State::Running),
            2 => Some(State::Fulfilled),
            3 => breach(table[BREACH_TIME], table[BLAMED]).map(State::Breached),
            _ => None,
        }
    }
}

/// When a run was last read and when it last moved, in minutes.
#[derive(Clone, Copy, Debug, PartialEq, Eq, Hash)]
pub struct Times {
    /// The time of the last reading; at first the agreement's start.
    pub last_reading: u32,
    /// The time of the last reading that altered a unit or the state; at first the agreement's start.
    pub last_moved: u32,
}

impl Times {
    /// Reads the head of lent cells; none where they are not a table's length or one of the two cells holds no time of
    /// 32 bits.
    ///
    /// Only these two cells are looked at. Whether the whole table is in order, so that `last_moved` lies from the
    /// start to `last_reading`, [`reading`](crate::reading) judges.
    ///
    /// ```
    /// use givuntha::{record, Table, Times};
    ///
    /// // Fulfilled from the start, minute 100.
    /// let agreement = [20, 0, 1, 0, 100, 0, 0, 0, 1, 1, 0, 5, 0, 2, 0, 0, 4, 0, 16, 0];
    /// let (mut table, _) = Table::start(&agreement)?;
    /// table.reading(&agreement, &record::mark(120))?;
    /// assert_eq!(Times::of(table.cells()), Some(Times { last_reading: 120, last_moved: 100 }));
    /// # Ok::<(), givuntha::Refusal>(())
    /// ```
    pub fn of(table: &[i64]) -> Option<Times> {
        if table.len() != CELLS {
            return None;
        }
        let last_reading = u32::try_from(table[LAST_READING]).ok()?;
        let last_moved = u32::try_from(table[LAST_MOVED]).ok()?;
        Some(Times { last_reading, last_moved })
    }
}

fn breach(time: i64, parties: i64) -> Option<Breach> {
    let time = u64::try_from(time).ok()?;
    let parties = Parties::from_bits(u16::try_from(parties).ok()?);
    Some(Breach { time, parties })
}
