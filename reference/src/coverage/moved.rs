//! Head cell 5, "the time of the last reading that altered a unit or the state" (paper 02, No. 1): where it lies in the
//! tables given, and whether an accepted reading moves it. What is altered is found here cell by cell, apart from the
//! monitor on trial.

use crate::agreement;
use crate::check::accept;
use crate::reading::Reading;
use crate::table::{self, ACTIVATED, BREACHED, CELLS, FULFILLED, HEAD, LAST, MOVED, PARAMETERS, PLACE, RUNNING, SORT};
use crate::table::{STATE, UNIT, USED, VALUES, ZERO};
use std::iter;

const MOVES: &str = "moved";
const UNALTERED: &str = "stayed, unaltered";
const ALTERED_THEN: &str = "stayed, altered at that time";

/// 11 leaves cell 5; only a running table can need more units.
pub const TOO_MANY_UNITS: &str = "running, refused with 11";

/// What a reading does: the tables before and after it.
pub struct Effect<'t> {
    pub before: &'t [i64],
    pub after: &'t [i64],
    pub reading: &'t Reading,
}

impl Effect<'_> {
    /// The places of the cells that are altered: "a unit cell or the state cell holds another number afterwards".
    fn altered(&self) -> Vec<usize> {
        let looked_at = iter::once(STATE).chain(HEAD..CELLS);
        looked_at.filter(|cell| self.before[*cell] != self.after[*cell]).collect()
    }

    pub fn is_unaltered(&self) -> bool {
        self.altered().is_empty()
    }

    pub fn stays_running(&self) -> bool {
        self.before[STATE] == RUNNING && self.after[STATE] == RUNNING
    }

    /// What cannot be right once this reading is accepted.
    pub fn fault(&self) -> Option<&'static str> {
        let (held, holds) = (self.before[MOVED], self.after[MOVED]);
        let changed = (0..CELLS).filter(|cell| self.before[*cell] != self.after[*cell]).collect::<Vec<_>>();
        if self.is_unaltered() && holds != held {
            Some("cell 5 changed though nothing was altered")
        } else if !self.is_unaltered() && holds != self.reading.time {
            Some("cell 5 is not the time of a reading that altered")
        } else if self.before[STATE] == BREACHED && !changed.is_empty() {
            Some("a reading on a breached table changed a cell")
        } else if self.before[STATE] == FULFILLED && changed.iter().any(|cell| *cell != LAST) {
            Some("a reading on a fulfilled table changed more than the last reading time")
        } else {
            None
        }
    }

    /// By the state before and after, and what became of cell 5.
    pub fn case(&self) -> String {
        let became = if self.before[MOVED] != self.after[MOVED] {
            MOVES
        } else if self.is_unaltered() {
            UNALTERED
        } else {
            ALTERED_THEN
        };
        reading_case((self.before[STATE], self.after[STATE], became))
    }

    /// What a reading alters that leaves the table running.
    pub fn alteration(&self) -> &'static str {
        if self.before[USED] != self.after[USED] {
            return "units in use";
        }
        match self.altered()[..] {
            [] => "nothing",
            [cell] => alone((cell - HEAD) % UNIT),
            [first, .., last] if (first - HEAD) / UNIT == (last - HEAD) / UNIT => "some cells of one unit",
            _ => "cells of some units",
        }
    }
}

fn alone(cell_of_unit: usize) -> &'static str {
    match cell_of_unit {
        SORT => "a join alone",
        PLACE => "a place alone",
        ACTIVATED => "an A alone",
        ZERO => "a zero alone",
        VALUES.. => "a value alone",
        _ => "a parameter alone",
    }
}

pub fn alterations() -> Vec<String> {
    let alone = [SORT, PLACE, ACTIVATED, PARAMETERS, VALUES].map(alone);
    let others = ["nothing", "some cells of one unit", "cells of some units", "units in use"];
    alone.into_iter().chain(others).map(str::to_string).collect()
}

pub fn cases() -> Vec<String> {
    let starts = [RUNNING, FULFILLED].map(start_case);
    starts.into_iter().chain(reading_cases()).chain([TOO_MANY_UNITS.to_string()]).collect()
}

/// What an accepted reading may do with cell 5.
pub fn reading_cases() -> impl Iterator<Item = String> {
    let readings = [
        (RUNNING, RUNNING, MOVES),
        (RUNNING, RUNNING, UNALTERED),
        (RUNNING, RUNNING, ALTERED_THEN),
        (RUNNING, FULFILLED, MOVES),
        (RUNNING, FULFILLED, ALTERED_THEN),
        (RUNNING, BREACHED, MOVES),
        (RUNNING, BREACHED, ALTERED_THEN),
        (FULFILLED, FULFILLED, UNALTERED),
        (BREACHED, BREACHED, UNALTERED),
    ];
    readings.into_iter().map(reading_case)
}

pub fn start_case(state: i64) -> String {
    format!("start: {}", state_name(state))
}

fn reading_case((before, after, became): (i64, i64, &str)) -> String {
    format!("{} to {}: {became}", state_name(before), state_name(after))
}

pub(super) fn state_name(state: i64) -> &'static str {
    match state {
        RUNNING => "running",
        FULFILLED => "fulfilled",
        BREACHED => "breached",
        _ => "no state",
    }
}

/// Where the time of cell 5 lies.
#[derive(Clone, Copy, Debug, PartialEq, Eq)]
pub enum Lies {
    Negative,
    BeforeStart,
    AtStart,
    Between,
    AtLastReading,
    AfterLastReading,
    Beyond32Bits,
}

impl Lies {
    pub const ALL: [Lies; 7] = [
        Lies::Negative,
        Lies::BeforeStart,
        Lies::AtStart,
        Lies::Between,
        Lies::AtLastReading,
        Lies::AfterLastReading,
        Lies::Beyond32Bits,
    ];

    fn of(moved: i64, start: i64, last_reading: i64) -> Lies {
        match moved {
            i64::MIN..=-1 => Lies::Negative,
            0x1_0000_0000.. => Lies::Beyond32Bits,
            _ if moved < start => Lies::BeforeStart,
            _ if moved == start => Lies::AtStart,
            _ if moved < last_reading => Lies::Between,
            _ if moved == last_reading => Lies::AtLastReading,
            _ => Lies::AfterLastReading,
        }
    }

    /// "lies from the start to the last reading time; a table where it doesn't is damaged under 7"
    pub fn is_inside(self) -> bool {
        matches!(self, Lies::AtStart | Lies::Between | Lies::AtLastReading)
    }
}

/// Where cell 5 lies in a table with nothing else wrong; None if anything else is.
pub fn lies(bytes: &[u8], table: &[i64]) -> Option<Lies> {
    if table.len() != CELLS {
        return None;
    }
    let agreement = agreement::parse(bytes).ok()?;
    let accepted = accept(&agreement).ok()?;
    let start = i64::from(agreement.start);
    let mut at_start = table.to_vec();
    at_start[MOVED] = start;
    table::read(&accepted, &at_start).ok()?;
    Some(Lies::of(table[MOVED], start, table[LAST]))
}

pub fn places() -> Vec<String> {
    let states = [RUNNING, FULFILLED, BREACHED];
    states.into_iter().flat_map(|state| Lies::ALL.map(|lies| place_case(state, lies))).collect()
}

pub fn place_case(state: i64, lies: Lies) -> String {
    format!("{}: {lies:?}", state_name(state))
}
