//! The mark 'early' (paper 02, No. 8): what decides it, which condition fails alone, and the corners in which it is 1.
//! It is judged here by the cells of the tables before and after and by the bytes of the agreement at each unit's
//! place, apart from the monitor on trial.

use super::moved::Effect;
use crate::agreement::{Late, Type};
use crate::check::Accepted;
use crate::generate::readings::collect;
use crate::generate::records::word;
use crate::rules::{self, Outcome, Residue};
use crate::table::{self, State, ACTIVATED, AND, FULFILLED, HEAD, LAST, MOVED, OR, PLACE, RUNNING, SORT, STATE};
use crate::table::{UNIT, VALUES};
use crate::Refusal;

const OBLIGATION: i64 = 17;
const CHOICE: i64 = 18;

/// A reading that is a record, what it was given, and what was answered.
pub struct Marked<'t, 'a> {
    pub bytes: &'t [u8],
    pub accepted: &'t Accepted<'a>,
    pub effect: &'t Effect<'t>,
    pub number: u32,
    pub early: u32,
}

/// A waiting unit of the table before, seen with the reading.
struct Unit {
    sort: i64,
    first: i64,
    last: i64,
    /// It wants the reading's type.
    wanted: bool,
    /// It wants it and finds `where` true.
    holds: bool,
}

/// The mark of a refusal is 0.
pub fn refused(number: u32) -> &'static str {
    match number {
        8 => "0: refused with 8",
        9 => "0: refused with 9",
        10 => "0: refused with 10",
        11 => "0: refused with 11",
        _ => "0: refused with 1 to 7 or 15",
    }
}

pub fn cases() -> Vec<String> {
    let accepted = [
        "1",
        "0: fulfilled before",
        "0: breached before",
        "0: the state altered",
        "0: a unit altered",
        "0: a time mark",
        "0: no unit wants the type",
        "0: `where` is false",
        "0: no first is later",
    ];
    let refused = [7, 8, 9, 10, 11].map(refused);
    accepted.into_iter().chain(refused).map(str::to_string).collect()
}

/// All conditions hold but one.
pub fn near_misses() -> Vec<String> {
    let names = [
        "refused with 9",
        "refused with 10",
        "refused with 11",
        "altered: fulfilled",
        "altered: breached",
        "altered: units",
        "altered: units, at the time that cell 5 held",
        "a time mark",
        "another type",
        "`where` is false",
        "first is the reading's time",
        "first is earlier, the window open",
        "first is earlier, the window past",
        "only a unit of an else finds it early",
    ];
    names.map(str::to_string).to_vec()
}

/// Where a careless monitor might miss a 1.
pub fn corners() -> Vec<String> {
    let names = [
        "an obligation",
        "a choice",
        "the only unit",
        "all of several units",
        "some of several units, the first",
        "some of several units, not the first",
        "the table begins with an `and`",
        "the table begins with an `or`",
        "at the last reading time",
        "later than the last reading time",
        "a minute before first",
        "first beyond 32 bits",
        "cell 5 holds the reading's time",
        "beside a unit replaced by its equal, by then",
        "beside a unit replaced by its equal, by else",
        "the unit is late too: an obligation",
        "the unit is late too: a choice",
        "the unit is dropped by a fulfilled `or`",
    ];
    names.map(str::to_string).to_vec()
}

impl<'a> Marked<'_, 'a> {
    /// What cannot be right.
    pub fn fault(&self) -> Option<&'static str> {
        let Effect { before, reading, .. } = self.effect;
        match self.early {
            0 => self.is_early().then_some("not marked early, though every condition holds"),
            1 if self.number != 0 => Some("a refusal marked early"),
            1 if before[STATE] != RUNNING => Some("early on a table that was not running"),
            1 if !self.effect.is_unaltered() => Some("early, though a unit or the state altered"),
            1 if reading.kind == 0 => Some("a time mark marked early"),
            1 => (!self.is_early()).then_some("early without a unit whose first is later"),
            _ => Some("a mark that is neither 0 nor 1"),
        }
    }

    /// "It is 1 if and only if the reading is accepted, the table was running and no unit or state altered, and at
    /// least one waiting unit wants this type, finds `where` true, and has a first later than the reading."
    fn is_early(&self) -> bool {
        self.number == 0 && self.leaves_it_running() && !self.early_units().is_empty()
    }

    fn leaves_it_running(&self) -> bool {
        self.effect.before[STATE] == RUNNING && self.effect.is_unaltered()
    }

    fn is_later(&self, unit: &Unit) -> bool {
        unit.first > self.effect.reading.time
    }

    fn is_past(&self, unit: &Unit) -> bool {
        unit.last < self.effect.reading.time
    }

    fn early_units(&self) -> Vec<Unit> {
        let mut units = self.units();
        units.retain(|unit| unit.holds && self.is_later(unit));
        units
    }

    /// The waiting units of the table before, in their order.
    fn units(&self) -> Vec<Unit> {
        let units = self.effect.before[HEAD..].chunks_exact(UNIT);
        units.filter(|cells| [OBLIGATION, CHOICE].contains(&cells[SORT])).map(|cells| self.unit(cells)).collect()
    }

    /// "17 obligation: blame, reading type, where, after, within, then. 18 choice: the same without blame".
    fn unit(&self, cells: &[i64]) -> Unit {
        let place = cells[PLACE] as usize;
        let type_at = place + if cells[SORT] == OBLIGATION { 5 } else { 4 };
        let condition = type_at + 1;
        let after = next(self.bytes, condition);
        let within = next(self.bytes, after);
        let in_sight = self.accepted.site(cells[PLACE]).expect("a site").view.values().len();
        let values = &cells[VALUES..VALUES + in_sight];
        let reading = self.effect.reading;
        let wanted = self.bytes[type_at] == reading.kind;
        // The values of a reading that does not fit are not to be looked at.
        let fits = self.number != Refusal::Unfit.number();
        let holds = wanted && fits && value(self.bytes, condition, &[values, &reading.values].concat()) == 1;
        let first = cells[ACTIVATED] + value(self.bytes, after, values);
        Unit { sort: cells[SORT], first, last: first + value(self.bytes, within, values), wanted, holds }
    }

    /// What decides the mark of an accepted reading: the first condition that fails, in the paper's order.
    pub fn case(&self) -> &'static str {
        let Effect { before, after, reading } = self.effect;
        let units = self.units();
        if before[STATE] != RUNNING {
            return if before[STATE] == FULFILLED { "0: fulfilled before" } else { "0: breached before" };
        }
        if !self.effect.is_unaltered() {
            return if before[STATE] == after[STATE] { "0: a unit altered" } else { "0: the state altered" };
        }
        if self.is_early() {
            "1"
        } else if reading.kind == 0 {
            "0: a time mark"
        } else if !units.iter().any(|unit| unit.wanted) {
            "0: no unit wants the type"
        } else if !units.iter().any(|unit| unit.holds) {
            "0: `where` is false"
        } else {
            "0: no first is later"
        }
    }

    /// The one condition that fails, if it is one alone.
    pub fn near_misses(&self) -> Vec<&'static str> {
        if !self.early_units().is_empty() {
            return self.accepted_or_altered_alone().into_iter().collect();
        }
        match self.number {
            9 if self.units().iter().any(|unit| unit.wanted && self.is_later(unit)) => vec!["refused with 9"],
            0 if self.leaves_it_running() => self.no_such_unit(),
            _ => Vec::new(),
        }
    }

    /// A unit finds the reading early, and yet the mark is 0.
    fn accepted_or_altered_alone(&self) -> Option<&'static str> {
        let Effect { before, after, reading } = self.effect;
        match (self.number, after[STATE]) {
            (10, _) => Some("refused with 10"),
            // 11 leaves the table: it was running and no unit altered.
            (11, _) => Some("refused with 11"),
            _ if self.effect.is_unaltered() => None,
            (_, RUNNING) if before[MOVED] == reading.time => Some("altered: units, at the time that cell 5 held"),
            (_, RUNNING) => Some("altered: units"),
            (_, FULFILLED) => Some("altered: fulfilled"),
            _ => Some("altered: breached"),
        }
    }

    /// Every unit lacks something: its type, its `where` or its first.
    fn no_such_unit(&self) -> Vec<&'static str> {
        let time = self.effect.reading.time;
        let of_unit = |unit: &Unit| match unit {
            Unit { wanted: false, .. } if self.is_later(unit) && self.effect.reading.kind == 0 => Some("a time mark"),
            Unit { wanted: false, .. } if self.is_later(unit) => Some("another type"),
            Unit { holds: false, .. } if self.is_later(unit) => Some("`where` is false"),
            Unit { holds: true, first, .. } if *first == time => Some("first is the reading's time"),
            Unit { holds: true, .. } if self.is_past(unit) => Some("first is earlier, the window past"),
            Unit { holds: true, .. } => Some("first is earlier, the window open"),
            _ => None,
        };
        let in_an_else = self.in_an_else().then_some("only a unit of an else finds it early");
        self.units().iter().filter_map(of_unit).chain(in_an_else).collect()
    }

    fn residue(&self) -> Option<Residue<'a>> {
        match table::read(self.accepted, self.effect.before) {
            Ok(State { outcome: Outcome::Running(residue), .. }) => Some(residue),
            _ => None,
        }
    }

    /// Some choice is late, and a unit that its else activates finds the reading early.
    fn in_an_else(&self) -> bool {
        let Some(residue) = self.residue() else { return false };
        let mut units = Vec::new();
        collect(&residue, &mut units);
        let (agreement, reading) = (self.accepted.agreement, self.effect.reading);
        units.into_iter().filter(|unit| reading.time > unit.window().last).any(|unit| match &unit.wait.late {
            Late::Breach(_) => false,
            Late::Else(otherwise) => {
                let time = unit.late_time(unit.window().last);
                rules::activate(agreement, otherwise, time, &unit.scope, &mut 0).finds_early(reading)
            }
        })
    }

    /// The corners of a mark that is 1.
    pub fn corners(&self) -> Vec<&'static str> {
        if !self.is_early() {
            return Vec::new();
        }
        let mut corners = vec![self.which_units()];
        corners.extend(self.when());
        corners.extend(self.early_units().iter().flat_map(|unit| self.corners_of(unit)));
        corners.extend(self.beside());
        let dropped = self.residue().is_some_and(|residue| self.drops_early(&residue));
        corners.extend(dropped.then_some("the unit is dropped by a fulfilled `or`"));
        corners.extend(match self.effect.before[HEAD + SORT] {
            AND => Some("the table begins with an `and`"),
            OR => Some("the table begins with an `or`"),
            _ => None,
        });
        corners.sort_unstable();
        corners.dedup();
        corners
    }

    fn which_units(&self) -> &'static str {
        let units = self.units();
        let first = &units[0];
        if units.len() == 1 {
            "the only unit"
        } else if units.len() == self.early_units().len() {
            "all of several units"
        } else if first.holds && self.is_later(first) {
            "some of several units, the first"
        } else {
            "some of several units, not the first"
        }
    }

    fn when(&self) -> Vec<&'static str> {
        let Effect { before, reading, .. } = self.effect;
        let again = before[LAST] == reading.time;
        let time = if again { "at the last reading time" } else { "later than the last reading time" };
        let moved = (before[MOVED] == reading.time).then_some("cell 5 holds the reading's time");
        [time].into_iter().chain(moved).collect()
    }

    fn corners_of(&self, unit: &Unit) -> Vec<&'static str> {
        let obligation = unit.sort == OBLIGATION;
        let late = if obligation { "the unit is late too: an obligation" } else { "the unit is late too: a choice" };
        let corners = [
            (true, if obligation { "an obligation" } else { "a choice" }),
            (unit.first == self.effect.reading.time + 1, "a minute before first"),
            (unit.first > i64::from(u32::MAX), "first beyond 32 bits"),
            (self.is_past(unit), late),
        ];
        corners.into_iter().filter(|(reached, _)| *reached).map(|(_, corner)| corner).collect()
    }

    /// Other units that do not wait on, though the table is the same afterwards.
    fn beside(&self) -> Vec<&'static str> {
        let units = self.units().into_iter().filter(|unit| !(unit.holds && self.is_later(unit)));
        let replaced = |unit: Unit| match (unit.sort, self.is_past(&unit)) {
            (CHOICE, true) => Some("beside a unit replaced by its equal, by else"),
            (_, false) if unit.holds => Some("beside a unit replaced by its equal, by then"),
            _ => None,
        };
        units.filter_map(replaced).collect()
    }

    /// Some `or` is fulfilled by the reading that one of its units finds early.
    fn drops_early(&self, residue: &Residue<'a>) -> bool {
        let (agreement, reading) = (self.accepted.agreement, self.effect.reading);
        match residue {
            Residue::Waiting(_) => false,
            Residue::Or(..)
                if matches!(rules::follow(agreement, residue.clone(), reading, &mut 0), Outcome::Fulfilled) =>
            {
                residue.finds_early(reading)
            }
            Residue::And(left, right) | Residue::Or(left, right) => self.drops_early(left) || self.drops_early(right),
        }
    }
}

/// The place of the record after the one at a place.
fn next(bytes: &[u8], at: usize) -> usize {
    at + usize::from(word(bytes, at))
}

/// The value of the expression at a place.
fn value(bytes: &[u8], at: usize, values: &[i64]) -> i64 {
    let body = &bytes[at + 4..];
    match word(bytes, at + 2) {
        32 => i64::from(i32::from_le_bytes([body[0], body[1], body[2], body[3]])),
        33 | 34 => i64::from(body[0]),
        35 => values[usize::from(body[0])],
        36 => 1 - value(bytes, at + 4, values),
        kind => binary(kind, value(bytes, at + 4, values), value(bytes, next(bytes, at + 4), values)),
    }
}

fn binary(kind: u16, left: i64, right: i64) -> i64 {
    let held = |number: i64| number.min(Type::LIMIT).max(-Type::LIMIT);
    match kind {
        37 => held(left + right),
        38 => held(left - right),
        39 => held(left * right),
        40 if right == 0 => 0,
        40 => (left * right.signum()).div_euclid(right.abs()),
        41 => left * right,
        42 => i64::from(left < right),
        _ => i64::from(left == right),
    }
}
