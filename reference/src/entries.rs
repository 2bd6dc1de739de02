//! The four entries: check an agreement, start it, take a reading, preview one. Each returns the
//! lowest refusal number that applies, 15 counting between 5 and 6, or 0; a refusal leaves the table
//! untouched. Paper 02, No. 2: "Start and reading both answer with the forecast of the table they
//! leave; a refusal gives zeros for it. The separate forecast entry goes". No. 7: 15 "comes after 5
//! and before 6, in every entry that makes 5".

use crate::agreement::{self, Agreement};
use crate::check::{accept, Accepted};
use crate::reading::{self as readings, Reading};
use crate::rules::{self, Outcome, Residue, Scope};
use crate::table::{self, State, UNITS};
use crate::Refusal;

/// What check answers: 0 and the main clause's parties by bit, or a refusal number and no party.
#[derive(Clone, Copy, Debug, PartialEq, Eq)]
pub struct Checked {
    pub number: u32,
    pub parties: u32,
}

/// The forecast of a table: the time and parties by bit of its breach, or none. The zeros of a
/// refusal are none too.
pub type Forecast = Option<(i64, u32)>;

/// What a start answers: 0 and the forecast of the table that it leaves, or a refusal number.
#[derive(Clone, Copy, Debug, PartialEq, Eq)]
pub struct Started {
    pub number: u32,
    pub forecast: Forecast,
}

/// What a reading or its preview answers: 0 or a refusal number; paper 02, No. 8: "a mark 'early',
/// 1 or 0"; No. 9: "a figure for each reading", what it costs; No. 2: the forecast of the table
/// that it leaves. A refusal is not early and has no forecast, and only 11 has a cost.
#[derive(Clone, Copy, Debug, PartialEq, Eq)]
pub struct Taken {
    pub number: u32,
    pub early: u32,
    pub cost: u64,
    pub forecast: Forecast,
}

impl Taken {
    /// A refusal: zeros but for the number, and for the cost of one with 11.
    fn refused(refusal: Refusal, cost: u64) -> Taken {
        Taken { number: refusal.number(), early: 0, cost, forecast: None }
    }
}

/// "Check uses 1 to 5", and 15.
pub fn check(agreement: &[u8]) -> Checked {
    match with(agreement, |accepted| Ok(accepted.parties)) {
        Ok(parties) => Checked { number: 0, parties },
        Err(refusal) => Checked { number: refusal.number(), parties: 0 },
    }
}

/// "start 1 to 6 and 11", and 15. "Start ignores the table's earlier contents."
pub fn start(agreement: &[u8], table: &mut [i64]) -> Started {
    let left = with(agreement, |accepted| {
        table::right_length(table)?;
        let state = started(accepted.agreement)?;
        state.write(table);
        Ok(forecast(accepted.agreement, &state.outcome))
    });
    match left {
        Ok(forecast) => Started { number: 0, forecast },
        Err(refusal) => Started { number: refusal.number(), forecast: None },
    }
}

/// "a reading all".
pub fn reading(agreement: &[u8], table: &mut [i64], reading: &[u8]) -> Taken {
    let taken = with(agreement, |accepted| {
        let state = table::read(accepted, table)?;
        let reading = fitting(accepted.agreement, &state, reading)?;
        Ok(take(accepted.agreement, state, &reading, table))
    });
    // "on a refusal other than 11, the count is 0"
    taken.unwrap_or_else(|refusal| Taken::refused(refusal, 0))
}

/// Paper 02, No. 6: "A preview takes agreement, table and reading, and writes the outcome into a
/// second table of the same length. It answers as the reading itself would on a copy, refusals
/// included, and the first table is only read. On a refusal the second table is untouched. A second
/// table of wrong length counts under 6", so that 1 to 5 and 15 come before it, and 7 to 11 after it.
pub fn preview(agreement: &[u8], table: &[i64], reading: &[u8], second: &mut [i64]) -> Taken {
    if let Err(refusal) = with(agreement, |_| table::right_length(second)) {
        return Taken::refused(refusal, 0);
    }
    let mut copy = table.to_vec();
    let taken = self::reading(agreement, &mut copy, reading);
    if taken.number == 0 {
        second.copy_from_slice(&copy);
    }
    taken
}

/// The forecast of what a start or a reading leaves: "A breached table gives its verdict."
fn forecast<'a>(agreement: &'a Agreement, left: &Outcome<'a>) -> Forecast {
    rules::forecast(agreement, left).map(|breach| (breach.time, breach.parties))
}

/// Parses and checks an agreement, and goes on with it if it is accepted.
fn with<T>(bytes: &[u8], go_on: impl FnOnce(&Accepted) -> Result<T, Refusal>) -> Result<T, Refusal> {
    let agreement = agreement::parse(bytes)?;
    let accepted = accept(&agreement)?;
    go_on(&accepted)
}

/// "Start: the main clause is activated at the start time, which is the last reading time at
/// first. Over 128 units is 11, otherwise 0." The time of cell 5 "begins as the start time". A start
/// has no cost: "a figure for each reading".
pub fn started(agreement: &Agreement) -> Result<State<'_>, Refusal> {
    let start = i64::from(agreement.start);
    let outcome = rules::activate(agreement, &agreement.main, start, &Scope::default(), &mut 0);
    fit(&outcome)?;
    Ok(State { last: start, moved: start, outcome })
}

/// "Reading: if 8, 9 or 10 applies, the lowest is its number and nothing changes."
fn fitting(agreement: &Agreement, state: &State, bytes: &[u8]) -> Result<Reading, Refusal> {
    let reading = readings::parse(bytes)?;
    reading.fits(agreement)?;
    if reading.time < state.last {
        return Err(Refusal::Time);
    }
    Ok(reading)
}

/// "Else, once breached, it is 0 and nothing changes. Else it is followed as above: over 128 units
/// it is 11 and nothing changes, otherwise 0, and the run now keeps the outcome reached, with the
/// reading's time as last reading time."
///
/// Paper 02, No. 1: "The run by the rules keeps this time too, judged by its own tables before and
/// after". No. 8: "the reading is accepted, the table was running and no unit or state altered, and
/// at least one waiting unit wants this type, finds `where` true, and has a first later than the
/// reading." Altered is No. 1's word, judged by cells: units replaced by equal ones have not
/// altered. The waiting units are those of the table before; they are those after too if none
/// altered.
fn take<'a>(agreement: &'a Agreement, state: State<'a>, reading: &Reading, table: &mut [i64]) -> Taken {
    let before = state.table();
    let found_early = state.outcome.finds_early(reading);
    // No. 9: "On a fulfilled or breached table ... the count is 0".
    let (outcome, cost) = match state.outcome {
        Outcome::Breached(_) => {
            return Taken { number: 0, early: 0, cost: 0, forecast: forecast(agreement, &state.outcome) };
        }
        Outcome::Fulfilled => (Outcome::Fulfilled, 0),
        Outcome::Running(residue) => followed(agreement, residue, reading),
    };
    if let Err(refusal) = fit(&outcome) {
        // No. 9: "on 11 it is the refused reading's, and not zero".
        return Taken::refused(refusal, cost);
    }
    let mut after = State { last: reading.time, moved: state.moved, outcome };
    let altered = table::altered(&before, &after.table());
    if altered {
        after.moved = reading.time;
    }
    after.write(table);
    let early = u32::from(found_early && !altered);
    Taken { number: 0, early, cost, forecast: forecast(agreement, &after.outcome) }
}

/// What a reading makes of a running table, and what that costs. Paper 02, No. 9: "Count one for
/// each unit of the table read, which is every unit in use, and one for each clause activated".
fn followed<'a>(agreement: &'a Agreement, residue: Residue<'a>, reading: &Reading) -> (Outcome<'a>, u64) {
    let units_read = residue.units() as u64;
    let mut clauses_activated = 0;
    let outcome = rules::follow(agreement, residue, reading, &mut clauses_activated);
    (outcome, units_read + clauses_activated)
}

/// "Only the final residue counts for 11".
fn fit(outcome: &Outcome) -> Result<(), Refusal> {
    match outcome {
        Outcome::Running(residue) if residue.units() > UNITS => Err(Refusal::Units),
        _ => Ok(()),
    }
}
