//! The forecast that a start or a reading tells (paper 02, No. 2): "Start and reading both answer with the forecast of
//! the table they leave; a refusal gives zeros for it." What it must be is found here by following a mark after every
//! window, apart from the monitor's forecast.

use super::moved::{state_name, Effect};
use crate::agreement::Agreement;
use crate::check::Accepted;
use crate::reading::Reading;
use crate::rules::{self, Outcome, Scope};
use crate::table::{self, BREACHED, FULFILLED, LAST, RUNNING, STATE};
use crate::{Forecast, Refusal};

/// An accepted start or reading, and the forecast that it tells.
pub struct Told<'t, 'a> {
    pub accepted: &'t Accepted<'a>,
    /// What the reading does; none for a start.
    pub effect: Option<&'t Effect<'t>>,
    pub left: &'t [i64],
    pub forecast: Forecast,
}

/// A mark after every window, those of elses too: nothing waits on.
const AFTER_ALL: Reading = Reading { time: 1 << 60, kind: 0, values: Vec::new() };

/// "An accepted mark later than a forecast time gives just that breach; with forecast none, no mark breaches."
fn after_all<'a>(agreement: &'a Agreement, outcome: Outcome<'a>) -> Forecast {
    let settled = match outcome {
        Outcome::Running(residue) => rules::follow(agreement, residue, &AFTER_ALL, &mut 0),
        decided => decided,
    };
    match settled {
        Outcome::Fulfilled => None,
        Outcome::Breached(breach) => Some((breach.time, breach.parties)),
        Outcome::Running(_) => unreachable!("a unit that waits on after every window"),
    }
}

/// The forecast of a table, if it is well typed.
pub fn of_table(accepted: &Accepted, table: &[i64]) -> Option<Forecast> {
    let state = table::read(accepted, table).ok()?;
    Some(after_all(accepted.agreement, state.outcome))
}

/// What a start refused with 11 would tell.
fn of_start(agreement: &Agreement) -> Forecast {
    let time = i64::from(agreement.start);
    after_all(agreement, rules::activate(agreement, &agreement.main, time, &Scope::default(), &mut 0))
}

/// What a reading refused with 11 would tell.
fn of_reading(accepted: &Accepted, table: &[i64], reading: &Reading) -> Option<Forecast> {
    let state = table::read(accepted, table).ok()?;
    let Outcome::Running(residue) = state.outcome else { return None };
    let outcome = rules::follow(accepted.agreement, residue, reading, &mut 0);
    Some(after_all(accepted.agreement, outcome))
}

impl Told<'_, '_> {
    /// What cannot be right.
    pub fn fault(&self) -> Option<&'static str> {
        let of_left = of_table(self.accepted, self.left)?;
        let running = self.left[STATE] == RUNNING;
        if self.forecast != of_left {
            Some("another forecast than of the table left")
        } else if self.forecast.is_some_and(|(_, parties)| parties == 0 || parties & !self.accepted.parties != 0) {
            Some("a forecast that blames nobody, or a party that is not the main clause's")
        } else if running && self.forecast.is_some_and(|(time, _)| time < self.left[LAST]) {
            Some("a forecast before the last reading time, though running")
        } else if self.must_be_as_before() && self.forecast != self.before()? {
            Some("a forecast by a mark or a verdict that is not as before")
        } else {
            None
        }
    }

    /// The forecast of the table before the reading.
    fn before(&self) -> Option<Forecast> {
        of_table(self.accepted, self.effect?.before)
    }

    /// A mark does what any later mark would do, and no reading fulfils what was late before it. Only in the minute of a
    /// breach some party may not be late yet whom a later mark would blame too.
    fn must_be_as_before(&self) -> bool {
        let Some(Effect { before, reading, .. }) = self.effect else { return false };
        let by_breach = before[STATE] == RUNNING && self.left[STATE] == BREACHED;
        let own_minute = self.forecast.is_some_and(|(time, _)| time == reading.time);
        (reading.kind == 0 || by_breach) && !(by_breach && own_minute)
    }

    /// By the states and by what is told.
    pub fn case(&self) -> String {
        let word = word(self.forecast);
        match self.effect {
            None => start_case(self.left[STATE], word),
            Some(effect) => reading_case((effect.before[STATE], self.left[STATE], word)),
        }
    }

    /// What is told beside what the table before would have told, if it was running.
    pub fn beside_before(&self) -> Option<&'static str> {
        let effect = self.effect?;
        if effect.before[STATE] != RUNNING {
            return None;
        }
        let case = match (self.left[STATE], self.before()?, self.forecast) {
            (FULFILLED, None, _) => "fulfilled: none before",
            (FULFILLED, Some(_), _) => "fulfilled: a breach before",
            (BREACHED, before, told) if before == told => "breached: as before",
            (BREACHED, ..) => "breached: otherwise, in the reading's minute",
            (_, None, None) => "running: none, as before",
            (_, None, Some(_)) => "running: a breach, none before",
            (_, Some(_), None) => "running: none, a breach before",
            (_, Some(before), Some(told)) if before == told => "running: the breach as before",
            (_, Some((before, _)), Some((told, _))) if told < before => "running: an earlier breach",
            (_, Some((before, _)), Some((told, _))) if told > before => "running: a later breach",
            _ => "running: other parties at the same time",
        };
        Some(case)
    }

    /// What a reading tells that alters nothing of a running table.
    pub fn idle_case(&self) -> Option<String> {
        let effect = self.effect?;
        let idle = effect.stays_running() && effect.is_unaltered();
        let by = if effect.reading.kind == 0 { MARK } else { OTHER };
        idle.then(|| idle_name(by, word(self.forecast)))
    }

    pub fn corners(&self) -> Vec<String> {
        let Some((time, parties)) = self.forecast else { return Vec::new() };
        let entry = if self.effect.is_some() { READING } else { START };
        let running = self.left[STATE] == RUNNING;
        let reached = [
            (running && time == self.left[LAST], CORNERS[0]),
            (time == 0, CORNERS[1]),
            (time > i64::from(u32::MAX), CORNERS[2]),
            (running && parties.count_ones() > 1, CORNERS[3]),
        ];
        reached.into_iter().filter(|(reached, _)| *reached).map(|(_, corner)| corner_name(entry, corner)).collect()
    }
}

const A_BREACH: &str = "a breach";
const NONE: &str = "none";
const MARK: &str = "by a mark";
const OTHER: &str = "by another reading";
const START: &str = "start";
const READING: &str = "reading";
const CORNERS: [&str; 4] = ["in its own minute, running", "at minute 0", "beyond 32 bits", "several parties, running"];

fn word(forecast: Forecast) -> &'static str {
    match forecast {
        Some(_) => A_BREACH,
        None => NONE,
    }
}

fn start_case(state: i64, word: &str) -> String {
    format!("start, {}: {word}", state_name(state))
}

fn reading_case((before, after, word): (i64, i64, &str)) -> String {
    format!("reading, {} to {}: {word}", state_name(before), state_name(after))
}

fn idle_name(by: &str, word: &str) -> String {
    format!("{by}: {word}")
}

fn corner_name(entry: &str, corner: &str) -> String {
    format!("{entry}: {corner}")
}

pub fn cases() -> Vec<String> {
    let starts = [(RUNNING, A_BREACH), (RUNNING, NONE), (FULFILLED, NONE)];
    let readings = [
        (RUNNING, RUNNING, A_BREACH),
        (RUNNING, RUNNING, NONE),
        (RUNNING, FULFILLED, NONE),
        (RUNNING, BREACHED, A_BREACH),
        (FULFILLED, FULFILLED, NONE),
        (BREACHED, BREACHED, A_BREACH),
    ];
    starts.map(|(state, word)| start_case(state, word)).into_iter().chain(readings.map(reading_case)).collect()
}

pub fn beside_cases() -> Vec<String> {
    let cases = [
        "fulfilled: none before",
        "fulfilled: a breach before",
        "breached: as before",
        "breached: otherwise, in the reading's minute",
        "running: none, as before",
        "running: a breach, none before",
        "running: none, a breach before",
        "running: the breach as before",
        "running: an earlier breach",
        "running: a later breach",
        "running: other parties at the same time",
    ];
    cases.map(str::to_string).to_vec()
}

pub fn idle_cases() -> Vec<String> {
    [MARK, OTHER].iter().flat_map(|by| [A_BREACH, NONE].map(|word| idle_name(by, word))).collect()
}

pub fn corners() -> Vec<String> {
    [START, READING].iter().flat_map(|entry| CORNERS.map(|corner| corner_name(entry, corner))).collect()
}

/// The refusals that give zeros where a breach might be told: that of the table given, or that of the units that are
/// too many.
pub fn zeros() -> Vec<String> {
    let of_table = [RUNNING, BREACHED].into_iter().flat_map(|state| [8, 9, 10].map(|number| zeros_name(number, state)));
    let of_too_many = [START, READING].map(too_many_name);
    of_table.chain([zeros_name(11, RUNNING)]).chain(of_too_many).collect()
}

fn zeros_name(number: u32, state: i64) -> String {
    format!("refused with {number}: the table given is {} and has a breach", state_name(state))
}

fn too_many_name(entry: &str) -> String {
    format!("{entry} refused with 11: the units that are too many have a breach")
}

/// Where a refused start hides a breach.
pub fn hidden_by_start(agreement: &Agreement, number: u32) -> Option<String> {
    let too_many = number == Refusal::Units.number();
    (too_many && of_start(agreement).is_some()).then(|| too_many_name(START))
}

/// Where a reading refused with 8 to 11 hides a breach.
pub fn hidden_by_reading(accepted: &Accepted, table: &[i64], bytes: &[u8], number: u32) -> Vec<String> {
    let of_given = of_table(accepted, table).flatten().map(|_| zeros_name(number, table[STATE]));
    let of_too_many = match crate::reading::parse(bytes) {
        Ok(reading) if number == Refusal::Units.number() => of_reading(accepted, table, &reading).flatten(),
        _ => None,
    };
    of_given.into_iter().chain(of_too_many.map(|_| too_many_name(READING))).collect()
}
