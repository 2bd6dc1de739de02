//! Previews (paper 02, No. 6): what they answer and write, which lengths are tried in which order, and what the second
//! table holds before. "It answers as the reading itself would on a copy, refusals included, and the first table is
//! only read. On a refusal the second table is untouched. A second table of wrong length counts under 6."

use super::is_of_agreement;
use super::moved::{self, state_name, Effect};
use crate::generate::{Aim, Answer, Call, Entry};
use crate::table::{self, BLAMED, BREACHED, CELLS, FULFILLED, HEAD, LAST, MOVED, RUNNING, STATE, TIME, UNIT, USED};
use crate::{entries, reading, Refusal, Taken};
use std::iter;

/// A preview, and what was answered.
pub struct Previewed<'t> {
    call: &'t Call,
    table: &'t [i64],
    reading: &'t [u8],
    /// The second table, before and after.
    second: &'t [i64],
    left: &'t [i64],
    taken: Taken,
    /// What the reading itself answers on a copy of the first, and what it makes of the copy.
    itself: Taken,
    copy: Vec<i64>,
}

impl<'t> Previewed<'t> {
    /// If the call is one.
    pub fn of(call: &'t Call, answer: &'t Answer) -> Option<Previewed<'t>> {
        let Entry::Preview { table, reading, second } = &call.entry else { return None };
        let Answer::Preview { number, early, cost, forecast, second: left } = answer else { return None };
        let taken = Taken { number: *number, early: *early, cost: *cost, forecast: *forecast };
        let mut copy = table.clone();
        let itself = entries::reading(&call.agreement, &mut copy, reading);
        Some(Previewed { call, table, reading, second, left, taken, itself, copy })
    }

    fn is_accepted(&self) -> bool {
        self.taken.number == 0
    }

    fn second_is_right(&self) -> bool {
        self.second.len() == CELLS
    }

    /// "It answers as the reading itself would on a copy". "A second table of wrong length counts under 6": 1 to 5 and
    /// 15 come before.
    fn expected(&self) -> Taken {
        if self.second_is_right() || is_of_agreement(self.itself.number) {
            return self.itself;
        }
        Taken { number: Refusal::Cells.number(), early: 0, cost: 0, forecast: None }
    }

    /// What cannot be right.
    pub fn fault(&self) -> Option<&'static str> {
        if self.taken != self.expected() {
            Some("a preview answers otherwise than the reading on a copy, or than its second's length")
        } else if self.is_accepted() && self.left != self.copy {
            Some("a preview writes otherwise than the reading on a copy")
        } else {
            None
        }
    }

    /// The reading itself on a copy, with what this preview answers and writes. What is impossible of the one is
    /// impossible of the other. There is none where the second's length decides.
    pub fn as_reading(&self) -> Option<(Call, Answer)> {
        let entry = Entry::Reading { table: self.table.to_vec(), reading: self.reading.to_vec() };
        let call = Call { agreement: self.call.agreement.clone(), entry, aim: self.call.aim };
        let table = if self.is_accepted() { self.left } else { self.table }.to_vec();
        let Taken { number, early, cost, forecast } = self.taken;
        self.second_is_right().then_some((call, Answer::Reading { number, early, cost, forecast, table }))
    }

    /// The lengths of a preview that is refused with 6.
    pub fn lengths(&self) -> Option<String> {
        let refused = self.taken.number == Refusal::Cells.number();
        refused.then(|| lengths_name(length(self.table), length(self.second)))
    }

    /// What the number would be if the second of wrong length were right.
    pub fn otherwise(&self) -> Option<String> {
        (!self.second_is_right()).then(|| otherwise_name(self.itself.number))
    }

    /// By the states and what becomes of cell 5, or by the number.
    pub fn case(&self) -> Option<String> {
        match self.taken.number {
            0 => {
                let reading = &reading::parse(self.reading).expect("a record");
                Some(Effect { before: self.table, after: self.left, reading }.case())
            }
            number @ 8..=11 => Some(refused_name(number, self.table[STATE])),
            _ => None,
        }
    }

    /// What the second holds before the outcome is written over it.
    pub fn written_over(&self) -> Option<String> {
        if !self.is_accepted() {
            return None;
        }
        let held = if is_zeros(self.second) {
            ZEROS
        } else if self.second == self.left {
            OUTCOME
        } else if self.second == self.table {
            FIRST
        } else if self.second_is_well_typed() {
            WELL_TYPED
        } else if (RUNNING..=BREACHED).contains(&self.second[STATE]) {
            DAMAGED
        } else {
            NO_STATE
        };
        Some(over_name(self.left[STATE], held))
    }

    /// An empty reading is refused with 8; were something wrong with the table it would be 7.
    fn second_is_well_typed(&self) -> bool {
        entries::reading(&self.call.agreement, &mut self.second.to_vec(), &[]).number == Refusal::Reading.number()
    }

    /// What the second holds before and after a refusal.
    pub fn kept(&self) -> Option<String> {
        let held = if is_zeros(self.second) { ZEROS } else { SOMETHING };
        (!self.is_accepted()).then(|| kept_name(self.taken.number, held))
    }

    pub fn corners(&self) -> Vec<&'static str> {
        let too_many = self.taken.number == Refusal::Units.number() && self.taken.cost > 0;
        let made = self.is_accepted() && self.call.aim == Aim::Made;
        let reached = [(too_many, "11 with its cost"), (made, "on a table that no run left")];
        let by_answer = if self.is_accepted() { self.accepted_corners() } else { Vec::new() };
        reached.into_iter().chain(by_answer).filter(|(reached, _)| *reached).map(|(_, corner)| corner).collect()
    }

    fn accepted_corners(&self) -> Vec<(bool, &'static str)> {
        let (first, second, left) = (self.table, self.second, self.left);
        let altered = table::altered(first, left);
        let (running, breached) = (left[STATE] == RUNNING, left[STATE] == BREACHED);
        let forecast = self.taken.forecast.is_some();
        let beyond = HEAD + left[USED] as usize * UNIT;
        let verdict = second[TIME] != 0 || second[BLAMED] != 0;
        let mark = reading::parse(self.reading).is_ok_and(|reading| reading.kind == 0);
        let other_units = table::altered(second, left);
        vec![
            (self.taken.early == 1, "early"),
            (self.taken.early == 1 && other_units, "early, the second's units or state otherwise before"),
            (self.taken.cost >= 1_000, "a cost of 1,000 or more"),
            (running && forecast, "running: a breach told"),
            (running && !forecast, "running: none told"),
            (left[STATE] == FULFILLED && !forecast, "fulfilled: none told"),
            (breached && forecast, "breached: the verdict told"),
            (mark, "a time mark"),
            (!mark, "another reading"),
            (left[LAST] == first[LAST] && running, "at the last reading time once more"),
            (altered && second == left, "altered, the second holds the outcome already"),
            (!altered && running && other_units, "nothing altered, the second's units or state otherwise before"),
            (
                !altered && running && second[MOVED] != left[MOVED],
                "nothing altered, the second's cell 5 otherwise before",
            ),
            (second[LAST] > left[LAST], "the second's last reading time is later"),
            (!is_zeros(&second[beyond..]), "the second holds something beyond the outcome's units"),
            (verdict && !breached, "the second holds a verdict, the outcome none"),
            (!is_zeros(&second[MOVED + 1..HEAD]), "the second's head cells 6 and 7 are not zero"),
            (second[STATE] == BREACHED && running, "the second's state is breached, the outcome's running"),
            (second[STATE] == RUNNING && breached, "the second's state is running, the outcome's breached"),
        ]
    }
}

const ZEROS: &str = "zeros";
const OUTCOME: &str = "the outcome already";
const FIRST: &str = "the first table";
const WELL_TYPED: &str = "another table of the agreement";
const DAMAGED: &str = "a table with a state, not of the agreement";
const NO_STATE: &str = "no state";
const SOMETHING: &str = "something";
const LENGTHS: [&str; 4] = ["empty", "too short", "right", "too long"];

fn is_zeros(cells: &[i64]) -> bool {
    cells.iter().all(|cell| *cell == 0)
}

fn length(table: &[i64]) -> &'static str {
    match table.len() {
        0 => LENGTHS[0],
        CELLS => LENGTHS[2],
        fewer if fewer < CELLS => LENGTHS[1],
        _ => LENGTHS[3],
    }
}

fn lengths_name(first: &str, second: &str) -> String {
    format!("first {first}, second {second}")
}

fn otherwise_name(number: u32) -> String {
    format!("{number:2}")
}

fn refused_name(number: u32, state: i64) -> String {
    format!("refused with {number:2}: {}", state_name(state))
}

fn over_name(state: i64, held: &str) -> String {
    format!("{} over: {held}", state_name(state))
}

fn kept_name(number: u32, held: &str) -> String {
    format!("kept on {number:2}: {held}")
}

const STATES: [i64; 3] = [RUNNING, FULFILLED, BREACHED];

/// Some length is wrong.
pub fn lengths() -> Vec<String> {
    let pairs = LENGTHS.iter().flat_map(|first| LENGTHS.map(|second| lengths_name(first, second)));
    pairs.filter(|name| *name != lengths_name("right", "right")).collect()
}

pub fn otherwise() -> Vec<String> {
    (0..=11).chain([15]).map(otherwise_name).collect()
}

pub fn cases() -> Vec<String> {
    let refused = STATES.iter().flat_map(|state| [8, 9, 10].map(|number| refused_name(number, *state)));
    moved::reading_cases().chain(refused).chain(iter::once(refused_name(11, RUNNING))).collect()
}

pub fn contents() -> Vec<String> {
    let over = [ZEROS, OUTCOME, FIRST, WELL_TYPED, DAMAGED, NO_STATE];
    let over = STATES.iter().flat_map(|state| over.map(|held| over_name(*state, held)));
    let numbers = (1..=11).chain([15]);
    over.chain(numbers.flat_map(|number| [ZEROS, SOMETHING].map(|held| kept_name(number, held)))).collect()
}

/// Where a careless monitor might preview otherwise than it reads, or leave something of what the second held.
pub fn corners() -> Vec<String> {
    let names = [
        "11 with its cost",
        "on a table that no run left",
        "early",
        "early, the second's units or state otherwise before",
        "a cost of 1,000 or more",
        "running: a breach told",
        "running: none told",
        "fulfilled: none told",
        "breached: the verdict told",
        "a time mark",
        "another reading",
        "at the last reading time once more",
        "altered, the second holds the outcome already",
        "nothing altered, the second's units or state otherwise before",
        "nothing altered, the second's cell 5 otherwise before",
        "the second's last reading time is later",
        "the second holds something beyond the outcome's units",
        "the second holds a verdict, the outcome none",
        "the second's head cells 6 and 7 are not zero",
        "the second's state is breached, the outcome's running",
        "the second's state is running, the outcome's breached",
    ];
    names.map(str::to_string).to_vec()
}
