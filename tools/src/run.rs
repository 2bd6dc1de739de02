//! A run: an agreement and readings, one after another, given to the proved library.
//!
//! Every verdict is the library's. Nothing here judges; [`Step`] only writes down what was answered,
//! in the words of the program `brinewatch`.

mod arguments;
mod follow;
pub mod records;
mod teller;

pub use arguments::{command, told};
pub use follow::followed;
pub use teller::Form;

use givuntha::{Breach, Refusal, Refused, State, Table, Taken};
use std::fmt;

/// What the library answered.
#[derive(Clone, Copy, Debug, PartialEq, Eq)]
pub enum Verdict {
    /// Running; the breach that comes if only time goes on, if one does.
    Live(Option<Breach>),
    Done,
    Breached(Breach),
    Refused(Refusal),
}

/// The start (number 0) or a reading, and what came of it.
#[derive(Clone, Copy, Debug, PartialEq, Eq)]
pub struct Step {
    pub number: u64,
    /// None where the record has none.
    pub time: Option<u32>,
    pub verdict: Verdict,
    /// The library's mark: the reading came too early. Neither the start nor a refused reading has it.
    pub early: bool,
    /// What the reading cost, by the library; the start has no cost.
    pub cost: Option<u64>,
}

/// An agreement that was started, its table, and the forecast that the library told of this table.
#[derive(Clone)]
pub struct Run {
    agreement: Vec<u8>,
    table: Table,
    ahead: Option<Breach>,
    readings: u64,
}

impl Run {
    pub fn start(agreement: Vec<u8>) -> Result<Run, Refusal> {
        let (table, ahead) = Table::start(&agreement)?;
        Ok(Run { agreement, table, ahead, readings: 0 })
    }

    /// What is to be seen after the start.
    pub fn started(&self) -> Step {
        Step { number: 0, time: time(&self.agreement), verdict: self.verdict(), early: false, cost: None }
    }

    pub fn reading(&mut self, record: &[u8]) -> Step {
        let answer = self.table.reading(&self.agreement, record);
        self.answered(record, answer)
    }

    /// What a reading would do, and the run as it would be then; this one takes no reading by it.
    pub fn preview(&self, record: &[u8]) -> (Step, Run) {
        let mut after = self.clone();
        let foreseen = self.table.preview(&self.agreement, record);
        let answer = foreseen.map(|(taken, table)| {
            after.table = table;
            taken
        });
        (after.answered(record, answer), after)
    }

    /// Writes down what the library answered to a reading; the table is what it left.
    fn answered(&mut self, record: &[u8], answer: Result<Taken, Refused>) -> Step {
        self.readings += 1;
        let (time, verdict, early) = match answer {
            Ok(Taken { ahead, early, .. }) => {
                self.ahead = ahead;
                (time(record), self.verdict(), early)
            }
            // Refused with 8 it is no record of a reading, so it has no time.
            Err(Refused::Other(refusal @ Refusal::ReadingForm)) => (None, Verdict::Refused(refusal), false),
            Err(refused) => (time(record), Verdict::Refused(refused.refusal()), false),
        };
        let cost = answer.map_or_else(Refused::cost, |taken| taken.cost);
        Step { number: self.readings, time, verdict, early, cost: Some(cost) }
    }

    /// What the table says now.
    pub fn verdict(&self) -> Verdict {
        match self.table.state().expect("the state of a table that the library made") {
            State::Running => Verdict::Live(self.ahead),
            State::Fulfilled => Verdict::Done,
            State::Breached(breach) => Verdict::Breached(self.ahead.unwrap_or(breach)),
        }
    }

    /// When the agreement last moved: the time of the last reading that altered a unit or the state, or the start.
    pub fn last_moved(&self) -> u32 {
        self.table.times().expect("the times of a table that the library made").last_moved
    }

    /// The table as bytes, each cell little-endian.
    pub fn table(&self) -> Vec<u8> {
        self.table.cells().iter().flat_map(|cell| cell.to_le_bytes()).collect()
    }
}

/// The start time of an agreement or the time of a reading: both stand after length and kind.
fn time(record: &[u8]) -> Option<u32> {
    let bytes = record.get(4..8)?;
    Some(u32::from_le_bytes(bytes.try_into().ok()?))
}

/// The line that `brinewatch` writes.
impl fmt::Display for Step {
    fn fmt(&self, f: &mut fmt::Formatter) -> fmt::Result {
        match self.time {
            Some(time) => write!(f, "{} {time} {}", self.number, self.verdict),
            None => write!(f, "{} - {}", self.number, self.verdict),
        }
    }
}

impl fmt::Display for Verdict {
    fn fmt(&self, f: &mut fmt::Formatter) -> fmt::Result {
        match self {
            Verdict::Live(None) => f.write_str("LIVE NONE"),
            Verdict::Live(Some(ahead)) => write!(f, "LIVE {} {}", ahead.time, ahead.parties.bits()),
            Verdict::Done => f.write_str("DONE"),
            Verdict::Breached(breach) => write!(f, "BREACH {} {}", breach.time, breach.parties.bits()),
            Verdict::Refused(refusal) => write!(f, "REFUSED {}", refusal.number()),
        }
    }
}
