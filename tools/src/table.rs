//! The table of 3,080 cells by its layout alone, without the agreement that it belongs to.

/// "a head of 8, then 128 units of 24"
const HEAD: usize = 8;
const UNITS: usize = 128;
const UNIT: usize = 24;
const CELLS: usize = HEAD + UNITS * UNIT;
pub const BYTES: usize = 8 * CELLS;

/// The head: "0 state, 1 last reading time, 2 breach time, 3 blamed parties by bit, 4 units in use", then "the time of
/// the last reading that altered a unit or the state" (paper 02, No. 1), and zeros.
const STATE: usize = 0;
const LAST_READING: usize = 1;
const BREACH_TIME: usize = 2;
const BLAMED: usize = 3;
const USED: usize = 4;
const LAST_MOVED: usize = 5;
const ZEROS: usize = 6;

const RUNNING: i64 = 1;
const FULFILLED: i64 = 2;
const BREACHED: i64 = 3;

/// What a table says.
#[derive(Debug, PartialEq, Eq)]
pub struct State {
    /// The last reading time.
    pub last: i64,
    /// The time of the last reading that altered a unit or the state; at first the start.
    pub moved: i64,
    pub outcome: Outcome,
}

#[derive(Debug, PartialEq, Eq)]
pub enum Outcome {
    Running(Residue),
    Fulfilled,
    /// The time, and the blamed parties by bit.
    Breached(i64, u32),
}

/// Waiting clauses joined by `and` and `or`.
#[derive(Debug, PartialEq, Eq)]
pub enum Residue {
    Waiting(Waiting),
    And(Box<Residue>, Box<Residue>),
    Or(Box<Residue>, Box<Residue>),
}

/// An obligation or choice that waits.
#[derive(Debug, PartialEq, Eq)]
pub struct Waiting {
    /// Which unit it is, from 0.
    pub unit: usize,
    /// 17 or 18.
    pub sort: i64,
    pub place: i64,
    pub activated: i64,
    pub parameters: [i64; 4],
    pub values: [i64; 16],
}

/// Reads the bytes of a table, or says in words why they are none.
pub fn read(bytes: &[u8]) -> Result<State, String> {
    if bytes.len() != BYTES {
        return Err(format!("{} bytes, where a table has 24,640", bytes.len()));
    }
    let cells: Vec<i64> = bytes.chunks_exact(8).map(cell).collect();
    let (head, units) = cells.split_at(HEAD);
    let (last, moved) = times(head)?;
    if !(RUNNING..=BREACHED).contains(&head[STATE]) {
        return Err(format!("state {}, where 1, 2 and 3 are states", head[STATE]));
    }
    zeros(head, units)?;
    let outcome = match head[STATE] {
        RUNNING => Outcome::Running(Reader::new(last, head[USED], units)?.all()?),
        FULFILLED => Outcome::Fulfilled,
        _ => breach(head)?,
    };
    Ok(State { last, moved, outcome })
}

/// The last reading time, and when the agreement last moved.
fn times(head: &[i64]) -> Result<(i64, i64), String> {
    let (last, moved) = (head[LAST_READING], head[LAST_MOVED]);
    if !(0..=i64::from(u32::MAX)).contains(&last) {
        return Err(format!("the last reading time is {last}, which is no time of a reading"));
    }
    if !(0..=last).contains(&moved) {
        return Err(format!("last moved at {moved}, where the last reading was at {last}"));
    }
    Ok((last, moved))
}

/// "Cells 2 and 3 are zero unless breached, cell 4 unless running."
fn zeros(head: &[i64], units: &[i64]) -> Result<(), String> {
    zero(&head[ZEROS..], "cells 6 and 7 of the head")?;
    if head[STATE] != BREACHED {
        zero(&head[BREACH_TIME..=BLAMED], "the breach time or the blamed parties of a table that is not breached")?;
    }
    if head[STATE] != RUNNING {
        zero(&head[USED..=USED], "the number of units in use of a table that is not running")?;
        zero(units, "the units of a table that is not running")?;
    }
    Ok(())
}

fn cell(bytes: &[u8]) -> i64 {
    let mut cell = [0; 8];
    cell.copy_from_slice(bytes);
    i64::from_le_bytes(cell)
}

fn breach(head: &[i64]) -> Result<Outcome, String> {
    let (last, time) = (head[LAST_READING], head[BREACH_TIME]);
    if !(0..=last).contains(&time) {
        return Err(format!("a breach at {time}, where the last reading was at {last}"));
    }
    match u16::try_from(head[BLAMED]) {
        Ok(0) => Err("a breach by nobody".to_string()),
        Ok(parties) => Ok(Outcome::Breached(time, parties.into())),
        Err(_) => Err(format!("blamed parties {}, where 16 bits may be set", head[BLAMED])),
    }
}

/// Reads the units of a running table in their order.
struct Reader<'c> {
    last: i64,
    units: &'c [i64],
    used: usize,
    /// The unit that is read next.
    next: usize,
}

impl<'c> Reader<'c> {
    fn new(last: i64, used: i64, units: &'c [i64]) -> Result<Reader<'c>, String> {
        match usize::try_from(used) {
            Ok(used) if (1..=UNITS).contains(&used) => {
                zero(&units[used * UNIT..], "the units beyond those in use")?;
                Ok(Reader { last, units, used, next: 0 })
            }
            _ => Err(format!("{used} units in use, where a running table has 1 to 128")),
        }
    }

    /// The units in use are one residue and nothing else.
    fn all(mut self) -> Result<Residue, String> {
        let residue = self.residue()?;
        if self.next == self.used {
            return Ok(residue);
        }
        Err(format!("unit {} belongs to nothing: the units before it are whole", self.next))
    }

    fn residue(&mut self) -> Result<Residue, String> {
        let number = self.next;
        if number == self.used {
            return Err(format!("the units end at {number}, where a side of an `and` or `or` must follow"));
        }
        self.next += 1;
        let unit = &self.units[number * UNIT..][..UNIT];
        match unit[0] {
            17 | 18 => self.waiting(number, unit).map(Residue::Waiting),
            20 | 21 => {
                zero(&unit[1..], &format!("unit {number}, an `and` or `or`, after its sort"))?;
                let (left, right) = (Box::new(self.residue()?), Box::new(self.residue()?));
                Ok(if unit[0] == 20 { Residue::And(left, right) } else { Residue::Or(left, right) })
            }
            sort => Err(format!("unit {number} is of sort {sort}, where 17, 18, 20 and 21 are sorts")),
        }
    }

    /// "0 sort, 1 byte place of its clause in the agreement, 2 A, 3 to 6 party parameters, 7 zero,
    /// 8 to 23 values in sight there"
    fn waiting(&self, number: usize, unit: &[i64]) -> Result<Waiting, String> {
        let activated = unit[2];
        if !(0..=self.last).contains(&activated) {
            return Err(format!("unit {number} waits since {activated}, where the last reading was at {}", self.last));
        }
        zero(&unit[7..8], &format!("cell 7 of unit {number}"))?;
        let (mut parameters, mut values) = ([0; 4], [0; 16]);
        parameters.copy_from_slice(&unit[3..7]);
        values.copy_from_slice(&unit[8..]);
        Ok(Waiting { unit: number, sort: unit[0], place: unit[1], activated, parameters, values })
    }
}

fn zero(cells: &[i64], what: &str) -> Result<(), String> {
    if cells.iter().all(|cell| *cell == 0) {
        return Ok(());
    }
    Err(format!("something other than 0 in {what}"))
}
