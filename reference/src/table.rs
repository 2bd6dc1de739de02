//! The table of 3,080 cells, both ways, by the paper's section "The table": refusals 6 and 7.

use crate::agreement::Type;
use crate::check::{Accepted, Site, SIGHT};
use crate::rules::{Breach, Outcome, Residue, Scope, Waiting};
use crate::Refusal;
use std::slice::{ChunksExact, ChunksExactMut};

/// "a head of 8, then 128 units of 24"
pub const HEAD: usize = 8;
pub const UNITS: usize = 128;
pub const UNIT: usize = 24;
pub const CELLS: usize = HEAD + UNITS * UNIT;

/// The cells of the head: "0 state (1 running, 2 fulfilled, 3 breached), 1 last reading time, 2
/// breach time, 3 blamed parties by bit, 4 units in use, 5 to 7 zero". Paper 02, No. 1: "the time of
/// the last reading that altered a unit or the state. Head cell 5 now holds it."
pub const STATE: usize = 0;
pub const LAST: usize = 1;
pub const TIME: usize = 2;
pub const BLAMED: usize = 3;
pub const USED: usize = 4;
pub const MOVED: usize = 5;

pub const RUNNING: i64 = 1;
pub const FULFILLED: i64 = 2;
pub const BREACHED: i64 = 3;

/// The cells of a unit: "0 sort (17, 18, 20 or 21), 1 byte place of its clause in the agreement, 2
/// A, 3 to 6 party parameters, 7 zero, 8 to 23 values in sight there".
pub const SORT: usize = 0;
pub const PLACE: usize = 1;
pub const ACTIVATED: usize = 2;
pub const PARAMETERS: usize = 3;
pub const ZERO: usize = 7;
pub const VALUES: usize = 8;

pub const AND: i64 = 20;
pub const OR: i64 = 21;

/// What a table holds.
#[derive(Clone, Debug)]
pub struct State<'a> {
    pub last: i64,
    /// The time of the last reading that altered a unit or the state.
    pub moved: i64,
    pub outcome: Outcome<'a>,
}

impl State<'_> {
    /// Writes every cell of a table of 3,080. The residue has at most 128 units.
    pub fn write(&self, table: &mut [i64]) {
        table.fill(0);
        let (head, units) = table.split_at_mut(HEAD);
        head[LAST] = self.last;
        head[MOVED] = self.moved;
        match &self.outcome {
            Outcome::Fulfilled => head[STATE] = FULFILLED,
            Outcome::Breached(breach) => {
                head[STATE] = BREACHED;
                head[TIME] = breach.time;
                head[BLAMED] = i64::from(breach.parties);
            }
            Outcome::Running(residue) => {
                head[STATE] = RUNNING;
                head[USED] = residue.units() as i64;
                write_residue(residue, &mut units.chunks_exact_mut(UNIT));
            }
        }
    }

    /// A table of its own.
    pub fn table(&self) -> Vec<i64> {
        let mut table = vec![0; CELLS];
        self.write(&mut table);
        table
    }
}

/// "Altered means that a unit cell or the state cell holds another number afterwards."
pub fn altered(before: &[i64], after: &[i64]) -> bool {
    before[STATE] != after[STATE] || before[HEAD..] != after[HEAD..]
}

/// "An `and` or `or` unit is followed by all of its left side, then all of its right".
fn write_residue(residue: &Residue, units: &mut ChunksExactMut<i64>) {
    let unit = units.next().expect("at most 128 units");
    match residue {
        Residue::Waiting(waiting) => write_waiting(waiting, unit),
        Residue::And(left, right) | Residue::Or(left, right) => {
            unit[SORT] = if matches!(residue, Residue::And(..)) { AND } else { OR };
            write_residue(left, units);
            write_residue(right, units);
        }
    }
}

fn write_waiting(waiting: &Waiting, unit: &mut [i64]) {
    unit[SORT] = i64::from(waiting.wait.kind());
    unit[PLACE] = waiting.wait.place as i64;
    unit[ACTIVATED] = waiting.activated;
    unit[PARAMETERS..ZERO].copy_from_slice(&waiting.scope.parameters);
    unit[VALUES..].copy_from_slice(&waiting.scope.values);
}

/// Refusal 6: "table not 3,080 cells".
pub fn right_length(table: &[i64]) -> Result<(), Refusal> {
    if table.len() == CELLS {
        Ok(())
    } else {
        Err(Refusal::Cells)
    }
}

/// Reads a table, or refuses it with 6 or 7.
pub fn read<'a>(accepted: &Accepted<'a>, table: &[i64]) -> Result<State<'a>, Refusal> {
    right_length(table)?;
    let (head, units) = table.split_at(HEAD);
    let start = i64::from(accepted.agreement.start);
    let (last, moved) = (head[LAST], head[MOVED]);
    // "The last reading time runs from the start to 4,294,967,295."
    ensure((start..=i64::from(u32::MAX)).contains(&last))?;
    // "lies from the start to the last reading time; a table where it doesn't is damaged under 7"
    ensure((start..=last).contains(&moved))?;
    ensure(zero(&head[MOVED + 1..]))?;
    // "Cells 2 and 3 are zero unless breached, cell 4 unless running."
    ensure(head[STATE] == BREACHED || zero(&head[TIME..=BLAMED]))?;
    ensure(head[STATE] == RUNNING || head[USED] == 0 && zero(units))?;
    let outcome = match head[STATE] {
        RUNNING => Outcome::Running(Reader::new(accepted, last, head[USED], units)?.all()?),
        FULFILLED => Outcome::Fulfilled,
        BREACHED => Outcome::Breached(read_breach(head, start, accepted.parties)?),
        _ => return Err(Refusal::Table),
    };
    Ok(State { last, moved, outcome })
}

/// Refused: "a breach without party, with one not of the main clause, or with a time outside start
/// to last reading".
fn read_breach(head: &[i64], start: i64, possible: u32) -> Result<Breach, Refusal> {
    let parties = u32::try_from(head[BLAMED]).map_err(|_| Refusal::Table)?;
    ensure(parties != 0 && parties & !possible == 0)?;
    ensure((start..=head[LAST]).contains(&head[TIME]))?;
    Ok(Breach { time: head[TIME], parties })
}

/// Reads the units of a running table in their order.
struct Reader<'r, 'a> {
    accepted: &'r Accepted<'a>,
    last: i64,
    units: ChunksExact<'r, i64>,
}

impl<'r, 'a> Reader<'r, 'a> {
    fn new(accepted: &'r Accepted<'a>, last: i64, used: i64, cells: &'r [i64]) -> Result<Reader<'r, 'a>, Refusal> {
        let used = usize::try_from(used).map_err(|_| Refusal::Table)?;
        ensure(used <= UNITS)?;
        let (units, unused) = cells.split_at(used * UNIT);
        ensure(zero(unused))?;
        Ok(Reader { accepted, last, units: units.chunks_exact(UNIT) })
    }

    /// The units in use are one residue and nothing else.
    fn all(mut self) -> Result<Residue<'a>, Refusal> {
        let (residue, _) = self.residue()?;
        ensure(self.units.len() == 0)?;
        Ok(residue)
    }

    /// The next residue and its parties by bit.
    fn residue(&mut self) -> Result<(Residue<'a>, u32), Refusal> {
        let unit = self.units.next().ok_or(Refusal::Table)?;
        match unit[SORT] {
            17 | 18 => self.waiting(unit),
            AND | OR => self.join(unit),
            _ => Err(Refusal::Table),
        }
    }

    /// An `and` or `or`: "its other cells are zero"; "the rule for `or` holds at each `or` unit".
    fn join(&mut self, unit: &[i64]) -> Result<(Residue<'a>, u32), Refusal> {
        ensure(zero(&unit[SORT + 1..]))?;
        let (left, left_parties) = self.residue()?;
        let (right, right_parties) = self.residue()?;
        let (left, right, parties) = (Box::new(left), Box::new(right), left_parties | right_parties);
        if unit[SORT] == AND {
            return Ok((Residue::And(left, right), parties));
        }
        // A parameter's party is known here: the members are parties, one bit each.
        ensure(parties.count_ones() <= 1)?;
        Ok((Residue::Or(left, right), parties))
    }

    /// "each waiting unit's place is a clause of its sort, its values and parameters are of the
    /// types and ranges in sight there, its parties are among the main clause's"
    fn waiting(&self, unit: &[i64]) -> Result<(Residue<'a>, u32), Refusal> {
        let site = self.accepted.site(unit[PLACE]).ok_or(Refusal::Table)?;
        let start = i64::from(self.accepted.agreement.start);
        ensure(unit[SORT] == i64::from(site.wait.kind()))?;
        ensure((start..=self.last).contains(&unit[ACTIVATED]))?;
        ensure(unit[ZERO] == 0)?;
        let scope = self.scope(unit, site)?;
        let parties = site.parties.resolve(&scope.parameters);
        ensure(parties & !self.accepted.parties == 0)?;
        let waiting = Waiting { wait: site.wait, activated: unit[ACTIVATED], scope };
        Ok((Residue::Waiting(waiting), parties))
    }

    /// The parameters and values of a unit; "Unused cells are zero."
    fn scope(&self, unit: &[i64], site: &Site) -> Result<Scope, Refusal> {
        let parties = self.accepted.agreement.parties;
        let types = site.view.values();
        let (parameters, no_parameters) = unit[PARAMETERS..ZERO].split_at(usize::from(site.view.parameters));
        let (values, no_values) = unit[VALUES..].split_at(types.len());
        ensure(zero(no_parameters) && zero(no_values))?;
        ensure(parameters.iter().all(|party| Type::Party.holds(*party, parties)))?;
        ensure(types.iter().zip(values).all(|(t, value)| t.holds(*value, parties)))?;
        let mut scope = Scope { count: types.len(), ..Scope::default() };
        scope.parameters.copy_from_slice(&unit[PARAMETERS..ZERO]);
        scope.values[..SIGHT].copy_from_slice(&unit[VALUES..]);
        Ok(scope)
    }
}

fn zero(cells: &[i64]) -> bool {
    cells.iter().fold(0, |bits, cell| bits | cell) == 0
}

fn ensure(condition: bool) -> Result<(), Refusal> {
    if condition {
        Ok(())
    } else {
        Err(Refusal::Table)
    }
}
