//! Obligations and choices that wait, with all that is known of them.
//!
//! The proved library decides; what is worked out here only says why, and is compared with what was
//! decided wherever the two meet.

pub mod activate;
pub mod breach;
pub mod changes;

use crate::explain::fit::{fit, Unit, Units};
use crate::known::Known;
use crate::model::{Agreement, Blame, Expression, Late, Type, Wait};
use crate::print::Sight;
use crate::readings::Reading;
use crate::table::{self, Outcome, Residue};

/// An obligation or choice that was activated.
#[derive(Clone)]
pub struct Pending<'a> {
    pub wait: &'a Wait,
    /// The names in sight at the clause.
    pub sight: Sight,
    /// What they stand for.
    pub known: Known,
    /// A, the time of activation.
    pub activated: i64,
    /// "its window being first = A + after, last = first + within, both ends included"
    pub first: i64,
    pub last: i64,
}

/// Waiting clauses joined by `and` and `or`; fulfilled where none is left.
#[derive(Clone)]
pub enum Tree<'a> {
    Fulfilled,
    Waits(Pending<'a>),
    And(Box<Tree<'a>>, Box<Tree<'a>>),
    Or(Box<Tree<'a>>, Box<Tree<'a>>),
}

impl<'a> Pending<'a> {
    /// The clause activated at a time. None in an agreement that is not typed.
    pub fn new(wait: &'a Wait, sight: Sight, known: Known, activated: i64) -> Option<Pending<'a>> {
        let first = activated + number(&known, &wait.after)?;
        let last = first + number(&known, &wait.within)?;
        Some(Pending { wait, sight, known, activated, first, last })
    }

    /// When it is over: "the later of A and last".
    pub fn over(&self) -> i64 {
        self.last.max(self.activated)
    }

    /// The party that owes it; none of a choice.
    pub fn party(&self) -> Option<usize> {
        match self.wait.late {
            Late::Breach(blame) => match self.known.blame(blame) {
                Blame::Party(party) => Some(party),
                Blame::Parameter(_) => None,
            },
            Late::Else(_) => None,
        }
    }

    /// "The reading type is the wanted one, T >= first and where is true"; T > last comes before.
    pub fn is_met_by(&self, reading: &Reading) -> bool {
        (self.first..=self.last).contains(&i64::from(reading.time)) && self.wants(reading)
    }

    /// "wants this type, finds `where` true, and has a first later than the reading"; its last does not matter.
    pub fn opens_after(&self, reading: &Reading) -> bool {
        self.first > i64::from(reading.time) && self.wants(reading)
    }

    fn wants(&self, reading: &Reading) -> bool {
        usize::from(reading.kind) == self.wait.reading + 1 && self.holds(&reading.values)
    }

    /// Whether `where` is true of a reading's values.
    fn holds(&self, values: &[i32]) -> bool {
        let literals = self.wait.bound.iter().zip(values).map(|(value, cell)| literal(value.value_type, *cell));
        let Some(literals) = literals.collect::<Option<Vec<_>>>() else { return false };
        let mut known = self.known.clone();
        known.values.extend(literals);
        known.expression(&self.wait.condition) == Expression::TRUE
    }

    /// Whether the two are one clause, activated alike.
    pub fn is(&self, other: &Pending) -> bool {
        let same_place = self.wait.place == other.wait.place && self.activated == other.activated;
        same_place && self.known == other.known
    }
}

impl<'a> Tree<'a> {
    /// What waits by a table that the library made, or why it cannot be told.
    pub fn of_table(table: &[u8], agreement: &'a Agreement) -> Result<Tree<'a>, String> {
        let state = table::read(table)?;
        let mut units = fit(&state, agreement)?;
        match &state.outcome {
            Outcome::Running(residue) => of_residue(residue, &mut units),
            Outcome::Fulfilled | Outcome::Breached(..) => Ok(Tree::Fulfilled),
        }
    }

    /// Whether the same clauses wait, joined alike.
    pub fn is(&self, other: &Tree) -> bool {
        match (self, other) {
            (Tree::Fulfilled, Tree::Fulfilled) => true,
            (Tree::Waits(pending), Tree::Waits(waiting)) => pending.is(waiting),
            (Tree::And(left, right), Tree::And(first, second)) | (Tree::Or(left, right), Tree::Or(first, second)) => {
                left.is(first) && right.is(second)
            }
            _ => false,
        }
    }

    /// What waits and wants a reading whose time is before its window, the next to open first.
    pub fn opening_after(&self, reading: &Reading) -> Vec<Pending<'a>> {
        let mut later: Vec<_> = self.all().into_iter().filter(|one| one.opens_after(reading)).cloned().collect();
        later.sort_by_key(|pending| pending.first);
        later
    }

    /// Everything that waits, from left to right.
    pub fn all(&self) -> Vec<&Pending<'a>> {
        match self {
            Tree::Fulfilled => Vec::new(),
            Tree::Waits(pending) => vec![pending],
            Tree::And(left, right) | Tree::Or(left, right) => [left.all(), right.all()].concat(),
        }
    }

    /// The sides of a join, with joins of its own kind taken apart too.
    pub fn sides(&self) -> Vec<&Tree<'a>> {
        match self {
            Tree::And(left, right) | Tree::Or(left, right) => {
                [self.taken_apart(left), self.taken_apart(right)].concat()
            }
            Tree::Fulfilled | Tree::Waits(_) => vec![self],
        }
    }

    fn taken_apart<'t>(&self, side: &'t Tree<'a>) -> Vec<&'t Tree<'a>> {
        match (self, side) {
            (Tree::And(..), Tree::And(..)) | (Tree::Or(..), Tree::Or(..)) => side.sides(),
            _ => vec![side],
        }
    }
}

fn of_residue<'a>(residue: &Residue, units: &mut Units<'a>) -> Result<Tree<'a>, String> {
    match residue {
        Residue::Waiting(waiting) => {
            let unit = units.remove(&waiting.unit).ok_or_else(|| format!("unit {} has no clause", waiting.unit))?;
            let Unit { wait, sight, known } = unit;
            let pending = Pending::new(wait, sight, known, waiting.activated);
            pending.map(Tree::Waits).ok_or_else(|| format!("the window of unit {} is no number", waiting.unit))
        }
        Residue::And(left, right) => {
            Ok(Tree::And(Box::new(of_residue(left, units)?), Box::new(of_residue(right, units)?)))
        }
        Residue::Or(left, right) => {
            Ok(Tree::Or(Box::new(of_residue(left, units)?), Box::new(of_residue(right, units)?)))
        }
    }
}

fn number(known: &Known, expression: &Expression) -> Option<i64> {
    match known.expression(expression) {
        Expression::Number(number) => Some(i64::from(number)),
        _ => None,
    }
}

fn literal(value_type: Type, cell: i32) -> Option<Expression> {
    match value_type {
        Type::Number => Some(Expression::Number(cell)),
        Type::Truth => Some(Expression::Truth(cell != 0)),
        Type::Party => usize::try_from(cell).ok().map(Expression::Party),
    }
}
