//! Which duties stand behind a breach.

use super::activate::activate;
use super::{Pending, Tree};
use crate::model::{Agreement, Late};
use givuntha::Breach;
use std::cmp::Ordering;

/// A breach worked out from what waits: its time and the obligations that are broken at it.
struct Found<'a> {
    time: i64,
    broken: Vec<Pending<'a>>,
}

/// The obligations that explain a breach which the library told: those that, with time going on to
/// `until`, are broken at its time, by its parties, and decide. None where they do not come to just
/// that breach; then nothing is explained.
pub fn broken<'a>(agreement: &'a Agreement, tree: &Tree<'a>, until: i64, breach: &Breach) -> Option<Vec<Pending<'a>>> {
    let found = Search { agreement, until }.tree(tree)??;
    let parties = found.broken.iter().fold(0, |bits, pending| pending.party().map_or(bits, |party| bits | 1 << party));
    let is_it = u64::try_from(found.time) == Ok(breach.time) && parties == u32::from(breach.parties.bits());
    is_it.then_some(found.broken)
}

struct Search<'a> {
    agreement: &'a Agreement,
    until: i64,
}

impl<'a> Search<'a> {
    /// The breach of a tree, if it has one; none at all where a clause cannot be activated.
    fn tree(&self, tree: &Tree<'a>) -> Option<Option<Found<'a>>> {
        match tree {
            Tree::Fulfilled => Some(None),
            Tree::Waits(pending) => self.pending(pending),
            Tree::And(left, right) => Some(both(self.tree(left)?, self.tree(right)?)),
            Tree::Or(left, right) => Some(either(self.tree(left)?, self.tree(right)?)),
        }
    }

    /// "T > last: an obligation is breached at the later of A and last, by its blame. A choice
    /// activates its else at that time"
    fn pending(&self, pending: &Pending<'a>) -> Option<Option<Found<'a>>> {
        if self.until <= pending.last {
            return Some(None);
        }
        match &pending.wait.late {
            Late::Breach(_) => Some(Some(Found { time: pending.over(), broken: vec![pending.clone()] })),
            Late::Else(otherwise) => {
                let (sight, known) = (&pending.sight, &pending.known);
                self.tree(&activate(self.agreement, otherwise, sight, known, pending.over())?)
            }
        }
    }
}

/// "one breach decides; of two the earlier, at equal times both sets"
fn both<'a>(left: Option<Found<'a>>, right: Option<Found<'a>>) -> Option<Found<'a>> {
    match (left, right) {
        (None, side) | (side, None) => side,
        (Some(left), Some(right)) => Some(match left.time.cmp(&right.time) {
            Ordering::Less => left,
            Ordering::Equal => together(left, right),
            Ordering::Greater => right,
        }),
    }
}

/// "a breach leaves the other side; of two breaches the later"
fn either<'a>(left: Option<Found<'a>>, right: Option<Found<'a>>) -> Option<Found<'a>> {
    let (left, right) = (left?, right?);
    Some(match left.time.cmp(&right.time) {
        Ordering::Less => right,
        Ordering::Equal => together(left, right),
        Ordering::Greater => left,
    })
}

fn together<'a>(mut left: Found<'a>, right: Found<'a>) -> Found<'a> {
    left.broken.extend(right.broken);
    left
}
