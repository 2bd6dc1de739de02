//! What a reading did to the clauses that waited.

use super::activate::activate;
use super::{Pending, Tree};
use crate::model::{Agreement, Late};
use crate::readings::Reading;

/// What became of a clause.
#[derive(Clone)]
pub enum Change<'a> {
    /// The reading met it: an obligation is kept, a choice taken.
    Met(Pending<'a>),
    /// A choice whose time was over; its else goes on.
    Lapsed(Pending<'a>),
    /// An obligation whose time was over.
    Missed(Pending<'a>),
    /// It waits no more, though nothing came of it: the other side of an `or` is fulfilled.
    Dropped(Pending<'a>),
    /// It waits from now on.
    Begun(Pending<'a>),
}

/// What a reading did, from what waited before and what waits after it by the library's tables: nothing where all is as
/// it was.
pub fn changes<'a>(
    agreement: &'a Agreement,
    before: &Tree<'a>,
    after: &Tree<'a>,
    reading: &Reading,
) -> Vec<Change<'a>> {
    let mut changes = Vec::new();
    if before.is(after) {
        return changes;
    }
    let mut begun: Vec<&Pending> = after.all();
    for pending in before.all() {
        // One that the reading ended may begin anew in the same minute, in its place or in another.
        let waits_on = fate(pending, reading).is_none();
        match begun.iter().position(|other| waits_on && other.is(pending)) {
            Some(kept) => {
                begun.remove(kept);
            }
            None => ended(agreement, pending, reading, &mut changes),
        }
    }
    changes.extend(begun.into_iter().cloned().map(Change::Begun));
    changes
}

/// Why a clause waits no more.
fn ended<'a>(agreement: &'a Agreement, pending: &Pending<'a>, reading: &Reading, changes: &mut Vec<Change<'a>>) {
    match fate(pending, reading) {
        Some(change @ Change::Lapsed(_)) => {
            changes.push(change);
            follow_else(agreement, pending, reading, changes);
        }
        Some(change) => changes.push(change),
        None => changes.push(Change::Dropped(pending.clone())),
    }
}

/// "A choice activates its else at that time, and the else follows this same reading."
fn follow_else<'a>(agreement: &'a Agreement, pending: &Pending<'a>, reading: &Reading, changes: &mut Vec<Change<'a>>) {
    let Late::Else(otherwise) = &pending.wait.late else { return };
    let Some(tree) = activate(agreement, otherwise, &pending.sight, &pending.known, pending.over()) else { return };
    for pending in tree.all() {
        if fate(pending, reading).is_some() {
            ended(agreement, pending, reading, changes);
        }
    }
}

/// What the rules say of a single clause; none where it waits on.
fn fate<'a>(pending: &Pending<'a>, reading: &Reading) -> Option<Change<'a>> {
    if i64::from(reading.time) > pending.last {
        return Some(match pending.wait.late {
            Late::Breach(_) => Change::Missed(pending.clone()),
            Late::Else(_) => Change::Lapsed(pending.clone()),
        });
    }
    pending.is_met_by(reading).then(|| Change::Met(pending.clone()))
}
