//! Names into numbers, with every limit of the record judged where the text passes it.
//!
//! Types, guards, widths and the rule for `or` are left to [`check`](crate::check).

mod clauses;
mod declarations;
mod expressions;
mod meter;
mod scope;

use crate::fault::{Fault, Place};
use crate::limits;
use crate::model::{Agreement, Clause, Head, Reading, Template};
use crate::syntax;
use meter::{Meter, Room};
use scope::Scope;

/// What a tree stands for.
pub struct Resolved {
    /// None where some fault has no refusal, or is refusal 1: there is no record then. With a fault of a refusal
    /// it is an agreement that the monitor refuses.
    pub agreement: Option<Agreement>,
    /// In the order of the text.
    pub faults: Vec<Fault>,
    /// Whether the tree is no deeper and no longer than records may be, and has no more templates.
    pub bounded: bool,
}

/// Finds what every name stands for.
pub fn resolve(tree: &syntax::Agreement) -> Resolved {
    let mut resolver = Resolver::new(tree);
    let scope = Scope::empty(&tree.parties);
    let heads = resolver.heads.clone();
    let bodies: Vec<Option<Clause>> = heads
        .iter()
        .zip(&tree.templates)
        .map(|(head, template)| resolver.clause(&template.body, &scope.of_template(head), 3))
        .collect();
    let main = resolver.clause(&tree.main, &scope, 2);
    let templates: Option<Vec<Template>> =
        heads.into_iter().zip(bodies).map(|(head, body)| Some(Template { head, body: body? })).collect();
    let Resolver { readings, meter, mut faults, .. } = resolver;
    let writable = faults.iter().all(|fault| fault.refusal.is_some());
    let parties = tree.parties.iter().map(|party| party.text.clone()).collect();
    let agreement = templates.zip(main).filter(|_| writable).map(|(templates, main)| Agreement {
        start: tree.start,
        parties,
        readings,
        templates,
        main,
    });
    in_order(&mut faults);
    let bounded = !meter.deep && !meter.is_full() && tree.templates.len() <= limits::TEMPLATES;
    Resolved { agreement, faults, bounded }
}

/// In the order of the text, each once: sugar may write an operand twice.
pub fn in_order(faults: &mut Vec<Fault>) {
    faults.sort_by_key(|fault| (fault.at, fault.refusal));
    faults.dedup();
}

/// What clauses refer to, what they cost, and what is wrong so far.
struct Resolver {
    readings: Vec<Reading>,
    heads: Vec<Head>,
    meter: Meter,
    faults: Vec<Fault>,
}

impl Resolver {
    /// Notes a fault, if there is one.
    fn noted<T>(&mut self, result: Result<T, Fault>) -> Option<T> {
        result.map_err(|fault| self.faults.push(fault)).ok()
    }

    /// Counts a record, and notes the limit that it passes.
    fn room(&mut self, at: Place, depth: usize, fields: usize) -> Room {
        let room = self.meter.record(at, depth, fields);
        if let Room::Deep(Some(fault)) | Room::Full(Some(fault)) = &room {
            self.faults.push(fault.clone());
        }
        room
    }
}
