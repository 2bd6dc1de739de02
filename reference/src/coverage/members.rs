//! The party sets that the rule for `or` judges, at check and in a table, and the cases by which they
//! are counted. Their members are gathered one by one here, so that no set is counted as the monitor
//! on trial counts it.

use crate::agreement::{self, Agreement, Clause, Late, Wait};
use crate::check::{accept, FIRST_PARAMETER};
use crate::entries;
use crate::generate::records::spans;
use crate::rules::{Outcome, Residue, Waiting};
use crate::table::{self, State, AND, CELLS, HEAD, OR, SORT, UNIT};
use crate::Refusal;
use std::collections::BTreeSet;

const AND_KIND: u8 = 20;
const OR_KIND: u16 = 21;

/// A set that the rule for `or` judges.
#[derive(Clone, Debug, PartialEq, Eq)]
pub enum Judged {
    /// By blame bytes; "a parameter counts as a member of its own".
    AtCheck(BTreeSet<u8>),
    InTable(Resolved),
}

/// The parties of a residue, and whether a parameter cell names one of them.
#[derive(Clone, Debug, Default, PartialEq, Eq)]
pub struct Resolved {
    pub parties: BTreeSet<i64>,
    pub by_parameter: bool,
}

impl Judged {
    /// "The two sides of an `or` together have at most one member".
    pub fn breaks_the_rule(&self) -> bool {
        match self {
            Judged::AtCheck(members) => members.len() > 1,
            Judged::InTable(resolved) => resolved.parties.len() > 1,
        }
    }

    pub fn case(&self) -> &'static str {
        match self {
            Judged::AtCheck(members) => {
                let parameters = members.iter().filter(|member| **member >= FIRST_PARAMETER).count();
                check_case((members.len() - parameters, parameters))
            }
            Judged::InTable(resolved) => table_case((resolved.parties.len(), resolved.by_parameter)),
        }
    }
}

pub fn cases() -> Vec<String> {
    let at_check = [(0, 0), (1, 0), (0, 1), (2, 0), (1, 1), (0, 2), (3, 0)].map(check_case);
    let in_table = [(0, false), (1, false), (1, true), (2, false), (2, true), (3, false)].map(table_case);
    at_check.into_iter().chain(in_table).map(str::to_string).collect()
}

fn check_case(parties_and_parameters: (usize, usize)) -> &'static str {
    match parties_and_parameters {
        (0, 0) => "check: none",
        (1, 0) => "check: one party",
        (0, 1) => "check: one parameter",
        (2, 0) => "check: two parties",
        (1, 1) => "check: a party and a parameter",
        (0, 2) => "check: two parameters",
        _ => "check: three or more",
    }
}

/// A choice with fulfilled as its `then` and its else has no party, so a set in a table may be empty.
fn table_case(parties_and_by_parameter: (usize, bool)) -> &'static str {
    match parties_and_by_parameter {
        (0, _) => "table: none",
        (1, false) => "table: one party",
        (1, true) => "table: one party, by parameter",
        (2, false) => "table: two parties",
        (2, true) => "table: two parties, by parameter",
        _ => "table: three or more",
    }
}

/// The sets of an agreement that is typed but for the rule for `or`; None if anything else is wrong before or at 3.
pub fn at_check(bytes: &[u8]) -> Option<Vec<Judged>> {
    let agreement = agreement::parse(bytes).ok()?;
    if entries::check(&with_and_for_or(bytes)).number == Refusal::Typing.number() {
        return None;
    }
    let mut walk = Walk { agreement: &agreement, judged: Vec::new() };
    for template in &agreement.templates {
        walk.clause(&template.body);
    }
    walk.clause(&agreement.main);
    Some(walk.judged)
}

/// An `and` has the parties of an `or` and nothing is asked of them.
fn with_and_for_or(bytes: &[u8]) -> Vec<u8> {
    let mut changed = bytes.to_vec();
    for span in spans(bytes).into_iter().filter(|span| span.kind == OR_KIND) {
        changed[span.start + 2] = AND_KIND;
    }
    changed
}

/// Gathers the members of clauses, and those of every `or` on the way.
struct Walk<'a> {
    agreement: &'a Agreement,
    judged: Vec<Judged>,
}

impl Walk<'_> {
    fn clause(&mut self, clause: &Clause) -> BTreeSet<u8> {
        match clause {
            Clause::Fulfilled => BTreeSet::new(),
            Clause::Wait(wait) => self.wait(wait),
            Clause::If(_, left, right) | Clause::And(left, right) => self.together(left, right),
            Clause::Or(left, right) => {
                let members = self.together(left, right);
                self.judged.push(Judged::AtCheck(members.clone()));
                members
            }
            // "of an instance, the template's declared parties and the instance's blames"
            Clause::Instance(instance) => {
                let declared = self.agreement.templates[instance.template].head.declared;
                let declared = (0..16).filter(|party| declared & 1 << party != 0);
                declared.chain(instance.blames.iter().copied()).collect()
            }
        }
    }

    /// "of other clauses, those of their clause parts together"
    fn together(&mut self, left: &Clause, right: &Clause) -> BTreeSet<u8> {
        let mut members = self.clause(left);
        members.extend(self.clause(right));
        members
    }

    /// "The parties of an obligation are its blame and those of `then`".
    fn wait(&mut self, wait: &Wait) -> BTreeSet<u8> {
        match &wait.late {
            Late::Breach(blame) => {
                let mut members = self.clause(&wait.then);
                members.insert(*blame);
                members
            }
            Late::Else(otherwise) => self.together(&wait.then, otherwise),
        }
    }
}

/// The sets of a running table that is well typed but for the rule for `or`; None if anything else is wrong.
pub fn in_table(bytes: &[u8], table: &[i64]) -> Option<Vec<Judged>> {
    if table.len() != CELLS || sorts(table).all(|sort| sort != OR) {
        return None;
    }
    let agreement = agreement::parse(bytes).ok()?;
    let accepted = accept(&agreement).ok()?;
    let mut joined_by_and = table.to_vec();
    for unit in joined_by_and[HEAD..].chunks_exact_mut(UNIT).filter(|unit| unit[SORT] == OR) {
        unit[SORT] = AND;
    }
    let Ok(State { outcome: Outcome::Running(residue), .. }) = table::read(&accepted, &joined_by_and) else {
        return None;
    };
    let mut judged = Vec::new();
    resolve(&agreement, &residue, &mut sorts(table), &mut judged);
    Some(judged)
}

/// The sorts of all units, in their order.
fn sorts(table: &[i64]) -> impl Iterator<Item = i64> + '_ {
    table[HEAD..].chunks_exact(UNIT).map(|unit| unit[SORT])
}

/// The parties of a residue whose units have these sorts, and those at every `or` unit on the way.
fn resolve(
    agreement: &Agreement,
    residue: &Residue,
    sorts: &mut impl Iterator<Item = i64>,
    judged: &mut Vec<Judged>,
) -> Resolved {
    let sort = sorts.next();
    match residue {
        Residue::Waiting(waiting) => waiting_parties(agreement, waiting),
        Residue::And(left, right) | Residue::Or(left, right) => {
            let mut resolved = resolve(agreement, left, sorts, judged);
            let other = resolve(agreement, right, sorts, judged);
            resolved.parties.extend(other.parties);
            resolved.by_parameter |= other.by_parameter;
            if sort == Some(OR) {
                judged.push(Judged::InTable(resolved.clone()));
            }
            resolved
        }
    }
}

fn waiting_parties(agreement: &Agreement, waiting: &Waiting) -> Resolved {
    let members = Walk { agreement, judged: Vec::new() }.wait(waiting.wait);
    Resolved {
        parties: members.iter().map(|member| waiting.scope.party(*member)).collect(),
        by_parameter: members.iter().any(|member| *member >= FIRST_PARAMETER),
    }
}
