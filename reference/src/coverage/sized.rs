//! Agreements whose size is known beforehand (paper 02, No. 7): the kinds of their templates, the declared units, the
//! needs beside their limits, and the units in use in their runs. Needs are worked out here from the records' bytes,
//! apart from the monitor on trial.

use crate::agreement::{self, MOST_UNITS};
use crate::generate::records::word;
use crate::generate::sized::{least_units, Template, Templates, WITH_UNITS};
use crate::generate::{Aim, Answer, Call, Entry};
use crate::table::{CELLS, USED};
use crate::{entries, Refusal};
use std::iter;

/// An agreement that would be right in length and records if its templates were of kind 3.
pub struct Sizes<'t> {
    templates: Templates<'t>,
    /// The units of its templates of kind 4.
    units: Vec<u8>,
    /// What check answers to the same with templates of kind 3.
    number_without_units: u32,
}

impl<'t> Sizes<'t> {
    /// None if anything else is wrong with its length or records.
    pub fn of(bytes: &'t [u8]) -> Option<Sizes<'t>> {
        if agreement::parse(bytes).is_err_and(|refusal| refusal == Refusal::Length) {
            return None;
        }
        let templates = Templates::of(bytes)?;
        let without_units: Vec<_> = templates.records.iter().map(Template::without_units).collect();
        let number_without_units = entries::check(&templates.exchanged(&without_units)).number;
        let units = templates.records.iter().filter_map(Template::units).collect();
        (!(1..=2).contains(&number_without_units)).then_some(Sizes { templates, units, number_without_units })
    }

    fn count(&self) -> usize {
        self.templates.records.len()
    }

    /// "Mixing kinds 3 and 4 ... is refusal 2."
    fn is_mixed(&self) -> bool {
        !self.units.is_empty() && self.units.len() < self.count()
    }

    /// "An agreement whose templates are all of kind 4, and which has at least one, is sized."
    pub fn is_sized(&self) -> bool {
        !self.units.is_empty() && self.units.len() == self.count()
    }

    fn most_declared(&self) -> u8 {
        self.units.iter().copied().max().unwrap_or(0)
    }

    /// The number that refuses the agreement, or 0.
    pub fn number(&self) -> u32 {
        if self.is_mixed() || self.most_declared() > MOST_UNITS {
            Refusal::Records.number()
        } else if self.number_without_units != 0 {
            // "it comes after 5"
            self.number_without_units
        } else if self.needs_too_much() {
            Refusal::Need.number()
        } else {
            0
        }
    }

    /// "in a sized agreement a body's need is above its declared units or the main clause's above 128"
    fn needs_too_much(&self) -> bool {
        self.is_sized() && (self.a_body_needs_too_much() || self.main_need() > u32::from(MOST_UNITS))
    }

    fn a_body_needs_too_much(&self) -> bool {
        self.bodies().any(|(body, units)| self.need(body) > u32::from(units))
    }

    /// The bodies of a sized agreement's templates, with their declared units.
    fn bodies(&self) -> impl Iterator<Item = (&'t [u8], u8)> + '_ {
        self.templates.records.iter().map(Template::body).zip(self.units.iter().copied())
    }

    pub fn main_need(&self) -> u32 {
        self.need(self.templates.after)
    }

    /// "The need of fulfilled is 0. For an obligation it is the larger of 1 and the need of `then`. For a choice it is
    /// the largest of 1 and the needs of its two clauses. For an if it is the larger of both. For `and` and `or` it is
    /// 1 and both together. An instance needs its template's units."
    fn need(&self, clause: &[u8]) -> u32 {
        let needs = self.needs_of_parts(clause);
        let largest = needs.iter().copied().max().unwrap_or(0);
        match word(clause, 2) {
            17 | 18 => largest.max(1),
            20 | 21 => 1 + needs.iter().sum::<u32>(),
            22 => u32::from(self.units[usize::from(clause[4])]),
            _ => largest,
        }
    }

    fn needs_of_parts(&self, clause: &[u8]) -> Vec<u32> {
        parts(clause).map(|part| self.need(part)).collect()
    }

    /// What cannot be right of an answer's number: 2 or 15 by kinds, units and needs, and not without.
    pub fn fault(&self, number: u32) -> Option<&'static str> {
        let of_size = [Refusal::Records.number(), Refusal::Need.number()];
        let judged = of_size.contains(&number) || of_size.contains(&self.number());
        (judged && number != self.number()).then_some("another number than by kinds, units and needs")
    }

    /// By the kinds of its templates, what is too big, and the number.
    pub fn case(&self) -> String {
        let what = match (self.is_sized(), self.is_mixed()) {
            (_, true) if self.templates.records[0].kind() == WITH_UNITS => "mixed, kind 4 first",
            (_, true) => "mixed, kind 3 first",
            (true, _) if self.most_declared() == MOST_UNITS + 1 => "units of 129",
            (true, _) if self.most_declared() > MOST_UNITS => "units of 130 or more",
            (true, _) => self.sized_case(),
            _ if self.count() > 0 => "kind 3",
            _ => "no template",
        };
        case_name(what, self.number())
    }

    fn sized_case(&self) -> &'static str {
        if self.a_body_needs_too_much() {
            "kind 4, a body's need too big"
        } else if self.needs_too_much() {
            "kind 4, the main clause's need too big"
        } else {
            "kind 4"
        }
    }

    /// An agreement that is not sized is accepted, though no units would do.
    pub fn of_any_size(&self, bytes: &[u8]) -> Option<&'static str> {
        if self.is_sized() || self.number() != 0 {
            return None;
        }
        let agreement = agreement::parse(bytes).ok()?;
        let kind = if self.count() > 0 { ANY_SIZE_OF_KIND_3 } else { ANY_SIZE_WITHOUT_TEMPLATE };
        least_units(&agreement).is_none().then_some(kind)
    }

    /// The clauses whose needs are at their limits or one above, by what decides them.
    pub fn at_limits(&self) -> Vec<String> {
        if !self.is_sized() || self.most_declared() > MOST_UNITS || self.number_without_units != 0 {
            return Vec::new();
        }
        let bodies = self.bodies().filter_map(|(body, units)| self.at_limit(BODY, body, units));
        bodies.chain(self.at_limit(MAIN, self.templates.after, MOST_UNITS)).collect()
    }

    fn at_limit(&self, which: &str, clause: &[u8], limit: u8) -> Option<String> {
        let limit = u32::from(limit);
        match self.need(clause) {
            need if need == limit => Some(limit_name(which, self.decided_by(clause), AT)),
            need if need == limit + 1 => Some(limit_name(which, self.decided_by(clause), ABOVE)),
            _ => None,
        }
    }

    fn decided_by(&self, clause: &[u8]) -> &'static str {
        match (word(clause, 2), &self.needs_of_parts(clause)[..]) {
            (17, [0]) => "17 by the 1",
            (17, _) => "17 by its then",
            (18, [0, 0]) => "18 by the 1",
            (18, [then, otherwise]) if then < otherwise => "18 by its else",
            (18, _) => "18 by its then",
            (19, [left, right]) if left < right => "19 by its right side",
            (19, [left, right]) if left > right => "19 by its left side",
            (19, _) => "19 by either side",
            (20, _) => "20",
            (21, _) => "21",
            (22, _) => "22",
            _ => "16",
        }
    }
}

/// The clauses that are parts of a clause: "17 obligation: blame, reading type, where, after, within, then. 18 choice:
/// the same without blame, and an else after then. 19 if: truth expression, two clauses. 20 and, 21 or: two clauses."
fn parts(clause: &[u8]) -> impl Iterator<Item = &[u8]> {
    let (bytes, expressions, clauses) = match word(clause, 2) {
        17 => (2, 3, 1),
        18 => (1, 3, 2),
        19 => (0, 1, 2),
        20 | 21 => (0, 0, 2),
        _ => (0, 0, 0),
    };
    let first = &clause[4 + bytes..];
    iter::successors(Some(first), |record| Some(after(record))).skip(expressions).take(clauses)
}

/// What stands after a record.
fn after(record: &[u8]) -> &[u8] {
    &record[usize::from(word(record, 0))..]
}

const BODY: &str = "body";
const MAIN: &str = "main clause";
const AT: &str = "at its limit";
const ABOVE: &str = "one above";
const ANY_SIZE_OF_KIND_3: &str = "kind 3: accepted, though no units would do";
const ANY_SIZE_WITHOUT_TEMPLATE: &str = "no template: accepted, though its need is above 128";

fn case_name(what: &str, number: u32) -> String {
    format!("{what}: {number}")
}

fn limit_name(which: &str, decided_by: &str, lies: &str) -> String {
    format!("{which}: {decided_by}, {lies}")
}

pub fn cases() -> Vec<String> {
    let before = [("no template", [0, 3, 5]), ("kind 3", [0, 3, 5]), ("kind 4", [0, 3, 5])];
    let before = before.into_iter().flat_map(|(kind, numbers)| numbers.map(|number| case_name(kind, number)));
    let guards = ["kind 3", "kind 4", "kind 4, a body's need too big"].map(|kind| case_name(kind, 4));
    let records = ["mixed, kind 3 first", "mixed, kind 4 first", "units of 129", "units of 130 or more"];
    let too_big = ["kind 4, a body's need too big", "kind 4, the main clause's need too big"];
    let too_big = too_big.into_iter().flat_map(|what| [3, 5, 15].map(|number| case_name(what, number)));
    let any_size = [ANY_SIZE_OF_KIND_3, ANY_SIZE_WITHOUT_TEMPLATE].map(str::to_string);
    before.chain(guards).chain(records.map(|what| case_name(what, 2))).chain(too_big).chain(any_size).collect()
}

/// A fulfilled body is never above its limit; the main clause's limit is not met by fulfilled or by a 1, nor passed by
/// an instance.
pub fn limits() -> Vec<String> {
    let decided_by_parts = [
        "17 by its then",
        "18 by its then",
        "18 by its else",
        "19 by its left side",
        "19 by its right side",
        "19 by either side",
        "20",
        "21",
    ];
    let by_parts = [BODY, MAIN].into_iter().flat_map(|which| decided_by_parts.map(|decided_by| (which, decided_by)));
    let both = by_parts.chain(["17 by the 1", "18 by the 1", "22"].map(|decided_by| (BODY, decided_by)));
    let both = both.flat_map(|(which, decided_by)| [AT, ABOVE].map(|lies| limit_name(which, decided_by, lies)));
    both.chain([limit_name(BODY, "16", AT), limit_name(MAIN, "22", AT)]).collect()
}

/// A call on a sized agreement that is accepted.
pub struct Followed<'t> {
    call: &'t Call,
    number: u32,
    /// The table that it leaves, of a preview the second.
    left: &'t [i64],
    need: u32,
}

impl<'t> Followed<'t> {
    pub fn of(call: &'t Call, answer: &'t Answer, sizes: &Sizes) -> Option<Followed<'t>> {
        let (number, left) = match answer {
            Answer::Check(_) => return None,
            Answer::Start { number, table, .. } | Answer::Reading { number, table, .. } => (*number, table),
            Answer::Preview { number, second, .. } => (*number, second),
        };
        let accepted = sizes.is_sized() && sizes.number() == 0;
        accepted.then(|| Followed { call, number, left, need: sizes.main_need() })
    }

    fn is_of_a_run(&self) -> bool {
        self.call.aim == Aim::Run
    }

    fn units_in_use(&self) -> i64 {
        if self.number == 0 {
            self.left[USED]
        } else {
            0
        }
    }

    /// "no residue reached from a sized agreement's start passes the main clause's need, so 11 never occurs from
    /// there"
    pub fn fault(&self) -> Option<&'static str> {
        if !self.is_of_a_run() {
            None
        } else if self.number == Refusal::Units.number() {
            Some("11 in a run of a sized agreement")
        } else if self.units_in_use() > i64::from(self.need) {
            Some("more units in use than the main clause needs")
        } else {
            None
        }
    }

    pub fn case(&self) -> Option<String> {
        let entry = entry_word(&self.call.entry);
        if self.number == Refusal::Units.number() {
            return Some(run_name(entry, NO_RUN));
        }
        let whole = self.units_in_use() == i64::from(self.need);
        let used = match self.need {
            0 => return None,
            _ if !self.is_of_a_run() || self.number != 0 => return None,
            // Joins and what waits are an odd number together: 128 units are never in use.
            127 if whole => "the whole need, 127",
            1 if whole => "the whole need, 1",
            _ if whole => "the whole need",
            _ => "less than the need",
        };
        Some(run_name(entry, used))
    }
}

const NO_RUN: &str = "11 on a table that no run left";

fn entry_word(entry: &Entry) -> &'static str {
    match entry {
        Entry::Start { .. } => "start",
        Entry::Preview { .. } => "preview",
        _ => "reading",
    }
}

fn run_name(entry: &str, what: &str) -> String {
    format!("{entry}: {what}")
}

pub fn runs() -> Vec<String> {
    let used = ["the whole need, 127", "the whole need", "the whole need, 1", "less than the need"];
    let in_runs = ["start", "reading", "preview"].into_iter().flat_map(|entry| used.map(|used| run_name(entry, used)));
    in_runs.chain(["reading", "preview"].map(|entry| run_name(entry, NO_RUN))).collect()
}

/// Where 15 is answered though a table has the wrong length: "it comes after 5 and before 6".
pub fn before_6(call: &Call, number: u32) -> Option<&'static str> {
    if number != Refusal::Need.number() {
        return None;
    }
    match &call.entry {
        Entry::Start { table } if table.len() != CELLS => Some("start"),
        Entry::Reading { table, .. } if table.len() != CELLS => Some("reading"),
        Entry::Preview { table, second, .. } => match (table.len() == CELLS, second.len() == CELLS) {
            (true, true) => None,
            (false, true) => Some("preview, its first table"),
            (true, false) => Some("preview, its second table"),
            (false, false) => Some("preview, both tables"),
        },
        _ => None,
    }
}

pub fn orders() -> Vec<String> {
    let names = ["start", "reading", "preview, its first table", "preview, its second table", "preview, both tables"];
    names.map(str::to_string).to_vec()
}
