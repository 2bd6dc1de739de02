//! Counts what calls for agreements with templates of kind 4 reach, and finds faults: numbers that the needs of
//! [`crate::size`] forbid, and what paper 02, No. 7 wants shown, asked of each call: "no residue reached from a sized
//! agreement's start passes the main clause's need, so 11 never occurs from there".

use crate::misread;
use crate::plans::{Damage, Mixture, Plan};
use crate::size::{Parts, Size, MOST};
use crate::sized::Made;
use reference::generate::{Aim, Answer, Call, Entry};
use reference::table::{self, MOVED, USED};
use std::collections::BTreeMap;
use std::fmt;

const CHECKED: &str = "agreement checked";
const NUMBERS: &str = "templates of kind 4: entry and number";
const PLANS: &str = "templates of kind 4, refused by what was done to them";
const MAIN_NEED: &str = "sized, all bodies fit: need of the main clause";
const FAILS: &str = "15: what does not fit";
const OTHERWISE: &str = "15: the number, were sizes not judged";
const DECLARED: &str = "sized, accepted: units that a template declares";
const MISREAD: &str = "sized: check's number would be another, if";
const WITHIN: &str = "from a sized agreement's start: units in use beside the main clause's need";
const AT_NEED: &str = "from a sized agreement's start: just as many units in use as its need";
const UNREACHED: &str = "sized agreement, table that no run left";

/// The least share of sized agreements among all accepted ones with templates.
const LEAST_SHARE: f64 = 0.25;

/// What checks came upon.
const NO_TEMPLATE: &str = "accepted, without templates";
const OF_KIND_THREE: &str = "accepted, templates of kind 3";
const SIZED: &str = "accepted, sized";
const TOO_SMALL: &str = "sized, 15";
const REFUSED: &str = "refused with 1 to 5";

/// How often each thing was reached that should be, and the faults found.
pub struct Counts {
    groups: Vec<(&'static str, BTreeMap<String, u64>)>,
    pub faults: Vec<String>,
}

impl Default for Counts {
    fn default() -> Counts {
        let zeros = |names: Vec<String>| names.into_iter().map(|name| (name, 0)).collect();
        Counts {
            groups: groups().into_iter().map(|(title, names)| (title, zeros(names))).collect(),
            faults: Vec::new(),
        }
    }
}

impl Counts {
    /// What was never reached, and a share that is too small.
    pub fn missing(&self) -> Vec<String> {
        let all = self.groups.iter().flat_map(|(title, counts)| counts.iter().map(move |count| (title, count)));
        let never = all.filter(|(_, (_, count))| **count == 0).map(|(title, (name, _))| format!("{title}: {name}"));
        let few = (self.share() < LEAST_SHARE).then(|| "sized agreements in the share that they must have".to_string());
        never.chain(few).collect()
    }

    /// The part of all accepted agreements with templates that are sized.
    fn share(&self) -> f64 {
        let checked = self.group(CHECKED);
        checked[SIZED] as f64 / (checked[SIZED] + checked[OF_KIND_THREE]).max(1) as f64
    }

    fn group(&self, group: &str) -> &BTreeMap<String, u64> {
        &self.groups.iter().find(|(title, _)| *title == group).expect("a group").1
    }

    fn count(&mut self, group: &str, name: impl Into<String>) {
        let (_, counts) = self.groups.iter_mut().find(|(title, _)| *title == group).expect("a group");
        *counts.entry(name.into()).or_insert(0) += 1;
    }

    fn fault(&mut self, condition: bool, text: &str, call: &Call) {
        if condition {
            self.faults.push(format!("{text}: {call:?}"));
        }
    }

    /// Counts one call with its answer, and what it was made for, if here.
    pub fn observe(&mut self, call: &Call, answer: &Answer, made: Option<&Made>) {
        let number = answer.number();
        self.fault(number == 15 && !is_refusal(call, answer), "15 with more than its number", call);
        // "it comes after 5 and before 6": to an agreement with any other number none of 1 to 5 applies.
        let size = if (1..=5).contains(&number) { None } else { Size::of(&call.agreement) };
        let fits = size.as_ref().is_none_or(Size::fits);
        self.fault(number == 15 && fits, "15, though it fits or is not sized", call);
        self.fault(!(1..=5).contains(&number) && number != 15 && !fits, "not 15, though it does not fit", call);
        self.observe_made(call, number, made);
        if matches!(call.entry, Entry::Check) {
            self.observe_checked(call, number, size.as_ref());
        } else if let Some(size) = size.filter(|_| number != 15) {
            self.observe_run(call, answer, &size);
        }
    }

    fn observe_made(&mut self, call: &Call, number: u32, made: Option<&Made>) {
        let Some(made) = made else { return };
        let entry = entry_name(&call.entry);
        self.count(NUMBERS, entry_number(entry, number));
        let other = made.plan.number().is_some_and(|expected| expected != number);
        self.fault(other, "not refused as it must be by what was done to it", call);
        if matches!(call.entry, Entry::Check) {
            let refused = (1..=5).contains(&number).then_some(made.plan);
            refused.and_then(|plan| plan_name(plan, made.fits)).into_iter().for_each(|name| self.count(PLANS, name));
        }
        if let Some(otherwise) = made.otherwise.filter(|_| number == 15) {
            self.count(OTHERWISE, entry_number(entry, otherwise));
        }
    }

    /// A check: how the sizes of its agreement decide.
    fn observe_checked(&mut self, call: &Call, number: u32, size: Option<&Size>) {
        let templates = call.agreement.get(10).copied();
        self.count(
            CHECKED,
            match (number, size) {
                (15, _) => TOO_SMALL,
                (0, Some(_)) => SIZED,
                (0, None) if templates == Some(0) => NO_TEMPLATE,
                (0, None) => OF_KIND_THREE,
                _ => REFUSED,
            },
        );
        let Some(size) = size else { return };
        if size.bodies_fit() {
            self.count(MAIN_NEED, main_need_name(size.main));
        }
        if number == 15 {
            self.count(FAILS, fails_name(size));
        } else {
            for (units, need) in size.units.iter().zip(&size.bodies) {
                self.count(DECLARED, declared_name(*units, *need));
            }
        }
        misread::otherwise(&Parts::of(&call.agreement), size).into_iter().for_each(|words| self.count(MISREAD, words));
    }

    /// A start, a reading or a preview of a sized agreement that is accepted.
    fn observe_run(&mut self, call: &Call, answer: &Answer, size: &Size) {
        let entry = entry_name(&call.entry);
        let (Answer::Start { number, table: left, .. }
        | Answer::Reading { number, table: left, .. }
        | Answer::Preview { number, second: left, .. }) = answer
        else {
            return;
        };
        let from_start = call.aim == Aim::Run || matches!(call.entry, Entry::Start { .. });
        if !from_start {
            if *number == 11 {
                self.count(UNREACHED, format!("{entry}: 11"));
            } else if *number == 0 && left[USED] > size.main as i64 {
                self.count(UNREACHED, format!("{entry}: {MORE}"));
            }
            return;
        }
        self.fault(*number == 11, "11, from a sized agreement's start", call);
        if *number != 0 {
            return;
        }
        let used = left[USED] as usize;
        self.fault(used > size.main, "more units in use than the main clause needs", call);
        self.count(WITHIN, within_name(entry, used, size.main));
        if used == size.main {
            self.count(AT_NEED, at_need_name(entry, used));
            let altered = matches!(&call.entry, Entry::Reading { table, .. } if table::altered(table, left));
            if altered && left[MOVED] > i64::from(start_time(&call.agreement)) {
                self.count(AT_NEED, ALTERED);
            }
        }
    }
}

impl fmt::Display for Counts {
    fn fmt(&self, f: &mut fmt::Formatter) -> fmt::Result {
        for (title, counts) in &self.groups {
            writeln!(f, "{title}:")?;
            for (name, count) in counts {
                writeln!(f, "  {name:76} {count:8}")?;
            }
        }
        writeln!(f, "{:.0} % of the accepted agreements with templates are sized", 100.0 * self.share())?;
        let asked: u64 = self.group(WITHIN).values().sum();
        writeln!(f, "{asked} starts, readings and previews from a sized agreement's start were judged by its need")
    }
}

/// Everything that should be reached, by group.
fn groups() -> Vec<(&'static str, Vec<String>)> {
    vec![
        (CHECKED, [NO_TEMPLATE, OF_KIND_THREE, SIZED, TOO_SMALL, REFUSED].map(str::to_string).to_vec()),
        (NUMBERS, numbers()),
        (PLANS, plans()),
        (MAIN_NEED, (0..=300).map(main_need_name).collect()),
        (FAILS, FAILINGS.map(str::to_string).to_vec()),
        (OTHERWISE, otherwise()),
        (DECLARED, declared()),
        (MISREAD, misread::all()),
        (WITHIN, within()),
        (AT_NEED, at_need()),
        (UNREACHED, unreached()),
    ]
}

const ENTRIES: [&str; 4] = ["check", "start", "reading", "preview"];

fn entry_name(entry: &Entry) -> &'static str {
    match entry {
        Entry::Check => ENTRIES[0],
        Entry::Start { .. } => ENTRIES[1],
        Entry::Reading { .. } => ENTRIES[2],
        Entry::Preview { .. } => ENTRIES[3],
    }
}

fn entry_number(entry: &str, number: u32) -> String {
    format!("{entry} {number:2}")
}

/// A sized agreement's start is never refused with 11; a table that no run left may be.
fn numbers() -> Vec<String> {
    let of =
        |entry: usize, numbers: Vec<u32>| numbers.into_iter().map(move |number| entry_number(ENTRIES[entry], number));
    let check = of(0, (0..=5).chain([15]).collect());
    let start = of(1, (0..=6).chain([15]).collect());
    let others = [2, 3].into_iter().flat_map(|entry| of(entry, (0..=11).chain([15]).collect()));
    check.chain(start).chain(others).collect()
}

/// 15 comes before each of these.
fn otherwise() -> Vec<String> {
    let of =
        |entry: usize, numbers: &'static [u32]| numbers.iter().map(move |number| entry_number(ENTRIES[entry], *number));
    of(1, &[0, 6, 11]).chain(of(2, &[0, 6, 7, 8, 9, 10])).chain(of(3, &[0, 6, 7, 8, 9, 10])).collect()
}

/// Where the plan is to be refused.
fn plan_name(plan: Plan, fits: Option<bool>) -> Option<String> {
    let sizes = if fits == Some(true) { "sizes that fit" } else { "sizes that do not" };
    match plan {
        Plan::Over(units) => Some(format!("units {units}")),
        Plan::Mixed(mixture) => Some(format!("kind 3: {mixture:?}")),
        Plan::Damaged(damage) => Some(format!("damage: {damage:?}")),
        Plan::Lower(number) => Some(format!("a fault of {number}, {sizes}")),
        _ => None,
    }
}

fn plans() -> Vec<String> {
    let over = [MOST + 1, 255].map(Plan::Over).into_iter();
    let plans = over.chain(Mixture::ALL.map(Plan::Mixed)).chain(Damage::ALL.map(Plan::Damaged));
    let lower = (1..=5).flat_map(|number| [true, false].map(|fits| plan_name(Plan::Lower(number), Some(fits))));
    plans.map(|plan| plan_name(plan, None)).chain(lower).flatten().collect()
}

fn main_need_name(need: usize) -> String {
    match need {
        3..=63 => "  3 to 63".to_string(),
        64..=126 => " 64 to 126".to_string(),
        130..=255 => "130 to 255".to_string(),
        256.. => "256 or more".to_string(),
        _ => format!("{need:3}"),
    }
}

const FAILINGS: [&str; 7] = [
    "the only template's body",
    "the first of several bodies",
    "the last of several bodies",
    "a body between others",
    "several bodies",
    "the main clause",
    "the main clause and a body",
];

fn fails_name(size: &Size) -> &'static str {
    let last = size.units.len() - 1;
    let failing: Vec<usize> = (0..=last).filter(|template| !size.body_fits(*template)).collect();
    let case = match (&failing[..], size.main_fits()) {
        ([], _) => 5,
        (_, false) => 6,
        ([_, _, ..], _) => 4,
        ([0], _) if last == 0 => 0,
        ([0], _) => 1,
        ([n], _) if *n == last => 2,
        _ => 3,
    };
    FAILINGS[case]
}

fn declared_name(units: usize, need: usize) -> String {
    let how = if units == need { "just what its body needs" } else { "more than that" };
    let many = if (2..127).contains(&units) { "2 to 126".to_string() } else { units.to_string() };
    format!("{many}: {how}")
}

fn declared() -> Vec<String> {
    let more = [1, 2, 127, 128].iter().flat_map(|units| [*units, 0].map(|need| declared_name(*units, need)));
    more.chain([declared_name(0, 0)]).collect()
}

fn within_name(entry: &str, used: usize, need: usize) -> String {
    let how = match used {
        0 => "none in use",
        _ if used < need => "fewer",
        _ => "just as many",
    };
    format!("{entry}: {how}")
}

fn within() -> Vec<String> {
    ENTRIES[1..].iter().flat_map(|entry| [0, 1, 2].map(|used| within_name(entry, used, 2))).collect()
}

const ALTERED: &str = "reading: something altered after the start";

/// A residue of n waiting units has n - 1 joins, so that the units in use are an odd number.
fn at_need_name(entry: &str, used: usize) -> String {
    let many = match used {
        0 | 1 | 127 => format!("{used:3}"),
        3..=31 => "  3 to 31".to_string(),
        _ => " 33 to 125".to_string(),
    };
    format!("{entry}: {many}")
}

fn at_need() -> Vec<String> {
    let sizes = [0, 1, 3, 33, 127];
    let of_entries = ENTRIES[1..].iter().flat_map(|entry| sizes.map(|used| at_need_name(entry, used)));
    of_entries.chain([ALTERED.to_string()]).collect()
}

const MORE: &str = "more units in use than the main clause needs";

fn unreached() -> Vec<String> {
    ENTRIES[2..].iter().flat_map(|entry| [format!("{entry}: 11"), format!("{entry}: {MORE}")]).collect()
}

/// Nothing but the number, and nothing touched.
fn is_refusal(call: &Call, answer: &Answer) -> bool {
    match (&call.entry, answer) {
        (_, Answer::Check(checked)) => checked.parties == 0,
        (Entry::Start { table: lent }, Answer::Start { forecast, table, .. }) => forecast.is_none() && lent == table,
        (Entry::Reading { table: lent, .. }, Answer::Reading { early, cost, forecast, table: left, .. })
        | (Entry::Preview { second: lent, .. }, Answer::Preview { early, cost, forecast, second: left, .. }) => {
            (*early, *cost) == (0, 0) && forecast.is_none() && lent == left
        }
        _ => false,
    }
}

fn start_time(agreement: &[u8]) -> u32 {
    u32::from_le_bytes([agreement[4], agreement[5], agreement[6], agreement[7]])
}
