//! Counts what generated calls reach, and finds faults: answers that cannot be right whatever the
//! rules say in detail.

pub mod cost;
pub mod early;
pub mod forecast;
pub mod members;
pub mod moved;
pub mod preview;
pub mod quotients;
pub mod sized;

use crate::agreement::{self, Agreement, Clause, Late};
use crate::check::{accept, Accepted};
use crate::generate::records::spans;
use crate::generate::{damage, readings::collect, tables, Aim, Answer, Call, Entry};
use crate::reading::{self, Reading};
use crate::rules::{self, evaluate, Outcome, Residue, Scope, Waiting, Window};
use crate::table::{self, State, BREACHED, FULFILLED, MOVED, STATE, USED};
use crate::{build, entries, Forecast, Refusal};
use cost::Costed;
use early::Marked;
use forecast::Told;
use members::Judged;
use moved::Effect;
use preview::Previewed;
use quotients::Quotient;
use sized::{Followed, Sizes};
use std::collections::BTreeMap;
use std::fmt;

const NUMBERS: &str = "entry and number";
const CLAUSES: &str = "clause kind in an accepted agreement";
const EXPRESSIONS: &str = "expression kind in an accepted agreement";
const ACTIVATED: &str = "join at activation";
const FOLLOWED: &str = "join at a reading";
const FORECAST: &str = "join in a forecast";
const UNITS: &str = "what a waiting unit does";
const QUOTIENTS: &str = "quotient worked out";
const MEMBERS: &str = "party set counted at an `or`";
const LAST_MOVED: &str = "cell 5 at a start or a reading";
const ALTERATIONS: &str = "altered by a reading, running still";
const REPLACED: &str = "replaced by equal units";
const CELL_5: &str = "where cell 5 lies, nothing else wrong";
const EARLY: &str = "what decides the mark 'early'";
const NEAR_EARLY: &str = "one condition of 'early' fails alone";
const EARLY_CORNERS: &str = "where 'early' is 1";
const COSTS: &str = "what a reading costs";
const COST_CLAUSES: &str = "clause activated by a reading";
const COST_CORNERS: &str = "corner of the cost";
const TOLD: &str = "forecast told";
const TOLD_BESIDE: &str = "forecast told, beside that of the table before";
const TOLD_IDLE: &str = "forecast told, nothing altered, running still";
const TOLD_CORNERS: &str = "corner of the forecast told";
const ZEROS: &str = "zeros told for a forecast";
const PREVIEWS: &str = "what a preview answers, and cell 5";
const PREVIEW_LENGTHS: &str = "lengths of a preview's tables, refused with 6";
const PREVIEW_ORDER: &str = "number of a preview, were its second not of wrong length";
const SECONDS: &str = "what a preview's second table holds before";
const PREVIEW_CORNERS: &str = "corner of a preview";
const SIZES: &str = "kinds of templates, what is too big, and the number";
const LIMITS: &str = "a need beside its limit";
const UNITS_USED: &str = "units in use in a run of a sized agreement";
const BEFORE_6: &str = "15, though a table's length is wrong";
const CAUSES: &str = "cause of 7";
const CHANGES: &str = "changed table, whatever the number";
const DAMAGES: &str = "damaged agreement refused";
const EXTREMES: &str = "extreme";

/// How often each thing was reached that should be, and the faults found.
pub struct Coverage {
    groups: Vec<(&'static str, BTreeMap<String, u64>)>,
    pub faults: Vec<String>,
}

impl Default for Coverage {
    fn default() -> Coverage {
        Coverage::new()
    }
}

impl Coverage {
    pub fn new() -> Coverage {
        let zeros = |names: Vec<String>| names.into_iter().map(|name| (name, 0)).collect();
        Coverage {
            groups: groups().into_iter().map(|(title, names)| (title, zeros(names))).collect(),
            faults: Vec::new(),
        }
    }

    /// What was never reached.
    pub fn missing(&self) -> Vec<String> {
        let all = self.groups.iter().flat_map(|(title, counts)| counts.iter().map(move |count| (title, count)));
        all.filter(|(_, (_, count))| **count == 0).map(|(title, (name, _))| format!("{title}: {name}")).collect()
    }

    fn count(&mut self, group: &str, name: String) {
        let (_, counts) = self.groups.iter_mut().find(|(title, _)| *title == group).expect("a group");
        *counts.entry(name).or_insert(0) += 1;
    }

    fn fault(&mut self, condition: bool, text: &str, call: &Call) {
        if condition {
            self.faults.push(format!("{text}: {call:?}"));
        }
    }

    /// Counts one call with its answer.
    pub fn observe(&mut self, call: &Call, answer: &Answer) {
        let number = answer.number();
        self.count(NUMBERS, format!("{} {number:2}", entry_name(&call.entry)));
        self.observe_aim(call, number);
        self.refused(call, answer);
        self.observe_refused_reading(call, answer);
        self.observe_preview(call, answer);
        self.observe_members(call, number);
        self.observe_cell_5(call, number);
        self.observe_size(call, answer);
        if !is_of_agreement_or_table(number) && !matches!(call.entry, Entry::Preview { .. }) {
            self.observe_followed(call, answer, number);
        }
    }

    /// A call whose agreement and table are not refused; a preview is not among them.
    fn observe_followed(&mut self, call: &Call, answer: &Answer, number: u32) {
        let agreement = agreement::parse(&call.agreement).expect("an accepted agreement");
        let accepted = accept(&agreement).expect("an accepted agreement");
        match (&call.entry, answer) {
            (Entry::Check, _) => self.observe_agreement(&call.agreement, &accepted),
            (Entry::Start { .. }, Answer::Start { forecast, table: after, .. }) => {
                self.observe_start(&agreement, number);
                self.observe_start_time(call, &agreement, number, after);
                if number == 0 {
                    let (effect, forecast) = (None, *forecast);
                    self.observe_forecast(call, &Told { accepted: &accepted, effect, left: after, forecast });
                }
                forecast::hidden_by_start(&agreement, number).into_iter().for_each(|hidden| self.count(ZEROS, hidden));
            }
            (Entry::Reading { table, reading: bytes }, Answer::Reading { early, cost, forecast, table: after, .. }) => {
                if number != 0 {
                    let hidden = forecast::hidden_by_reading(&accepted, table, bytes, number);
                    hidden.into_iter().for_each(|hidden| self.count(ZEROS, hidden));
                }
                if let Ok(reading) = reading::parse(bytes) {
                    self.observe_reading(&accepted, table, &reading, number);
                    let effect = &Effect { before: table, after, reading: &reading };
                    self.observe_moved(call, &accepted, effect, number);
                    if number == 0 {
                        let (effect, forecast) = (Some(effect), *forecast);
                        self.observe_forecast(call, &Told { accepted: &accepted, effect, left: after, forecast });
                    }
                    let bytes = &call.agreement;
                    self.observe_early(call, &Marked { bytes, accepted: &accepted, effect, number, early: *early });
                    if number == 0 || number == Refusal::Units.number() {
                        self.observe_cost(call, &Costed::new(&accepted, effect, number, *early, *cost));
                    }
                }
                self.observe_table(call, &accepted, after);
            }
            _ => unreachable!("an answer is of its entry"),
        }
    }

    fn observe_aim(&mut self, call: &Call, number: u32) {
        match call.aim {
            Aim::Run | Aim::Made => self.fault(is_of_agreement_or_table(number), "refused though undamaged", call),
            Aim::TableLength => self.fault(number != 6, "not refused with 6", call),
            Aim::Agreement(damage) if is_of_agreement(number) => self.count(DAMAGES, format!("{damage:?}")),
            Aim::Agreement(_) => {}
            Aim::Table(damage) if tables::Damage::CAUSES.contains(&damage) => {
                self.fault(number != 7, "not refused with 7", call);
                self.count(CAUSES, format!("{damage:?}"));
            }
            Aim::Table(damage) => self.count(CHANGES, format!("{damage:?}")),
        }
    }

    /// A refusal leaves the table untouched, and "gives zeros" for a forecast.
    fn refused(&mut self, call: &Call, answer: &Answer) {
        match (&call.entry, answer) {
            (Entry::Start { table: lent }, Answer::Start { number, forecast, table: after })
            | (Entry::Reading { table: lent, .. }, Answer::Reading { number, forecast, table: after, .. })
            | (Entry::Preview { second: lent, .. }, Answer::Preview { number, forecast, second: after, .. }) => {
                self.fault(*number != 0 && lent != after, "a refusal touched the table", call);
                self.fault(*number != 0 && forecast.is_some(), "a refusal with a forecast", call);
            }
            _ => {}
        }
    }

    /// A preview, whatever its number. "It answers as the reading itself would on a copy": what is impossible of that
    /// reading is a fault of the preview.
    fn observe_preview(&mut self, call: &Call, answer: &Answer) {
        let Some(previewed) = Previewed::of(call, answer) else { return };
        if let Some(fault) = previewed.fault() {
            return self.fault(true, fault, call);
        }
        previewed.lengths().into_iter().for_each(|lengths| self.count(PREVIEW_LENGTHS, lengths));
        previewed.otherwise().into_iter().for_each(|otherwise| self.count(PREVIEW_ORDER, otherwise));
        previewed.case().into_iter().for_each(|case| self.count(PREVIEWS, case));
        let contents = previewed.written_over().into_iter().chain(previewed.kept());
        contents.for_each(|contents| self.count(SECONDS, contents));
        previewed.corners().into_iter().for_each(|corner| self.count(PREVIEW_CORNERS, corner.to_string()));
        if let Some((call, answer)) = previewed.as_reading() {
            let mut of_reading = Coverage::new();
            of_reading.observe(&call, &answer);
            self.faults.extend(of_reading.faults);
        }
    }

    /// The sets that the rule for `or` judges, where nothing else is wrong: if one breaks it the
    /// number is 3 or 7, if none does it is another. Of a refused call those count that break it.
    fn observe_members(&mut self, call: &Call, number: u32) {
        let (judged, refusal) = match &call.entry {
            Entry::Check => (members::at_check(&call.agreement), Refusal::Typing),
            Entry::Start { .. } | Entry::Preview { .. } => return,
            Entry::Reading { table, .. } => (members::in_table(&call.agreement, table), Refusal::Table),
        };
        let Some(judged) = judged else { return };
        let refused = number == refusal.number();
        let broken = judged.iter().any(Judged::breaks_the_rule);
        self.fault(broken && !refused, "an `or` of two members, not refused", call);
        self.fault(refused && !broken, "refused, though no `or` has two members", call);
        for set in judged.iter().filter(|set| !refused || set.breaks_the_rule()) {
            self.count(MEMBERS, set.case().to_string());
        }
    }

    /// The kinds of templates, their units and needs; of a sized agreement the units in use too.
    fn observe_size(&mut self, call: &Call, answer: &Answer) {
        let number = answer.number();
        sized::before_6(call, number).into_iter().for_each(|entry| self.count(BEFORE_6, entry.to_string()));
        let Some(sizes) = Sizes::of(&call.agreement) else { return };
        if let Some(fault) = sizes.fault(number) {
            self.fault(true, fault, call);
        }
        if matches!(call.entry, Entry::Check) {
            self.count(SIZES, sizes.case());
            sizes.of_any_size(&call.agreement).into_iter().for_each(|case| self.count(SIZES, case.to_string()));
            sizes.at_limits().into_iter().for_each(|limit| self.count(LIMITS, limit));
        }
        let Some(followed) = Followed::of(call, answer, &sizes) else { return };
        if let Some(fault) = followed.fault() {
            self.fault(true, fault, call);
        }
        followed.case().into_iter().for_each(|case| self.count(UNITS_USED, case));
    }

    /// Where cell 5 lies, if nothing else is wrong: outside the number is 7, inside it is another.
    fn observe_cell_5(&mut self, call: &Call, number: u32) {
        let Entry::Reading { table, .. } = &call.entry else { return };
        let Some(lies) = moved::lies(&call.agreement, table) else { return };
        let refused = number == Refusal::Table.number();
        self.fault(refused == lies.is_inside(), "cell 5 inside and refused, or outside and not", call);
        self.count(CELL_5, moved::place_case(table[STATE], lies));
    }

    /// "It begins as the start time".
    fn observe_start_time(&mut self, call: &Call, agreement: &Agreement, number: u32, after: &[i64]) {
        if number == 0 {
            self.fault(after[MOVED] != i64::from(agreement.start), "cell 5 does not begin as the start time", call);
            self.count(LAST_MOVED, moved::start_case(after[STATE]));
        }
    }

    /// A refused reading is not early, and costs nothing but on 11.
    fn observe_refused_reading(&mut self, call: &Call, answer: &Answer) {
        let Answer::Reading { number, early, cost, .. } = answer else { return };
        if *number != 0 {
            self.fault(*early != 0, "a refusal marked early", call);
            self.count(EARLY, early::refused(*number).to_string());
        }
        if *number != 0 && *number != Refusal::Units.number() {
            self.fault(*cost != 0, "a cost on a refusal other than 11", call);
            self.count(COSTS, early::refused(*number).to_string());
        }
    }

    /// What a reading costs that is followed, be it accepted or refused with 11.
    fn observe_cost(&mut self, call: &Call, costed: &Costed) {
        if let Some(fault) = costed.fault() {
            self.fault(true, fault, call);
        }
        self.count(COSTS, costed.case().to_string());
        for activated in costed.activated() {
            self.count(COST_CLAUSES, cost::activation_name(activated));
        }
        for corner in costed.corners() {
            self.count(COST_CORNERS, cost::corner_name(corner));
        }
    }

    /// What decides the mark of a reading that is a record.
    fn observe_early(&mut self, call: &Call, marked: &Marked) {
        if marked.number == 0 {
            self.count(EARLY, marked.case().to_string());
            if let Some(fault) = marked.fault() {
                self.fault(true, fault, call);
            }
        }
        for near_miss in marked.near_misses() {
            self.count(NEAR_EARLY, near_miss.to_string());
        }
        for corner in marked.corners() {
            self.count(EARLY_CORNERS, corner.to_string());
        }
    }

    /// What a reading alters, and what becomes of cell 5.
    fn observe_moved(&mut self, call: &Call, accepted: &Accepted, effect: &Effect, number: u32) {
        if number == Refusal::Units.number() {
            self.count(LAST_MOVED, moved::TOO_MANY_UNITS.to_string());
        }
        if number != 0 {
            return;
        }
        if let Some(fault) = effect.fault() {
            self.fault(true, fault, call);
        }
        self.count(LAST_MOVED, effect.case());
        // Where cell 5 holds the reading's time already, it does not show whether something was altered.
        if effect.stays_running() && effect.before[MOVED] != effect.reading.time {
            self.count(ALTERATIONS, effect.alteration().to_string());
            if effect.is_unaltered() {
                self.observe_replaced(accepted, effect.before, effect.reading);
            }
        }
    }

    /// Units that do not wait on, in a table that is the same afterwards.
    fn observe_replaced(&mut self, accepted: &Accepted, table: &[i64], reading: &Reading) {
        let Ok(State { outcome: Outcome::Running(residue), .. }) = table::read(accepted, table) else { return };
        let mut units = Vec::new();
        collect(&residue, &mut units);
        for unit in units {
            let outcome = rules::follow(accepted.agreement, Residue::Waiting(unit.clone()), reading, &mut 0);
            match (deed(unit, reading), outcome) {
                ("then", Outcome::Fulfilled) => self.count(REPLACED, FULFILLED_BESIDE.to_string()),
                ("then", _) => self.count(REPLACED, BY_THEN.to_string()),
                ("else", _) => self.count(REPLACED, BY_ELSE.to_string()),
                _ => {}
            }
        }
    }

    fn observe_agreement(&mut self, bytes: &[u8], accepted: &Accepted) {
        let spans = spans(bytes);
        for span in &spans {
            if span.is_clause() {
                self.count(CLAUSES, span.kind.to_string());
            } else if span.is_expression() {
                self.count(EXPRESSIONS, span.kind.to_string());
            }
        }
        let agreement = accepted.agreement;
        self.extreme("24 deep", spans.iter().any(|span| span.depth == 24));
        self.extreme("11 or more in sight at a wait", accepted.sites.iter().any(|site| site.view.values().len() >= 11));
        self.extreme("16 in sight in a then", accepted.sites.iter().any(|site| sight_of_then(agreement, site) == 16));
        self.extreme("16 parties", agreement.parties == 16);
        self.extreme("16 reading types", agreement.readings.len() == 16);
        self.extreme("over 24 templates", agreement.templates.len() > 24);
        self.extreme("over 4,000 bytes", bytes.len() > 4_000);
    }

    fn extreme(&mut self, name: &str, reached: bool) {
        if reached {
            self.count(EXTREMES, name.to_string());
        }
    }

    fn observe_start(&mut self, agreement: &Agreement, number: u32) {
        self.activation(agreement, &agreement.main, &Scope::default());
        if number == 0 {
            self.observe_quotients(quotients::at_start(agreement));
        }
    }

    fn observe_quotients(&mut self, worked_out: Vec<Quotient>) {
        for quotient in worked_out {
            self.count(QUOTIENTS, quotients::case(quotient));
        }
    }

    /// The joins of a clause that is activated.
    fn activation(&mut self, agreement: &Agreement, clause: &Clause, scope: &Scope) {
        let name = match clause {
            Clause::Fulfilled | Clause::Wait(_) => return,
            Clause::If(condition, left, right) => {
                let side = if evaluate(condition, scope) == 1 { left } else { right };
                return self.activation(agreement, side, scope);
            }
            Clause::Instance(instance) => {
                let body = &agreement.templates[instance.template].body;
                return self.activation(agreement, body, &rules::arguments(instance, scope));
            }
            Clause::And(..) => "and",
            Clause::Or(..) => "or",
        };
        if let Clause::And(left, right) | Clause::Or(left, right) = clause {
            let word = |side| outcome_name(&rules::activate(agreement, side, 0, scope, &mut 0));
            self.count(ACTIVATED, format!("{name} {} {}", word(left), word(right)));
            self.activation(agreement, left, scope);
            self.activation(agreement, right, scope);
        }
    }

    /// What the units and joins of a table make of a reading.
    fn observe_reading(&mut self, accepted: &Accepted, table: &[i64], reading: &Reading, number: u32) {
        if number != 0 && number != 11 {
            return;
        }
        let Ok(State { outcome: Outcome::Running(residue), .. }) = table::read(accepted, table) else { return };
        let mut units = Vec::new();
        collect(&residue, &mut units);
        for unit in units {
            self.count(UNITS, deed(unit, reading).to_string());
        }
        self.followed_joins(accepted.agreement, &residue, reading);
        if number == 0 {
            self.observe_quotients(quotients::at_reading(accepted.agreement, &residue, reading));
        }
    }

    fn followed_joins(&mut self, agreement: &Agreement, residue: &Residue, reading: &Reading) {
        if let Residue::And(left, right) | Residue::Or(left, right) = residue {
            let word = |side: &Residue| outcome_name(&rules::follow(agreement, side.clone(), reading, &mut 0));
            self.count(FOLLOWED, format!("{} {} {}", join_name(residue), word(left), word(right)));
            self.followed_joins(agreement, left, reading);
            self.followed_joins(agreement, right, reading);
        }
    }

    /// The table that a reading left is well typed.
    fn observe_table(&mut self, call: &Call, accepted: &Accepted, after: &[i64]) {
        self.fault(table::read(accepted, after).is_err(), "an ill-typed table", call);
        self.extreme("over 120 units", after[USED] > 120);
        self.extreme("fulfilled table", after[STATE] == FULFILLED);
        self.extreme("breached table", after[STATE] == BREACHED);
        self.extreme("two parties blamed", after[table::BLAMED].count_ones() > 1);
    }

    /// The forecast that an accepted start or reading tells.
    fn observe_forecast(&mut self, call: &Call, told: &Told) {
        if let Some(fault) = told.fault() {
            self.fault(true, fault, call);
        }
        self.count(TOLD, told.case());
        told.beside_before().into_iter().for_each(|case| self.count(TOLD_BESIDE, case.to_string()));
        told.idle_case().into_iter().for_each(|case| self.count(TOLD_IDLE, case));
        told.corners().into_iter().for_each(|corner| self.count(TOLD_CORNERS, corner));
        let accepted = told.accepted;
        if let Ok(State { outcome: Outcome::Running(residue), .. }) = table::read(accepted, told.left) {
            self.forecast_joins(accepted.agreement, &residue);
        }
        self.observe_marks(call, told.left, told.forecast);
    }

    fn forecast_joins(&mut self, agreement: &Agreement, residue: &Residue) {
        if let Residue::And(left, right) | Residue::Or(left, right) = residue {
            let time = |side: &Residue| rules::forecast_residue(agreement, side).map(|breach| breach.time);
            let word = match (time(left), time(right)) {
                (None, None) => "none none",
                (None, Some(_)) => "none some",
                (Some(_), None) => "some none",
                (Some(left), Some(right)) if left < right => "earlier later",
                (Some(left), Some(right)) if left > right => "later earlier",
                _ => "equal times",
            };
            self.count(FORECAST, format!("{} {word}", join_name(residue)));
            self.forecast_joins(agreement, left);
            self.forecast_joins(agreement, right);
        }
    }

    /// "An accepted mark later than a forecast time gives just that breach; with forecast none, no
    /// mark breaches."
    fn observe_marks(&mut self, call: &Call, left: &[i64], forecast: Forecast) {
        let after = |time: u32| {
            let mut lent = left.to_vec();
            let mark = build::reading(time, 0, &[]);
            (entries::reading(&call.agreement, &mut lent, &mark).number == 0).then_some(lent)
        };
        let Some((time, parties)) = forecast else {
            let breached = after(u32::MAX).is_some_and(|left| left[STATE] == BREACHED);
            return self.fault(breached, "a breach though none was forecast", call);
        };
        let Ok(later) = u32::try_from((time + 1).max(left[table::LAST])) else { return };
        let Some(left) = after(later) else { return };
        let expected = [BREACHED, time, i64::from(parties)];
        self.fault([left[0], left[2], left[3]] != expected, "another breach than forecast", call);
    }
}

impl fmt::Display for Coverage {
    fn fmt(&self, f: &mut fmt::Formatter) -> fmt::Result {
        for (title, counts) in &self.groups {
            writeln!(f, "{title}:")?;
            for (name, count) in counts {
                writeln!(f, "  {name:76} {count:8}")?;
            }
        }
        Ok(())
    }
}

/// Everything that should be reached, by group.
fn groups() -> Vec<(&'static str, Vec<String>)> {
    vec![
        (NUMBERS, numbers()),
        (CLAUSES, (16..=22).map(|kind| kind.to_string()).collect()),
        (EXPRESSIONS, (32..=43).map(|kind| kind.to_string()).collect()),
        (ACTIVATED, joins(&["fulfilled", "running"])),
        (FOLLOWED, joins(&["fulfilled", "breached", "running"])),
        (FORECAST, forecast_joins()),
        (UNITS, DEEDS.map(str::to_string).to_vec()),
        (QUOTIENTS, quotients::cases()),
        (MEMBERS, members::cases()),
        (LAST_MOVED, moved::cases()),
        (ALTERATIONS, moved::alterations()),
        (REPLACED, REPLACEMENTS.map(str::to_string).to_vec()),
        (CELL_5, moved::places()),
        (EARLY, early::cases()),
        (NEAR_EARLY, early::near_misses()),
        (EARLY_CORNERS, early::corners()),
        (COSTS, cost::cases()),
        (COST_CLAUSES, cost::activations()),
        (COST_CORNERS, cost::corners()),
        (TOLD, forecast::cases()),
        (TOLD_BESIDE, forecast::beside_cases()),
        (TOLD_IDLE, forecast::idle_cases()),
        (TOLD_CORNERS, forecast::corners()),
        (ZEROS, forecast::zeros()),
        (PREVIEWS, preview::cases()),
        (PREVIEW_LENGTHS, preview::lengths()),
        (PREVIEW_ORDER, preview::otherwise()),
        (SECONDS, preview::contents()),
        (PREVIEW_CORNERS, preview::corners()),
        (SIZES, sized::cases()),
        (LIMITS, sized::limits()),
        (UNITS_USED, sized::runs()),
        (BEFORE_6, sized::orders()),
        (CAUSES, tables::Damage::CAUSES.iter().map(|cause| format!("{cause:?}")).collect()),
        (CHANGES, tables::Damage::CHANGES.iter().map(|change| format!("{change:?}")).collect()),
        (DAMAGES, damage::Damage::ALL.iter().map(|damage| format!("{damage:?}")).collect()),
        (EXTREMES, extremes()),
    ]
}

/// Whether an agreement is refused with this number. Paper 02, No. 7: 15 is made "in every entry that makes 5".
fn is_of_agreement(number: u32) -> bool {
    (1..=5).contains(&number) || number == Refusal::Need.number()
}

fn is_of_agreement_or_table(number: u32) -> bool {
    is_of_agreement(number) || (6..=7).contains(&number)
}

/// "Check uses 1 to 5, start 1 to 6 and 11, ..., a reading all." A preview answers as the reading, and each makes 15.
fn numbers() -> Vec<String> {
    let entry = |name, numbers: Vec<u32>| numbers.into_iter().map(move |number| format!("{name} {number:2}"));
    entry("check", (0..=5).chain([15]).collect())
        .chain(entry("start", (0..=6).chain([11, 15]).collect()))
        .chain(entry("reading", (0..=11).chain([15]).collect()))
        .chain(entry("preview", (0..=11).chain([15]).collect()))
        .collect()
}

fn joins(outcomes: &[&str]) -> Vec<String> {
    let sides = |name| outcomes.iter().flat_map(move |left| outcomes.iter().map(move |right| (name, left, right)));
    sides("and").chain(sides("or")).map(|(name, left, right)| format!("{name} {left} {right}")).collect()
}

fn forecast_joins() -> Vec<String> {
    let cases = ["none none", "none some", "some none", "earlier later", "later earlier", "equal times"];
    cases.iter().flat_map(|case| [format!("and {case}"), format!("or {case}")]).collect()
}

/// What a waiting unit may do with a reading.
const DEEDS: [&str; 6] =
    ["breach", "else", "then", "waits: other type", "waits: before first", "waits: where is false"];

const BY_THEN: &str = "by then";
const BY_ELSE: &str = "by else";
const FULFILLED_BESIDE: &str = "a unit fulfilled beside";
const REPLACEMENTS: [&str; 3] = [BY_THEN, BY_ELSE, FULFILLED_BESIDE];

fn extremes() -> Vec<String> {
    let names = [
        "24 deep",
        "11 or more in sight at a wait",
        "16 in sight in a then",
        "16 parties",
        "16 reading types",
        "over 24 templates",
        "over 4,000 bytes",
        "over 120 units",
        "fulfilled table",
        "breached table",
        "two parties blamed",
    ];
    names.map(str::to_string).to_vec()
}

fn entry_name(entry: &Entry) -> &'static str {
    match entry {
        Entry::Check => "check",
        Entry::Start { .. } => "start",
        Entry::Reading { .. } => "reading",
        Entry::Preview { .. } => "preview",
    }
}

fn outcome_name(outcome: &Outcome) -> &'static str {
    match outcome {
        Outcome::Fulfilled => "fulfilled",
        Outcome::Breached(_) => "breached",
        Outcome::Running(_) => "running",
    }
}

fn join_name(residue: &Residue) -> &'static str {
    if matches!(residue, Residue::Or(..)) {
        "or"
    } else {
        "and"
    }
}

fn sight_of_then(agreement: &Agreement, site: &crate::check::Site) -> usize {
    let reading = &agreement.readings[usize::from(site.wait.reading) - 1];
    site.view.values().len() + reading.len() + 1
}

/// What a waiting unit does with a reading.
fn deed(unit: &Waiting, reading: &Reading) -> &'static str {
    let Window { first, last } = unit.window();
    if reading.time > last {
        return if matches!(unit.wait.late, Late::Breach(_)) { "breach" } else { "else" };
    }
    if reading.kind != unit.wait.reading {
        return "waits: other type";
    }
    if reading.time < first {
        return "waits: before first";
    }
    match evaluate(&unit.wait.condition, &unit.scope.with(&reading.values)) {
        1 => "then",
        _ => "waits: where is false",
    }
}
