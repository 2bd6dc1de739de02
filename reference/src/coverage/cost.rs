//! What a reading costs (paper 02, No. 9): how large it is, which clauses are activated and by what, and the corners
//! in which a careless monitor would count wrong. The clauses are counted here once more, apart from the monitor on
//! trial.

use super::deed;
use super::early;
use super::moved::Effect;
use crate::agreement::{Agreement, Clause, Late};
use crate::check::Accepted;
use crate::reading::Reading;
use crate::rules::{self, evaluate, Outcome, Residue, Scope, Waiting};
use crate::table::{self, State, BREACHED, FULFILLED, RUNNING, STATE, USED};
use crate::Refusal;
use std::collections::BTreeSet;

/// "It is at most 65,792 for each unit read".
const MOST_FOR_A_UNIT: u64 = 65_792;

/// An accepted reading or one refused with 11, and what was answered.
pub struct Costed<'t> {
    pub effect: &'t Effect<'t>,
    pub number: u32,
    pub early: u32,
    pub cost: u64,
    recount: Recount,
}

/// What was found when counting once more; nothing unless the table was running.
#[derive(Default)]
struct Recount {
    clauses: u64,
    activated: BTreeSet<Activated>,
    corners: BTreeSet<Corner>,
    /// Some side was dropped whose clauses count.
    dropped: bool,
}

/// The kind of a clause, and by what it was activated.
type Activated = (u16, &'static str);

/// What happened, and where or to which side.
type Corner = (&'static str, &'static str);

const KINDS: [u16; 7] = [16, 17, 18, 19, 20, 21, 22];
const THEN: &str = "by a then";
const ELSE: &str = "by an else";
const THEN_IN_ELSE: &str = "by a then in an else";
const ELSE_IN_ELSE: &str = "by an else in an else";

const LEFT: &str = "its left side";
const RIGHT: &str = "its right side";
const WOULD_GO_ON: &str = "an `or` settled in an else drops what would take the reading";
const DROPS: [&str; 9] = [
    "an `or` settled in a then drops",
    "an `or` settled in an else drops",
    "a fulfilled `or` of the table drops",
    "a fulfilled `or` of an else drops",
    "an `or` of the table drops, as breached",
    "an `or` of an else drops, as breached",
    "a breached `and` of the table drops",
    "a breached `and` of an else drops",
    WOULD_GO_ON,
];

const OF_ELSE: &str = "a wait of an else";
const OTHER_CORNERS: [Corner; 14] = [
    ("nothing activated", "one unit"),
    ("nothing activated", "several units"),
    ("activated", "by a time mark"),
    ("activated", "and no unit or state altered"),
    ("activated", "and marked early"),
    ("activated", "and fulfilled"),
    ("activated", "and breached"),
    ("an if whose other side would count", "more"),
    ("an if whose other side would count", "less"),
    ("an else is settled", "when activated"),
    ("an else in an else", "in an else"),
    ("refused with 11", THEN),
    ("refused with 11", ELSE),
    ("refused with 11", "a side dropped"),
];

pub fn cases() -> Vec<String> {
    let refused = [7, 8, 9, 10].map(early::refused);
    let decided = [FULFILLED, BREACHED].map(decided);
    let accepted = [1, 2, 10, 100, 1_000, 10_000, 65_536].map(|cost| size(0, cost));
    let too_many = [1, 1_000].map(|cost| size(Refusal::Units.number(), cost));
    let all = refused.into_iter().chain(decided).chain(accepted).chain(too_many);
    all.map(str::to_string).collect()
}

fn decided(state: i64) -> &'static str {
    if state == FULFILLED {
        "0: fulfilled before"
    } else {
        "0: breached before"
    }
}

fn size(number: u32, cost: u64) -> &'static str {
    match (number, cost) {
        (0, 0) => "0",
        (0, 1) => "1",
        (0, 2..=9) => "2 to 9",
        (0, 10..=99) => "10 to 99",
        (0, 100..=999) => "100 to 999",
        (0, 1_000..=9_999) => "1,000 to 9,999",
        (0, 10_000..=65_535) => "10,000 to 65,535",
        (0, _) => "65,536 or more",
        (_, 0..=999) => "refused with 11: below 1,000",
        _ => "refused with 11: 1,000 or more",
    }
}

pub fn activations() -> Vec<String> {
    let ways = [THEN, ELSE, THEN_IN_ELSE, ELSE_IN_ELSE];
    ways.iter().flat_map(|way| KINDS.map(|kind| activation_name((kind, way)))).collect()
}

pub fn activation_name((kind, way): Activated) -> String {
    format!("{kind} {way}")
}

pub fn corners() -> Vec<String> {
    let drops = DROPS.iter().flat_map(|drop| [(*drop, LEFT), (*drop, RIGHT)]);
    let of_else = super::DEEDS.map(|deed| (OF_ELSE, deed));
    drops.chain(of_else).chain(OTHER_CORNERS).map(corner_name).collect()
}

pub fn corner_name((what, which): Corner) -> String {
    format!("{what}: {which}")
}

impl<'t> Costed<'t> {
    pub fn new(accepted: &Accepted, effect: &'t Effect<'t>, number: u32, early: u32, cost: u64) -> Costed<'t> {
        let recount = match table::read(accepted, effect.before) {
            Ok(State { outcome: Outcome::Running(residue), .. }) => {
                let (agreement, reading) = (accepted.agreement, effect.reading);
                let mut walk = Walk { agreement, reading, found: Recount::default() };
                walk.residue(residue, 0);
                walk.found
            }
            _ => Recount::default(),
        };
        Costed { effect, number, early, cost, recount }
    }

    /// What cannot be right.
    pub fn fault(&self) -> Option<&'static str> {
        let units = self.effect.before[USED] as u64;
        if self.effect.before[STATE] != RUNNING {
            return (self.cost != 0).then_some("a cost on a table that was not running");
        }
        if self.cost < units {
            Some("a cost below the units in use")
        } else if self.cost > MOST_FOR_A_UNIT * units {
            Some("a cost above 65,792 for each unit read")
        } else if self.cost != units + self.recount.clauses {
            Some("a cost that is not the units in use and the clauses activated")
        } else {
            None
        }
    }

    pub fn case(&self) -> &'static str {
        match self.effect.before[STATE] {
            RUNNING => size(self.number, self.cost),
            state => decided(state),
        }
    }

    /// The kinds of the clauses activated, and by what.
    pub fn activated(&self) -> impl Iterator<Item = Activated> + '_ {
        self.recount.activated.iter().copied()
    }

    pub fn corners(&self) -> Vec<Corner> {
        let Effect { before, after, reading } = self.effect;
        if before[STATE] != RUNNING {
            return Vec::new();
        }
        let some = self.recount.clauses > 0;
        let by = |wanted: &str| self.recount.activated.iter().any(|(_, way)| *way == wanted);
        let (accepted, too_many) = (self.number == 0, self.number == Refusal::Units.number());
        let of_answer = [
            (!some && before[USED] == 1, ("nothing activated", "one unit")),
            (!some && before[USED] > 1, ("nothing activated", "several units")),
            (some && reading.kind == 0, ("activated", "by a time mark")),
            (some && accepted && self.effect.is_unaltered(), ("activated", "and no unit or state altered")),
            (some && self.early == 1, ("activated", "and marked early")),
            (some && after[STATE] == FULFILLED, ("activated", "and fulfilled")),
            (some && after[STATE] == BREACHED, ("activated", "and breached")),
            (too_many && by(THEN), ("refused with 11", THEN)),
            (too_many && by(ELSE), ("refused with 11", ELSE)),
            (too_many && self.recount.dropped, ("refused with 11", "a side dropped")),
        ];
        let of_answer = of_answer.into_iter().filter(|(reached, _)| *reached).map(|(_, corner)| corner);
        self.recount.corners.iter().copied().chain(of_answer).collect()
    }
}

/// Where a join stands.
#[derive(Clone, Copy)]
enum At {
    /// It is activated, in this way.
    Activation(&'static str),
    /// It follows the reading, through so many elses.
    Reading(usize),
}

/// Goes where the rules go, counts the clauses, and notes the corners.
struct Walk<'a, 'r> {
    agreement: &'a Agreement,
    reading: &'r Reading,
    found: Recount,
}

impl<'a> Walk<'a, '_> {
    fn note(&mut self, what: &'static str, which: &'static str) {
        self.found.corners.insert((what, which));
    }

    /// A residue follows the reading, of the table or of so many elses within each other.
    fn residue(&mut self, residue: Residue<'a>, elses: usize) -> Outcome<'a> {
        match residue {
            Residue::Waiting(waiting) => self.waiting(waiting, elses),
            Residue::And(left, right) => {
                self.join(false, At::Reading(elses), [left, right], &|walk, side| walk.residue(*side, elses))
            }
            Residue::Or(left, right) => {
                self.join(true, At::Reading(elses), [left, right], &|walk, side| walk.residue(*side, elses))
            }
        }
    }

    fn waiting(&mut self, waiting: Waiting<'a>, elses: usize) -> Outcome<'a> {
        let deed = deed(&waiting, self.reading);
        if elses > 0 {
            self.note(OF_ELSE, deed);
        }
        let last = waiting.window().last;
        match (deed, &waiting.wait.late) {
            ("else", Late::Else(otherwise)) => self.otherwise(&waiting, otherwise, last, elses + 1),
            ("then", _) => {
                let time = self.reading.time;
                let scope = waiting.scope.with(&self.reading.values).with(&[last - time]);
                let way = if elses == 0 { THEN } else { THEN_IN_ELSE };
                self.clause(&waiting.wait.then, time, &scope, way)
            }
            // A breach by anyone: the joins ask only whether there is one.
            ("breach", _) => Outcome::Breached(rules::Breach { time: waiting.late_time(last), parties: 0 }),
            _ => Outcome::Running(Residue::Waiting(waiting)),
        }
    }

    /// The else of a late choice, with which there are so many elses: it is activated, and what of it waits follows.
    fn otherwise(&mut self, waiting: &Waiting<'a>, otherwise: &'a Clause, last: i64, elses: usize) -> Outcome<'a> {
        let way = if elses == 1 { ELSE } else { ELSE_IN_ELSE };
        if elses > 2 {
            self.note("an else in an else", "in an else");
        }
        match self.clause(otherwise, waiting.late_time(last), &waiting.scope, way) {
            Outcome::Running(residue) => self.residue(residue, elses),
            settled => {
                self.note("an else is settled", "when activated");
                settled
            }
        }
    }

    /// A clause is activated.
    fn clause(&mut self, clause: &'a Clause, time: i64, scope: &Scope, way: &'static str) -> Outcome<'a> {
        self.found.clauses += 1;
        self.found.activated.insert((kind(clause), way));
        match clause {
            Clause::Fulfilled => Outcome::Fulfilled,
            Clause::Wait(wait) => Outcome::Running(Residue::Waiting(Waiting { wait, activated: time, scope: *scope })),
            Clause::If(condition, left, right) => {
                let picks_left = evaluate(condition, scope) == 1;
                let (side, other) = if picks_left { (left, right) } else { (right, left) };
                self.compare(side, other, time, scope);
                self.clause(side, time, scope, way)
            }
            Clause::And(left, right) => {
                let sides = [&**left, &**right];
                self.join(false, At::Activation(way), sides, &|walk, side| walk.clause(side, time, scope, way))
            }
            Clause::Or(left, right) => {
                let sides = [&**left, &**right];
                self.join(true, At::Activation(way), sides, &|walk, side| walk.clause(side, time, scope, way))
            }
            Clause::Instance(instance) => {
                let body = &self.agreement.templates[instance.template].body;
                self.clause(body, time, &rules::arguments(instance, scope), way)
            }
        }
    }

    /// Whether the other side of an if would count more or less than the one that it picks.
    fn compare(&mut self, side: &'a Clause, other: &'a Clause, time: i64, scope: &Scope) {
        let [mut of_side, mut of_other] = [0, 0];
        rules::activate(self.agreement, side, time, scope, &mut of_side);
        rules::activate(self.agreement, other, time, scope, &mut of_other);
        if of_other > of_side {
            self.note("an if whose other side would count", "more");
        } else if of_other < of_side {
            self.note("an if whose other side would count", "less");
        }
    }

    /// Both sides of a join, each taken by `take`; notes a side that counts and is dropped.
    fn join<T>(
        &mut self,
        or: bool,
        at: At,
        [left, right]: [T; 2],
        take: &dyn Fn(&mut Self, T) -> Outcome<'a>,
    ) -> Outcome<'a> {
        let begin = self.found.clauses;
        let left = take(self, left);
        let middle = self.found.clauses;
        let right = take(self, right);
        let (counts_left, counts_right) = (begin < middle, middle < self.found.clauses);
        match dropped(or, &left, &right) {
            Some((by, LEFT)) if counts_left => self.drops(or, at, by, &left, LEFT),
            Some((by, RIGHT)) if counts_right => self.drops(or, at, by, &right, RIGHT),
            _ => {}
        }
        if or {
            rules::or(left, right)
        } else {
            rules::and(left, right)
        }
    }

    fn drops(&mut self, or: bool, at: At, by: By, side: &Outcome<'a>, which: &'static str) {
        self.found.dropped = true;
        self.note(drop_name(or, at, by), which);
        let in_else = matches!(at, At::Activation(ELSE | ELSE_IN_ELSE));
        if let (true, Outcome::Running(residue)) = (in_else, side) {
            let mut more = 0;
            rules::follow(self.agreement, residue.clone(), self.reading, &mut more);
            if more > 0 {
                self.note(WOULD_GO_ON, which);
            }
        }
    }
}

/// By what a side is dropped.
#[derive(Clone, Copy)]
enum By {
    Fulfilment,
    Breach,
}

/// The side that a join drops, if it drops one alone.
fn dropped(or: bool, left: &Outcome, right: &Outcome) -> Option<(By, &'static str)> {
    use Outcome::{Breached, Fulfilled};
    match (or, left, right) {
        (true, Fulfilled, Fulfilled) | (_, Breached(_), Breached(_)) => None,
        (true, Fulfilled, _) => Some((By::Fulfilment, RIGHT)),
        (true, _, Fulfilled) => Some((By::Fulfilment, LEFT)),
        // "a breach leaves the other side"
        (true, Breached(_), _) => Some((By::Breach, LEFT)),
        (true, _, Breached(_)) => Some((By::Breach, RIGHT)),
        // "one breach decides"
        (false, Breached(_), _) => Some((By::Breach, RIGHT)),
        (false, _, Breached(_)) => Some((By::Breach, LEFT)),
        _ => None,
    }
}

fn drop_name(or: bool, at: At, by: By) -> &'static str {
    match (at, or, by) {
        (At::Activation(THEN | THEN_IN_ELSE), ..) => DROPS[0],
        (At::Activation(_), ..) => DROPS[1],
        (At::Reading(0), true, By::Fulfilment) => DROPS[2],
        (At::Reading(_), true, By::Fulfilment) => DROPS[3],
        (At::Reading(0), true, By::Breach) => DROPS[4],
        (At::Reading(_), true, By::Breach) => DROPS[5],
        (At::Reading(0), false, _) => DROPS[6],
        (At::Reading(_), false, _) => DROPS[7],
    }
}

fn kind(clause: &Clause) -> u16 {
    match clause {
        Clause::Fulfilled => 16,
        Clause::Wait(wait) => wait.kind(),
        Clause::If(..) => 19,
        Clause::And(..) => 20,
        Clause::Or(..) => 21,
        Clause::Instance(_) => 22,
    }
}
