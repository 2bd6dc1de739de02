//! Evaluation and the rules, on trees, by the paper's section "Following a reading".

use crate::agreement::{Agreement, Clause, Expression, Instance, Late, Operator, Type, Wait};
use crate::check::SIGHT;
use crate::reading::Reading;
use std::cmp::Ordering;

/// What there is to say of a clause under way.
#[derive(Clone, Debug)]
pub enum Outcome<'a> {
    Fulfilled,
    Breached(Breach),
    Running(Residue<'a>),
}

/// A breach: when, and the blamed parties by bit.
#[derive(Clone, Copy, Debug, PartialEq, Eq)]
pub struct Breach {
    pub time: i64,
    pub parties: u32,
}

/// "a residue of waiting clauses (place, A, parameters, values in sight) joined by `and` and `or`"
#[derive(Clone, Debug)]
pub enum Residue<'a> {
    Waiting(Waiting<'a>),
    And(Box<Residue<'a>>, Box<Residue<'a>>),
    Or(Box<Residue<'a>>, Box<Residue<'a>>),
}

/// An obligation or choice that waits since its activation at A.
#[derive(Clone, Debug)]
pub struct Waiting<'a> {
    pub wait: &'a Wait,
    pub activated: i64,
    pub scope: Scope,
}

/// The party parameters and the values in sight; a truth is 0 or 1, a party its number.
#[derive(Clone, Copy, Debug, Default)]
pub struct Scope {
    pub parameters: [i64; 4],
    pub values: [i64; SIGHT],
    pub count: usize,
}

impl Scope {
    /// The same with further values bound after those in sight.
    pub fn with(mut self, bound: &[i64]) -> Scope {
        let end = self.count + bound.len();
        self.values[self.count..end].copy_from_slice(bound);
        self.count = end;
        self
    }

    /// The party that a blame byte stands for.
    pub fn party(&self, blame: u8) -> i64 {
        match blame.checked_sub(128) {
            Some(parameter) => self.parameters[usize::from(parameter)],
            None => i64::from(blame),
        }
    }
}

impl Outcome<'_> {
    /// Paper 02, No. 8: "the table was running ..., and at least one waiting unit" finds the reading
    /// early. What is decided has no units.
    pub fn finds_early(&self, reading: &Reading) -> bool {
        match self {
            Outcome::Fulfilled | Outcome::Breached(_) => false,
            Outcome::Running(residue) => residue.finds_early(reading),
        }
    }
}

impl Residue<'_> {
    /// "joined by `and` and `or`, a unit each"
    pub fn units(&self) -> usize {
        match self {
            Residue::Waiting(_) => 1,
            Residue::And(left, right) | Residue::Or(left, right) => 1 + left.units() + right.units(),
        }
    }

    /// "at least one waiting unit": on whichever side of a join, and whatever the join makes of that
    /// side. A unit is a unit of the table: what an else would activate is none yet.
    pub fn finds_early(&self, reading: &Reading) -> bool {
        match self {
            Residue::Waiting(waiting) => waiting.finds_early(reading),
            Residue::And(left, right) | Residue::Or(left, right) => {
                left.finds_early(reading) || right.finds_early(reading)
            }
        }
    }
}

/// The minutes from first to last. Last may be before first.
#[derive(Clone, Copy, Debug, PartialEq, Eq)]
pub struct Window {
    pub first: i64,
    pub last: i64,
}

/// How a reading's time lies to a window. Paper 02, No. 8: "the window test must tell early from
/// late".
#[derive(Clone, Copy, Debug, PartialEq, Eq)]
pub enum Timing {
    /// Before first, and not after last.
    Early,
    /// In the window.
    Open,
    /// After last, and not before first.
    Late,
    /// After last and before first: of a window whose last is before its first.
    EarlyAndLate,
}

impl Window {
    /// The window test; "both ends included".
    pub fn timing(self, time: i64) -> Timing {
        match (time < self.first, time > self.last) {
            (true, false) => Timing::Early,
            (false, false) => Timing::Open,
            (false, true) => Timing::Late,
            (true, true) => Timing::EarlyAndLate,
        }
    }
}

impl Waiting<'_> {
    /// "its window being first = A + after, last = first + within, both ends included, never held
    /// at a limit"
    pub fn window(&self) -> Window {
        let first = self.activated + evaluate(&self.wait.after, &self.scope);
        Window { first, last: first + evaluate(&self.wait.within, &self.scope) }
    }

    /// The time of a breach or of an else: "the later of A and last".
    pub fn late_time(&self, last: i64) -> i64 {
        self.activated.max(last)
    }

    /// "`where` sees the reading's values too".
    fn seen(&self, reading: &Reading) -> Scope {
        self.scope.with(&reading.values)
    }

    /// "The reading type is the wanted one ... and where is true", whatever the time.
    fn wants(&self, reading: &Reading) -> bool {
        reading.kind == self.wait.reading && is_true(&self.wait.condition, &self.seen(reading))
    }

    /// Paper 02, No. 8: a waiting unit that "wants this type, finds `where` true, and has a first
    /// later than the reading". Nothing is asked of last: late or not, its first is later.
    pub fn finds_early(&self, reading: &Reading) -> bool {
        match self.window().timing(reading.time) {
            Timing::Early | Timing::EarlyAndLate => self.wants(reading),
            Timing::Open | Timing::Late => false,
        }
    }
}

/// The value of a typed expression.
pub fn evaluate(expression: &Expression, scope: &Scope) -> i64 {
    match expression {
        Expression::Number(number) => i64::from(*number),
        Expression::Truth(truth) => i64::from(*truth),
        Expression::Party(party) => i64::from(*party),
        Expression::Value(name) => scope.values[usize::from(*name)],
        Expression::Not(operand) => 1 - evaluate(operand, scope),
        Expression::Binary(operator, left, right) => apply(*operator, evaluate(left, scope), evaluate(right, scope)),
    }
}

fn apply(operator: Operator, left: i64, right: i64) -> i64 {
    match operator {
        Operator::Plus => held(left + right),
        Operator::Minus => held(left - right),
        Operator::Times => held(left * right),
        Operator::Quotient => quotient(left, right),
        Operator::And => left & right,
        Operator::Less => i64::from(left < right),
        Operator::Equal => i64::from(left == right),
    }
}

/// Paper 02, No. 5: "shares of brine round downwards, for shortfalls as well. From the new season
/// −7 ÷ 2 is −4, and 7 ÷ −2 is −4. A quotient by 0 remains 0." It never lies beyond an end.
fn quotient(left: i64, right: i64) -> i64 {
    if right == 0 {
        return 0;
    }
    let towards_zero = left / right;
    let fraction = left % right != 0;
    let below_zero = (left < 0) != (right < 0);
    // Below zero, "downwards" is away from zero.
    if fraction && below_zero {
        towards_zero - 1
    } else {
        towards_zero
    }
}

/// "a sum, difference or product beyond an end is held at that end"
fn held(number: i64) -> i64 {
    number.clamp(-Type::LIMIT, Type::LIMIT)
}

fn is_true(condition: &Expression, scope: &Scope) -> bool {
    evaluate(condition, scope) == 1
}

/// Activates a clause at a time. The outcome is never a breach.
///
/// Paper 02, No. 9: "one for each clause activated, in the sense of 01's activating". Each call
/// activates one clause, of whatever kind, and counts it. An obligation or choice waits: its
/// `then` and its else are not activated with it. An if activates the side that it picks. A join
/// activates both of its sides, whatever becomes of them: "Sides that are later dropped count."
pub fn activate<'a>(
    agreement: &'a Agreement,
    clause: &'a Clause,
    time: i64,
    scope: &Scope,
    count: &mut u64,
) -> Outcome<'a> {
    *count += 1;
    match clause {
        Clause::Fulfilled => Outcome::Fulfilled,
        // "an obligation or choice waits"
        Clause::Wait(wait) => Outcome::Running(Residue::Waiting(Waiting { wait, activated: time, scope: *scope })),
        // "An if picks its side."
        Clause::If(condition, left, right) => {
            let side = if is_true(condition, scope) { left } else { right };
            activate(agreement, side, time, scope, count)
        }
        // "Fulfilled beside `and` vanishes; fulfilled on either side of `or` fulfils it."
        Clause::And(left, right) => {
            let left = activate(agreement, left, time, scope, count);
            let right = activate(agreement, right, time, scope, count);
            and(left, right)
        }
        Clause::Or(left, right) => {
            let left = activate(agreement, left, time, scope, count);
            let right = activate(agreement, right, time, scope, count);
            or(left, right)
        }
        // "Activating an instance activates the template's body with the values given."
        Clause::Instance(instance) => {
            let body = &agreement.templates[instance.template].body;
            activate(agreement, body, time, &arguments(instance, scope), count)
        }
    }
}

/// What a template's body sees.
pub fn arguments(instance: &Instance, scope: &Scope) -> Scope {
    let mut inner = Scope { count: instance.values.len(), ..Scope::default() };
    for (cell, value) in inner.values.iter_mut().zip(&instance.values) {
        *cell = evaluate(value, scope);
    }
    for (cell, blame) in inner.parameters.iter_mut().zip(&instance.blames) {
        *cell = scope.party(*blame);
    }
    inner
}

/// "A reading at time T reaches every waiting unit, and both sides of an `and` may use the same
/// one." Counts the clauses that are activated, on every side, and nothing else: that a unit is read
/// or follows is not counted here.
pub fn follow<'a>(agreement: &'a Agreement, residue: Residue<'a>, reading: &Reading, count: &mut u64) -> Outcome<'a> {
    match residue {
        Residue::Waiting(waiting) => follow_waiting(agreement, waiting, reading, count),
        Residue::And(left, right) => {
            let left = follow(agreement, *left, reading, count);
            let right = follow(agreement, *right, reading, count);
            and(left, right)
        }
        Residue::Or(left, right) => {
            let left = follow(agreement, *left, reading, count);
            let right = follow(agreement, *right, reading, count);
            or(left, right)
        }
    }
}

/// "For each unit, in this order: ..."
fn follow_waiting<'a>(
    agreement: &'a Agreement,
    waiting: Waiting<'a>,
    reading: &Reading,
    count: &mut u64,
) -> Outcome<'a> {
    let window = waiting.window();
    match window.timing(reading.time) {
        // "T > last" is the first to be asked, be the time before first or not.
        Timing::Late | Timing::EarlyAndLate => late(agreement, &waiting, window.last, reading, count),
        // "`then` is activated at T, remaining time last − T. It does not see this reading again."
        Timing::Open if waiting.wants(reading) => {
            let scope = waiting.seen(reading).with(&[window.last - reading.time]);
            activate(agreement, &waiting.wait.then, reading.time, &scope, count)
        }
        // "Otherwise it waits on."
        Timing::Early | Timing::Open => Outcome::Running(Residue::Waiting(waiting)),
    }
}

/// "T > last: an obligation is breached at the later of A and last, by its blame. A choice
/// activates its else at that time, and the else follows this same reading."
///
/// The else is activated as a whole first, and each of its clauses counts. What of it waits then
/// follows. Paper 02, No. 9: "an else that follows the same reading is not counted again for that".
fn late<'a>(
    agreement: &'a Agreement,
    waiting: &Waiting<'a>,
    last: i64,
    reading: &Reading,
    count: &mut u64,
) -> Outcome<'a> {
    let time = waiting.late_time(last);
    match &waiting.wait.late {
        Late::Breach(blame) => Outcome::Breached(breach(time, *blame, &waiting.scope)),
        Late::Else(otherwise) => match activate(agreement, otherwise, time, &waiting.scope, count) {
            Outcome::Running(residue) => follow(agreement, residue, reading, count),
            decided => decided,
        },
    }
}

fn breach(time: i64, blame: u8, scope: &Scope) -> Breach {
    Breach { time, parties: 1 << scope.party(blame) }
}

/// "`and`: one breach decides; of two the earlier, at equal times both sets." "Fulfilled beside
/// `and` vanishes".
pub fn and<'a>(left: Outcome<'a>, right: Outcome<'a>) -> Outcome<'a> {
    use Outcome::{Breached, Fulfilled, Running};
    match (left, right) {
        (Breached(left), Breached(right)) => Breached(earlier(left, right)),
        (Breached(breach), _) | (_, Breached(breach)) => Breached(breach),
        (Fulfilled, other) | (other, Fulfilled) => other,
        (Running(left), Running(right)) => Running(Residue::And(Box::new(left), Box::new(right))),
    }
}

/// "`or`: fulfilled beats all; a breach leaves the other side; of two breaches the later."
pub fn or<'a>(left: Outcome<'a>, right: Outcome<'a>) -> Outcome<'a> {
    use Outcome::{Breached, Fulfilled, Running};
    match (left, right) {
        (Fulfilled, _) | (_, Fulfilled) => Fulfilled,
        (Breached(left), Breached(right)) => Breached(later(left, right)),
        (Breached(_), other) | (other, Breached(_)) => other,
        (Running(left), Running(right)) => Running(Residue::Or(Box::new(left), Box::new(right))),
    }
}

/// Of two breaches the earlier, at equal times both sets.
pub fn earlier(left: Breach, right: Breach) -> Breach {
    match left.time.cmp(&right.time) {
        Ordering::Less => left,
        Ordering::Greater => right,
        Ordering::Equal => Breach { time: left.time, parties: left.parties | right.parties },
    }
}

/// Of two breaches the later. At equal times they are the same: the two sides of an `or` have one
/// party together.
pub fn later(left: Breach, right: Breach) -> Breach {
    if left.time < right.time {
        right
    } else {
        left
    }
}

/// The breach that comes if no reading but marks comes any more. "A breached table gives its
/// verdict."
pub(crate) fn forecast<'a>(agreement: &'a Agreement, outcome: &Outcome<'a>) -> Option<Breach> {
    match outcome {
        Outcome::Fulfilled => None,
        Outcome::Breached(breach) => Some(*breach),
        Outcome::Running(residue) => forecast_residue(agreement, residue),
    }
}

pub(crate) fn forecast_residue<'a>(agreement: &'a Agreement, residue: &Residue<'a>) -> Option<Breach> {
    match residue {
        Residue::Waiting(waiting) => forecast_waiting(agreement, waiting),
        // "`and` treats none as later than every time"
        Residue::And(left, right) => match (forecast_residue(agreement, left), forecast_residue(agreement, right)) {
            (Some(left), Some(right)) => Some(earlier(left, right)),
            (left, right) => left.or(right),
        },
        // "`or` with a none is none"
        Residue::Or(left, right) => {
            let left = forecast_residue(agreement, left)?;
            let right = forecast_residue(agreement, right)?;
            Some(later(left, right))
        }
    }
}

/// "an obligation gives its breach at the later of A and last; a choice gives what its else,
/// activated at that time, gives". A forecast costs nothing: what it activates is not counted.
fn forecast_waiting<'a>(agreement: &'a Agreement, waiting: &Waiting<'a>) -> Option<Breach> {
    let time = waiting.late_time(waiting.window().last);
    match &waiting.wait.late {
        Late::Breach(blame) => Some(breach(time, *blame, &waiting.scope)),
        Late::Else(otherwise) => forecast(agreement, &activate(agreement, otherwise, time, &waiting.scope, &mut 0)),
    }
}
