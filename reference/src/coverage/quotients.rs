//! The quotients that a start and a reading work out, in the order of the rules, and the cases by
//! which they are counted.

use crate::agreement::{Agreement, Clause, Expression, Late, Operator};
use crate::reading::Reading;
use crate::rules::{self, evaluate, Outcome, Residue, Scope, Waiting, Window};

/// A dividend and its divisor.
pub type Quotient = (i64, i64);

/// The quotients that the activation of the main clause works out.
pub fn at_start(agreement: &Agreement) -> Vec<Quotient> {
    let mut walk = Walk { agreement, quotients: Vec::new() };
    walk.activation(&agreement.main, &Scope::default());
    walk.quotients
}

/// The quotients that a residue works out to follow a reading.
pub fn at_reading<'a>(agreement: &'a Agreement, residue: &Residue<'a>, reading: &Reading) -> Vec<Quotient> {
    let mut walk = Walk { agreement, quotients: Vec::new() };
    walk.residue(residue, reading);
    walk.quotients
}

/// An example of each case.
const EXAMPLES: [Quotient; 10] =
    [(-7, -2), (-7, 2), (7, -2), (7, 2), (-8, -2), (-8, 2), (8, -2), (8, 2), (0, 5), (5, 0)];

pub fn cases() -> Vec<String> {
    EXAMPLES.map(case).to_vec()
}

/// By 0, 0 by another number, or by which signs and with or without a fraction.
pub fn case((left, right): Quotient) -> String {
    let sign = |number: i64| if number < 0 { "negative" } else { "positive" };
    match (left, right) {
        (_, 0) => "by 0".to_string(),
        (0, _) => "0 by another number".to_string(),
        _ if left % right == 0 => format!("{} by {}, exact", sign(left), sign(right)),
        _ => format!("{} by {}, fraction", sign(left), sign(right)),
    }
}

/// Goes where the rules go.
struct Walk<'a> {
    agreement: &'a Agreement,
    quotients: Vec<Quotient>,
}

impl<'a> Walk<'a> {
    fn activation(&mut self, clause: &Clause, scope: &Scope) {
        match clause {
            Clause::Fulfilled | Clause::Wait(_) => {}
            Clause::If(condition, left, right) => {
                self.expression(condition, scope);
                let side = if evaluate(condition, scope) == 1 { left } else { right };
                self.activation(side, scope);
            }
            Clause::And(left, right) | Clause::Or(left, right) => {
                self.activation(left, scope);
                self.activation(right, scope);
            }
            Clause::Instance(instance) => {
                instance.values.iter().for_each(|value| self.expression(value, scope));
                let body = &self.agreement.templates[instance.template].body;
                self.activation(body, &rules::arguments(instance, scope));
            }
        }
    }

    fn residue(&mut self, residue: &Residue<'a>, reading: &Reading) {
        match residue {
            Residue::Waiting(waiting) => self.waiting(waiting, reading),
            Residue::And(left, right) | Residue::Or(left, right) => {
                self.residue(left, reading);
                self.residue(right, reading);
            }
        }
    }

    fn waiting(&mut self, waiting: &Waiting<'a>, reading: &Reading) {
        let wait = waiting.wait;
        self.expression(&wait.after, &waiting.scope);
        self.expression(&wait.within, &waiting.scope);
        let Window { first, last } = waiting.window();
        if reading.time > last {
            self.late(waiting, last, reading);
        } else if reading.kind == wait.reading && reading.time >= first {
            let seen = waiting.scope.with(&reading.values);
            self.expression(&wait.condition, &seen);
            if evaluate(&wait.condition, &seen) == 1 {
                self.activation(&wait.then, &seen.with(&[last - reading.time]));
            }
        }
    }

    /// An else is activated and follows the same reading.
    fn late(&mut self, waiting: &Waiting<'a>, last: i64, reading: &Reading) {
        let Late::Else(otherwise) = &waiting.wait.late else { return };
        self.activation(otherwise, &waiting.scope);
        let time = waiting.late_time(last);
        if let Outcome::Running(residue) = rules::activate(self.agreement, otherwise, time, &waiting.scope, &mut 0) {
            self.residue(&residue, reading);
        }
    }

    fn expression(&mut self, expression: &Expression, scope: &Scope) {
        match expression {
            Expression::Not(operand) => self.expression(operand, scope),
            Expression::Binary(operator, left, right) => {
                self.expression(left, scope);
                self.expression(right, scope);
                if *operator == Operator::Quotient {
                    self.quotients.push((evaluate(left, scope), evaluate(right, scope)));
                }
            }
            _ => {}
        }
    }
}
