//! Expressions and clauses with known values put in and worked out.

use crate::limits::NUMBER;
use crate::model::{Blame, Clause, Expression, Instance, Late, Operator, Wait};
use crate::sites::blamed;

/// The values in sight, as literals, and the parties that the party parameters stand for.
#[derive(Clone, Debug, PartialEq, Eq)]
pub struct Known {
    pub values: Vec<Expression>,
    pub parameters: Vec<usize>,
}

impl Known {
    /// What can be worked out is; the rest stands.
    pub fn expression(&self, expression: &Expression) -> Expression {
        match expression {
            Expression::Value(value) => self.values.get(*value).unwrap_or(expression).clone(),
            Expression::Not(operand) => match self.expression(operand) {
                Expression::Truth(truth) => Expression::Truth(!truth),
                operand => Expression::Not(Box::new(operand)),
            },
            Expression::Binary(operator, left, right) => {
                apply(*operator, self.expression(left), self.expression(right))
            }
            Expression::Number(_) | Expression::Truth(_) | Expression::Party(_) => expression.clone(),
        }
    }

    pub fn clause(&self, clause: &Clause) -> Clause {
        let boxed = |clause: &Clause| Box::new(self.clause(clause));
        match clause {
            Clause::Fulfilled => Clause::Fulfilled,
            Clause::Wait(wait) => Clause::Wait(Box::new(self.wait(wait))),
            // An if picks its side by values that do not change.
            Clause::If(condition, left, right) => match self.expression(condition) {
                Expression::Truth(true) => self.clause(left),
                Expression::Truth(false) => self.clause(right),
                condition => Clause::If(condition, boxed(left), boxed(right)),
            },
            Clause::And(left, right) => Clause::And(boxed(left), boxed(right)),
            Clause::Or(left, right) => Clause::Or(boxed(left), boxed(right)),
            Clause::Instance(instance) => Clause::Instance(Instance {
                template: instance.template,
                values: instance.values.iter().map(|value| self.expression(value)).collect(),
                blames: instance.blames.iter().map(|blame| self.blame(*blame)).collect(),
            }),
        }
    }

    fn wait(&self, wait: &Wait) -> Wait {
        Wait {
            place: wait.place,
            reading: wait.reading,
            bound: wait.bound.clone(),
            remaining: wait.remaining.clone(),
            condition: self.expression(&wait.condition),
            after: self.expression(&wait.after),
            within: self.expression(&wait.within),
            then: self.clause(&wait.then),
            late: match &wait.late {
                Late::Breach(blame) => Late::Breach(self.blame(*blame)),
                Late::Else(otherwise) => Late::Else(self.clause(otherwise)),
            },
        }
    }

    /// The party to blame, where a party parameter is known.
    pub fn blame(&self, blame: Blame) -> Blame {
        blamed(blame, &self.parameters).map_or(blame, Blame::Party)
    }
}

fn apply(operator: Operator, left: Expression, right: Expression) -> Expression {
    use Expression::{Number, Party, Truth};
    match (operator, &left, &right) {
        (Operator::And, Truth(true), _) => right,
        (Operator::And, _, Truth(true)) => left,
        (Operator::And, Truth(false), _) | (Operator::And, _, Truth(false)) => Truth(false),
        (Operator::Less, Number(left), Number(right)) => Truth(left < right),
        (Operator::Equal, Number(_), Number(_)) => Truth(left == right),
        (Operator::Equal, Truth(_), Truth(_)) => Truth(left == right),
        (Operator::Equal, Party(_), Party(_)) => Truth(left == right),
        (_, Number(one), Number(other)) => match arithmetic(operator, i64::from(*one), i64::from(*other)) {
            Some(number) => Number(number),
            None => Expression::Binary(operator, Box::new(left), Box::new(right)),
        },
        _ => Expression::Binary(operator, Box::new(left), Box::new(right)),
    }
}

/// "a sum, difference or product beyond an end is held at that end"; quotients "round downwards,
/// for shortfalls as well", and "a quotient by 0 remains 0".
fn arithmetic(operator: Operator, left: i64, right: i64) -> Option<i32> {
    let number = match operator {
        Operator::Plus => left + right,
        Operator::Minus => left - right,
        Operator::Times => left * right,
        Operator::Quotient => rounded_down(left, right),
        Operator::And | Operator::Less | Operator::Equal => return None,
    };
    i32::try_from(number.clamp(-NUMBER, NUMBER)).ok()
}

/// The quotient towards minus infinity; by 0 it is 0. By a positive number that is Euclid's.
fn rounded_down(left: i64, right: i64) -> i64 {
    match right.signum() {
        1 => left.div_euclid(right),
        -1 => (-left).div_euclid(-right),
        _ => 0,
    }
}

#[cfg(test)]
mod tests {
    use super::*;

    fn worked_out(operator: Operator, left: i32, right: i32) -> Expression {
        let known = Known { values: vec![Expression::Number(left)], parameters: Vec::new() };
        let operands = (Box::new(Expression::Value(0)), Box::new(Expression::Number(right)));
        known.expression(&Expression::Binary(operator, operands.0, operands.1))
    }

    #[test]
    fn quotients_round_down() {
        let most = 1_000_000_000;
        let fractions = [(7, 2, 3), (-7, 2, -4), (7, -2, -4), (-7, -2, 3), (1, -2, -1), (-1, most, -1)];
        let wholes = [(-8, 2, -4), (8, -2, -4), (-8, -2, 4), (0, -5, 0), (5, 0, 0), (-5, 0, 0)];
        let ends = [(most, 1, most), (most, -1, -most), (-most, 1, -most), (-most, -1, most)];
        for (left, right, expected) in [&fractions[..], &wholes, &ends].concat() {
            let number = worked_out(Operator::Quotient, left, right);
            assert_eq!(number, Expression::Number(expected), "{left} / {right}");
        }
    }

    #[test]
    fn numbers_are_the_papers() {
        assert_eq!(worked_out(Operator::Plus, 1_000_000_000, 1), Expression::Number(1_000_000_000));
        assert_eq!(worked_out(Operator::Minus, -1_000_000_000, 1), Expression::Number(-1_000_000_000));
        assert_eq!(worked_out(Operator::Times, -1_000_000_000, 1_000_000_000), Expression::Number(-1_000_000_000));
        assert_eq!(worked_out(Operator::Less, 1, 2), Expression::Truth(true));
        assert_eq!(worked_out(Operator::Equal, 1, 2), Expression::Truth(false));
    }

    #[test]
    fn what_is_not_known_stands() {
        let known = Known { values: vec![Expression::Truth(true)], parameters: Vec::new() };
        let unknown = Expression::Binary(Operator::Less, Box::new(Expression::Value(1)), Box::new(Expression::ZERO));
        let both = Expression::Binary(Operator::And, Box::new(Expression::Value(0)), Box::new(unknown.clone()));
        assert_eq!(known.expression(&both), unknown);
        assert_eq!(known.expression(&Expression::Not(Box::new(Expression::Value(0)))), Expression::Truth(false));
    }
}
