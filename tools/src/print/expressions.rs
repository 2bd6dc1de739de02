//! Expressions, with parentheses only where the tree needs them.

use super::{Printer, Sight, Spelling};
use crate::model::{Expression, Operator};

/// How strongly an operator binds; what binds less strongly than its surroundings needs
/// parentheses.
#[derive(Clone, Copy, PartialEq, Eq, PartialOrd, Ord)]
pub enum Strength {
    Or,
    And,
    Comparison,
    Sum,
    Product,
    Not,
}

/// An expression as it is to be written.
enum Shape<'e> {
    Leaf(String),
    Not(&'e Expression),
    Binary(&'static str, Strength, &'e Expression, &'e Expression),
}

impl Printer<'_> {
    /// An expression that may stand anywhere.
    pub fn expression(&self, expression: &Expression, sight: &Sight) -> String {
        self.within(expression, sight, Strength::Or)
    }

    /// An expression for `after` or `within`, with units of time if they may be used.
    pub fn sum(&self, expression: &Expression, sight: &Sight) -> String {
        match (self.spelling, expression) {
            (Spelling::Sugared, Expression::Number(minutes)) => duration(*minutes),
            _ => self.within(expression, sight, Strength::Sum),
        }
    }

    /// The operands of `&&`, for lines of their own.
    pub fn conjuncts(&self, expression: &Expression, sight: &Sight) -> Vec<String> {
        match self.shape(expression, sight) {
            Shape::Binary(_, Strength::And, left, right) => {
                let mut conjuncts = self.conjuncts(left, sight);
                conjuncts.push(self.within(right, sight, Strength::Comparison));
                conjuncts
            }
            _ => vec![self.within(expression, sight, Strength::And)],
        }
    }

    /// An expression where all that binds less than `least` needs parentheses.
    fn within(&self, expression: &Expression, sight: &Sight, least: Strength) -> String {
        match self.shape(expression, sight) {
            Shape::Leaf(leaf) => leaf,
            Shape::Not(operand) => format!("!{}", self.within(operand, sight, Strength::Not)),
            Shape::Binary(sign, strength, left, right) => {
                let (left_least, right_least) = operands(strength);
                let left = self.within(left, sight, left_least);
                let right = self.within(right, sight, right_least);
                let written = format!("{left} {sign} {right}");
                if strength < least {
                    format!("({written})")
                } else {
                    written
                }
            }
        }
    }

    fn shape<'e>(&self, expression: &'e Expression, sight: &Sight) -> Shape<'e> {
        if self.spelling == Spelling::Sugared {
            if let Some(shape) = sugared(expression) {
                return shape;
            }
        }
        match expression {
            Expression::Number(number) => Shape::Leaf(number.to_string()),
            Expression::Truth(truth) => Shape::Leaf(truth.to_string()),
            Expression::Party(party) => Shape::Leaf(self.party(*party)),
            Expression::Value(value) => Shape::Leaf(value_name(*value, sight)),
            Expression::Not(operand) => Shape::Not(operand),
            Expression::Binary(operator, left, right) => {
                Shape::Binary(operator.sign(), strength(*operator), left, right)
            }
        }
    }

    pub fn party(&self, party: usize) -> String {
        self.agreement.parties.get(party).cloned().unwrap_or_else(|| format!("P{party}"))
    }
}

/// A name that means something: `_` is shown by its number in sight.
pub fn value_name(value: usize, sight: &Sight) -> String {
    match sight.values.get(value) {
        Some(known) if known.name != "_" => known.name.clone(),
        _ => format!("v{value}"),
    }
}

fn strength(operator: Operator) -> Strength {
    match operator {
        Operator::Plus | Operator::Minus => Strength::Sum,
        Operator::Times | Operator::Quotient => Strength::Product,
        Operator::And => Strength::And,
        Operator::Less | Operator::Equal => Strength::Comparison,
    }
}

/// What the two operands must at least bind like. All group to the left but comparisons, which do
/// not chain.
fn operands(strength: Strength) -> (Strength, Strength) {
    match strength {
        Strength::Or => (Strength::Or, Strength::And),
        Strength::And => (Strength::And, Strength::Comparison),
        Strength::Comparison => (Strength::Sum, Strength::Sum),
        Strength::Sum => (Strength::Sum, Strength::Product),
        Strength::Product | Strength::Not => (Strength::Product, Strength::Not),
    }
}

/// The sugar that an expression may be the meaning of.
fn sugared(expression: &Expression) -> Option<Shape<'_>> {
    let Expression::Not(negated) = expression else { return None };
    let Expression::Binary(operator, left, right) = &**negated else { return None };
    match (operator, &**left, &**right) {
        (Operator::Equal, ..) => Some(Shape::Binary("!=", Strength::Comparison, left, right)),
        (Operator::Less, ..) => Some(Shape::Binary(">=", Strength::Comparison, left, right)),
        (Operator::And, Expression::Not(one), Expression::Not(other)) => Some(match at_most(one, other) {
            Some((left, right)) => Shape::Binary("<=", Strength::Comparison, left, right),
            None => Shape::Binary("||", Strength::Or, one, other),
        }),
        _ => None,
    }
}

/// The a and b of "a < b or a = b".
fn at_most<'e>(one: &'e Expression, other: &Expression) -> Option<(&'e Expression, &'e Expression)> {
    let Expression::Binary(Operator::Less, left, right) = one else { return None };
    let equal = Expression::Binary(Operator::Equal, left.clone(), right.clone());
    (*other == equal).then_some((&**left, &**right))
}

/// Minutes in the greatest unit that divides them.
fn duration(minutes: i32) -> String {
    match minutes {
        0 => "0".to_string(),
        _ if minutes % (24 * 60) == 0 => format!("{}D", minutes / (24 * 60)),
        _ if minutes % 60 == 0 => format!("{}h", minutes / 60),
        _ => minutes.to_string(),
    }
}
