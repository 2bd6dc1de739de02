//! A short name for a window: the reading with the values that it must have, such as `Harvested(1, t)`
//! where `p = 1 && 0 < t` is asked of `Harvested(p, t)`.

use crate::model::{Expression, Operator};
use crate::pending::Pending;
use crate::story::words::Words;

pub fn label(words: &Words, pending: &Pending) -> String {
    let condition = pending.known.expression(&pending.wait.condition);
    let outside = pending.sight.values.len();
    let values = pending.wait.bound.iter().enumerate().map(|(n, value)| match required(&condition, outside + n) {
        Some(literal) => words.literal(literal),
        None => value.name.clone(),
    });
    let values: Vec<String> = values.collect();
    let wanted = words.wanted(pending);
    let name = wanted.split('(').next().unwrap_or(&wanted);
    format!("{name}({})", values.join(", "))
}

/// The literal that a value in sight must equal, if the condition asks for one.
fn required(condition: &Expression, value: usize) -> Option<&Expression> {
    let Expression::Binary(operator, left, right) = condition else { return None };
    match (operator, &**left, &**right) {
        (Operator::And, left, right) => required(left, value).or_else(|| required(right, value)),
        (Operator::Equal, Expression::Value(found), literal) | (Operator::Equal, literal, Expression::Value(found))
            if *found == value && is_literal(literal) =>
        {
            Some(literal)
        }
        _ => None,
    }
}

fn is_literal(expression: &Expression) -> bool {
    matches!(expression, Expression::Number(_) | Expression::Truth(_) | Expression::Party(_))
}
