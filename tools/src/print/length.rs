//! Whether a clause is too long for a line, told without printing it: what is printed at every level again would cost
//! the square of a clause's size.

use super::WIDTH;
use crate::model::{Clause, Expression, Late};

/// Whether a clause surely takes more columns than a line has.
pub fn is_long(clause: &Clause) -> bool {
    left(clause, Some(WIDTH)).is_none()
}

/// The columns that are left of so many after the fewest that a clause takes; none where they do not suffice.
fn left(clause: &Clause, columns: Option<usize>) -> Option<usize> {
    let columns = columns?;
    match clause {
        // It may be left out.
        Clause::Fulfilled => Some(columns),
        Clause::Wait(wait) => {
            let columns = columns.checked_sub("if R() due within 0".len());
            let times = [&wait.condition, &wait.after, &wait.within].into_iter().fold(columns, operand);
            let then = left(&wait.then, times);
            match &wait.late {
                Late::Breach(_) => then,
                Late::Else(otherwise) => left(otherwise, then),
            }
        }
        Clause::If(condition, then, otherwise) => {
            let columns = operand(columns.checked_sub("if  then ".len()), condition);
            left(otherwise, left(then, columns))
        }
        Clause::And(one, other) | Clause::Or(one, other) => left(other, left(one, columns.checked_sub(" or ".len()))),
        Clause::Instance(instance) => instance.values.iter().fold(columns.checked_sub("T()".len()), operand),
    }
}

/// Literals and names count for nothing: they may be left out.
fn operand(columns: Option<usize>, expression: &Expression) -> Option<usize> {
    match expression {
        Expression::Number(_) | Expression::Truth(_) | Expression::Party(_) | Expression::Value(_) => columns,
        Expression::Not(operand_of) => operand(columns?.checked_sub("!".len()), operand_of),
        Expression::Binary(_, one, other) => operand(operand(columns?.checked_sub(" + ".len()), one), other),
    }
}
