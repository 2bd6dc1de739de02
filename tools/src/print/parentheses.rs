//! Where a clause needs parentheses, and what need not be written.

use crate::model::{Clause, Expression, Late, Wait};

/// Whether a side of `and` or `or` needs parentheses. Joins group to the left; a clause with a
/// `then` or `else` would reach over the word that follows it.
pub fn side_closes(side: &Clause, join: &Clause, left: bool) -> bool {
    match side {
        Clause::Fulfilled | Clause::Instance(_) => false,
        Clause::And(..) => !(left && matches!(join, Clause::And(..))),
        Clause::Or(..) => !(left && matches!(join, Clause::Or(..))),
        Clause::Wait(wait) => !matches!(wait.late, Late::Breach(_)) || wait.then != Clause::Fulfilled,
        Clause::If(..) => true,
    }
}

/// Whether a `then` needs parentheses because an else follows that it would take for itself.
pub fn must_close(then: &Clause, otherwise: &Clause) -> bool {
    *otherwise != Clause::Fulfilled && takes_else(then)
}

pub fn wait_closes(wait: &Wait) -> bool {
    match &wait.late {
        Late::Breach(_) => false,
        Late::Else(otherwise) => must_close(&wait.then, otherwise),
    }
}

/// Whether an `else` after this clause would be taken as belonging to it.
fn takes_else(clause: &Clause) -> bool {
    match clause {
        Clause::Fulfilled | Clause::And(..) | Clause::Or(..) | Clause::Instance(_) => false,
        Clause::If(_, _, otherwise) => **otherwise == Clause::Fulfilled || takes_else(otherwise),
        Clause::Wait(wait) => match &wait.late {
            Late::Breach(_) => takes_else(&wait.then),
            Late::Else(otherwise) => *otherwise == Clause::Fulfilled || takes_else(otherwise),
        },
    }
}

/// Whether a clause refers to a value.
pub fn uses(clause: &Clause, value: usize) -> bool {
    let used = |expression: &Expression| refers(expression, value);
    match clause {
        Clause::Fulfilled => false,
        Clause::Wait(wait) => {
            let late = matches!(&wait.late, Late::Else(otherwise) if uses(otherwise, value));
            late || [&wait.condition, &wait.after, &wait.within].into_iter().any(used) || uses(&wait.then, value)
        }
        Clause::If(condition, left, right) => used(condition) || uses(left, value) || uses(right, value),
        Clause::And(left, right) | Clause::Or(left, right) => uses(left, value) || uses(right, value),
        Clause::Instance(instance) => instance.values.iter().any(used),
    }
}

fn refers(expression: &Expression, value: usize) -> bool {
    match expression {
        Expression::Value(name) => *name == value,
        Expression::Not(operand) => refers(operand, value),
        Expression::Binary(_, left, right) => refers(left, value) || refers(right, value),
        Expression::Number(_) | Expression::Truth(_) | Expression::Party(_) => false,
    }
}
