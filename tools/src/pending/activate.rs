//! What a clause comes to when it is activated.

use super::{Pending, Tree};
use crate::known::Known;
use crate::model::{Agreement, Clause, Expression, Instance};
use crate::print::Sight;
use crate::sites::blamed;

/// Activates a clause at a time. None where a value or a template is missing, or a condition is no
/// truth: never in an agreement that `check` accepts.
pub fn activate<'a>(
    agreement: &'a Agreement,
    clause: &'a Clause,
    sight: &Sight,
    known: &Known,
    at: i64,
) -> Option<Tree<'a>> {
    let part = |clause| activate(agreement, clause, sight, known, at);
    match clause {
        Clause::Fulfilled => Some(Tree::Fulfilled),
        Clause::Wait(wait) => Pending::new(wait, sight.clone(), known.clone(), at).map(Tree::Waits),
        Clause::If(condition, then, otherwise) => match known.expression(condition) {
            Expression::Truth(true) => part(then),
            Expression::Truth(false) => part(otherwise),
            _ => None,
        },
        Clause::And(left, right) => Some(both(part(left)?, part(right)?)),
        Clause::Or(left, right) => Some(either(part(left)?, part(right)?)),
        Clause::Instance(instance) => body(agreement, instance, known, at),
    }
}

/// "Activating an instance activates the template's body with the values given."
fn body<'a>(agreement: &'a Agreement, instance: &Instance, known: &Known, at: i64) -> Option<Tree<'a>> {
    let template = agreement.templates.get(instance.template)?;
    let values = instance.values.iter().map(|value| known.expression(value)).collect();
    let parameters = instance.blames.iter().map(|blame| blamed(*blame, &known.parameters));
    let given = Known { values, parameters: parameters.collect::<Option<_>>()? };
    activate(agreement, &template.body, &Sight::of_template(&template.head), &given, at)
}

/// "Fulfilled beside `and` vanishes"
fn both<'a>(left: Tree<'a>, right: Tree<'a>) -> Tree<'a> {
    match (left, right) {
        (Tree::Fulfilled, side) | (side, Tree::Fulfilled) => side,
        (left, right) => Tree::And(Box::new(left), Box::new(right)),
    }
}

/// "fulfilled on either side of `or` fulfils it"
fn either<'a>(left: Tree<'a>, right: Tree<'a>) -> Tree<'a> {
    match (left, right) {
        (Tree::Fulfilled, _) | (_, Tree::Fulfilled) => Tree::Fulfilled,
        (left, right) => Tree::Or(Box::new(left), Box::new(right)),
    }
}
