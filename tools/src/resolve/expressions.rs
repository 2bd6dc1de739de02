//! Expressions, with the sugar spelt out as CSL derives it.

use super::meter::Room;
use super::scope::Scope;
use super::Resolver;
use crate::fault::{Fault, Place};
use crate::limits;
use crate::model::{self, Expression};
use crate::syntax::{self, Name, Operator, Term};

impl Resolver {
    /// The expression, or none where a name in it stands for nothing.
    pub fn expression(&mut self, tree: &syntax::Expression, scope: &Scope, depth: usize) -> Option<Expression> {
        match &tree.term {
            Term::Number(number) => {
                let literal = self.number(tree, *number);
                self.leaf(tree.at, literal, depth)
            }
            Term::Truth(truth) => self.leaf(tree.at, Expression::Truth(*truth), depth),
            Term::Name(text) => {
                let value = self.noted(scope.value(&Name { text: text.clone(), at: tree.at }));
                self.leaf(tree.at, value?, depth)
            }
            Term::Not(operand) => self.spelt(tree.at, &Spelt::not(Spelt::Part(operand)), scope, depth),
            Term::Binary(operator, left, right) => self.spelt(tree.at, &spell(*operator, left, right), scope, depth),
        }
    }

    /// A number of the language, or one that the record can hold and the monitor refuses.
    fn number(&mut self, tree: &syntax::Expression, number: i64) -> Expression {
        if !limits::is_number(number) {
            let fault = Fault::new(tree.at, "a number beyond plus or minus 1,000,000,000");
            self.faults.push(fault.of_length(tree.span.end - tree.span.start).refused(3));
        }
        let end = if number < 0 { i32::MIN } else { i32::MAX };
        Expression::Number(i32::try_from(number).unwrap_or(end))
    }

    fn leaf(&mut self, at: Place, leaf: Expression, depth: usize) -> Option<Expression> {
        let fields = if matches!(leaf, Expression::Number(_)) { 4 } else { 1 };
        match self.room(at, depth, fields) {
            Room::Fits | Room::Deep(_) => Some(leaf),
            Room::Full(_) => None,
        }
    }

    /// An expression, or a literal where it is left out.
    pub fn or_literal(
        &mut self,
        at: Place,
        tree: Option<&syntax::Expression>,
        literal: Expression,
        scope: &Scope,
        depth: usize,
    ) -> Option<Expression> {
        match tree {
            Some(tree) => self.expression(tree, scope, depth),
            None => self.leaf(at, literal, depth),
        }
    }

    fn spelt(&mut self, at: Place, spelt: &Spelt, scope: &Scope, depth: usize) -> Option<Expression> {
        if let Spelt::Part(part) = spelt {
            return self.expression(part, scope, depth);
        }
        match self.room(at, depth, 0) {
            Room::Fits => {}
            Room::Deep(_) => return Some(Expression::ZERO),
            Room::Full(_) => return None,
        }
        match spelt {
            Spelt::Part(part) => self.expression(part, scope, depth),
            Spelt::Not(operand) => Some(Expression::Not(Box::new(self.spelt(at, operand, scope, depth + 1)?))),
            Spelt::Binary(operator, left, right) => {
                let left = self.spelt(at, left, scope, depth + 1);
                let right = self.spelt(at, right, scope, depth + 1);
                Some(Expression::Binary(*operator, Box::new(left?), Box::new(right?)))
            }
        }
    }
}

/// An operator's meaning in terms of `!` and the plain operators. A part may stand in it twice, so
/// parts are only referred to.
enum Spelt<'t> {
    Part(&'t syntax::Expression),
    Not(Box<Spelt<'t>>),
    Binary(model::Operator, Box<Spelt<'t>>, Box<Spelt<'t>>),
}

impl<'t> Spelt<'t> {
    fn not(operand: Spelt<'t>) -> Spelt<'t> {
        Spelt::Not(Box::new(operand))
    }

    fn or(left: Spelt<'t>, right: Spelt<'t>) -> Spelt<'t> {
        let neither = Spelt::Binary(model::Operator::And, Box::new(Spelt::not(left)), Box::new(Spelt::not(right)));
        Spelt::not(neither)
    }
}

fn spell<'t>(operator: Operator, left: &'t syntax::Expression, right: &'t syntax::Expression) -> Spelt<'t> {
    let plain =
        |operator, left, right| Spelt::Binary(operator, Box::new(Spelt::Part(left)), Box::new(Spelt::Part(right)));
    let at_most =
        |left, right| Spelt::or(plain(model::Operator::Less, left, right), plain(model::Operator::Equal, left, right));
    match operator {
        Operator::Plain(operator) => plain(operator, left, right),
        Operator::Or => Spelt::or(Spelt::Part(left), Spelt::Part(right)),
        Operator::AtMost => at_most(left, right),
        Operator::More => plain(model::Operator::Less, right, left),
        Operator::AtLeast => at_most(right, left),
        Operator::Unequal => Spelt::not(plain(model::Operator::Equal, left, right)),
    }
}
