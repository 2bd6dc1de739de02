//! Types: refusal 3 but for parties. "After and within are numbers, where and if conditions truths."

use super::sight::Sight;
use crate::fault::Fault;
use crate::model::{self, Type};
use crate::shown::piece;
use crate::syntax::{Agreement, Clause, Expression, Form, Instance, Operator, Term, Wait};

/// The number of this refusal.
const REFUSAL: u32 = 3;

/// Every expression whose type is not the one that its place needs.
pub fn faults(text: &str, tree: &Agreement) -> Vec<Fault> {
    let mut typing = Typing { text, tree, faults: Vec::new() };
    for template in &tree.templates {
        typing.clause(&template.body, &Sight::of_template(tree, template));
    }
    typing.clause(&tree.main, &Sight::of_main(tree));
    typing.faults
}

struct Typing<'t> {
    text: &'t str,
    tree: &'t Agreement,
    faults: Vec<Fault>,
}

impl<'t> Typing<'t> {
    fn clause(&mut self, clause: &'t Clause, sight: &Sight<'t>) {
        match &clause.form {
            Form::Fulfilment => {}
            Form::Obligation(_, wait) => self.wait(wait, sight),
            Form::Choice(wait, otherwise) => {
                self.wait(wait, sight);
                self.optional(otherwise.as_deref(), sight);
            }
            Form::If(condition, then, otherwise) => {
                self.expect("the condition of `if`", Type::Truth, condition, sight);
                self.clause(then, sight);
                self.optional(otherwise.as_deref(), sight);
            }
            Form::And(left, right) | Form::Or(left, right) => {
                self.clause(left, sight);
                self.clause(right, sight);
            }
            Form::Instance(instance) => self.instance(instance, sight),
        }
    }

    fn optional(&mut self, clause: Option<&'t Clause>, sight: &Sight<'t>) {
        if let Some(clause) = clause {
            self.clause(clause, sight);
        }
    }

    fn wait(&mut self, wait: &'t Wait, sight: &Sight<'t>) {
        if let Some(condition) = &wait.condition {
            self.expect("the condition after `where`", Type::Truth, condition, &sight.inside(wait));
        }
        for (word, time) in [("after", &wait.after), ("within", &wait.within)] {
            if let Some(time) = time {
                self.expect(&format!("the time after `{word}`"), Type::Number, time, sight);
            }
        }
        self.optional(wait.then.as_deref(), &sight.after(wait));
    }

    fn instance(&mut self, instance: &'t Instance, sight: &Sight<'t>) {
        let known = self.tree.templates.iter().find(|template| template.name.text == instance.template.text);
        for (n, value) in instance.values.iter().enumerate() {
            match known.and_then(|template| Some((template, template.values.get(n)?))) {
                Some((template, wanted)) => {
                    let what = format!("`{}` of `{}`", wanted.name.text, template.name.text);
                    self.expect(&what, wanted.value_type, value, sight);
                }
                None => {
                    self.type_of(value, sight);
                }
            }
        }
    }

    /// An expression where a type is needed.
    fn expect(&mut self, place: &str, wanted: Type, expression: &'t Expression, sight: &Sight<'t>) {
        let Some(found) = self.type_of(expression, sight).filter(|found| *found != wanted) else { return };
        let what = format!("{place} must be {}, and {}", a(wanted), self.told(expression, found));
        self.fault(expression, what);
    }

    fn told(&self, expression: &Expression, found: Type) -> String {
        format!("`{}` is {}", piece(expression.span.of(self.text)), a(found))
    }

    fn fault(&mut self, expression: &Expression, what: String) {
        let length = expression.span.of(self.text).chars().count();
        self.faults.push(Fault::new(expression.span.at, what).of_length(length).refused(REFUSAL));
    }

    /// The type of an expression, if its names leave it no other.
    fn type_of(&mut self, expression: &'t Expression, sight: &Sight<'t>) -> Option<Type> {
        match &expression.term {
            Term::Number(_) => Some(Type::Number),
            Term::Truth(_) => Some(Type::Truth),
            Term::Name(name) => sight.type_of(name),
            Term::Not(operand) => {
                self.expect("what follows `!`", Type::Truth, operand, sight);
                Some(Type::Truth)
            }
            Term::Binary(operator, left, right) => {
                let (operands, result) = types(*operator);
                match operands {
                    Some(wanted) => {
                        let sign = operator.sign();
                        self.expect(&format!("the left side of `{sign}`"), wanted, left, sight);
                        self.expect(&format!("the right side of `{sign}`"), wanted, right, sight);
                    }
                    None => self.alike(expression, *operator, left, right, sight),
                }
                Some(result)
            }
        }
    }

    /// "43 equal (two of one type)"
    fn alike(
        &mut self,
        whole: &'t Expression,
        operator: Operator,
        left: &'t Expression,
        right: &'t Expression,
        sight: &Sight<'t>,
    ) {
        let types = self.type_of(left, sight).zip(self.type_of(right, sight));
        if let Some((one, other)) = types.filter(|(one, other)| one != other) {
            let (one, other) = (self.told(left, one), self.told(right, other));
            let what = format!("`{}` compares two of one type, and {one}, {other}", operator.sign());
            self.fault(whole, what);
        }
    }
}

/// The type of an operator's operands, none where it is any of which both are; and the type of its result.
fn types(operator: Operator) -> (Option<Type>, Type) {
    use model::Operator::{And, Equal, Less, Minus, Plus, Quotient, Times};
    match operator {
        Operator::Plain(Plus | Minus | Times | Quotient) => (Some(Type::Number), Type::Number),
        Operator::Plain(And) | Operator::Or => (Some(Type::Truth), Type::Truth),
        Operator::Plain(Less) | Operator::AtMost | Operator::More | Operator::AtLeast => {
            (Some(Type::Number), Type::Truth)
        }
        Operator::Plain(Equal) | Operator::Unequal => (None, Type::Truth),
    }
}

fn a(value_type: Type) -> String {
    format!("a {}", value_type.word())
}
