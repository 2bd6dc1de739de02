//! Clauses, with what is left out put in.

use super::meter::Room;
use super::scope::{unknown, Scope};
use super::Resolver;
use crate::fault::{Fault, Place};
use crate::limits;
use crate::model::{Blame, Clause, Expression, Instance, Late, Type, Value, Wait};
use crate::syntax::{self, Form, Name};

type Sides = (Box<Clause>, Box<Clause>);

impl Resolver {
    /// The clause, or none where a part of it stands for nothing; what is wrong is noted in every part.
    pub fn clause(&mut self, tree: &syntax::Clause, scope: &Scope, depth: usize) -> Option<Clause> {
        match self.room(tree.at, depth, fields(&tree.form)) {
            Room::Fits => {}
            Room::Deep(_) => return Some(Clause::Fulfilled),
            Room::Full(_) => return None,
        }
        match &tree.form {
            Form::Fulfilment => Some(Clause::Fulfilled),
            Form::Obligation(blame, wait) => self.obligation(tree.at, blame, wait, scope, depth + 1),
            Form::Choice(wait, otherwise) => self.choice(tree.at, wait, otherwise.as_deref(), scope, depth + 1),
            Form::If(condition, then, otherwise) => {
                let condition = self.expression(condition, scope, depth + 1);
                let then = self.clause(then, scope, depth + 1);
                let otherwise = self.optional(tree.at, otherwise.as_deref(), scope, depth + 1);
                Some(Clause::If(condition?, Box::new(then?), Box::new(otherwise?)))
            }
            Form::And(left, right) => {
                let (left, right) = self.sides(left, right, scope, depth + 1)?;
                Some(Clause::And(left, right))
            }
            Form::Or(left, right) => {
                let (left, right) = self.sides(left, right, scope, depth + 1)?;
                Some(Clause::Or(left, right))
            }
            Form::Instance(instance) => self.instance(instance, scope, depth + 1),
        }
    }

    /// A clause, or fulfilment where it is left out.
    fn optional(&mut self, at: Place, tree: Option<&syntax::Clause>, scope: &Scope, depth: usize) -> Option<Clause> {
        match tree {
            Some(tree) => self.clause(tree, scope, depth),
            None => self.clause(&syntax::Clause { at, from: at, form: Form::Fulfilment }, scope, depth),
        }
    }

    fn sides(&mut self, left: &syntax::Clause, right: &syntax::Clause, scope: &Scope, depth: usize) -> Option<Sides> {
        let left = self.clause(left, scope, depth);
        let right = self.clause(right, scope, depth);
        Some((Box::new(left?), Box::new(right?)))
    }

    fn obligation(
        &mut self,
        at: Place,
        blame: &Name,
        wait: &syntax::Wait,
        scope: &Scope,
        inner: usize,
    ) -> Option<Clause> {
        let blame = self.noted(scope.blame(blame));
        let wait = self.wait(at, wait, scope, inner)?;
        Some(Clause::Wait(Box::new(Wait { late: Late::Breach(blame?), ..wait })))
    }

    fn choice(
        &mut self,
        at: Place,
        wait: &syntax::Wait,
        otherwise: Option<&syntax::Clause>,
        scope: &Scope,
        inner: usize,
    ) -> Option<Clause> {
        let outside = scope.hiding(wait.bound.iter().chain(&wait.remaining));
        let wait = self.wait(at, wait, scope, inner);
        let otherwise = self.optional(at, otherwise, &outside, inner);
        Some(Clause::Wait(Box::new(Wait { late: Late::Else(otherwise?), ..wait? })))
    }

    /// What an obligation and a choice share; `inner` is the depth of their parts.
    fn wait(&mut self, at: Place, tree: &syntax::Wait, scope: &Scope, inner: usize) -> Option<Wait> {
        let reading = self.reading(tree);
        let bound = self.bound(tree, reading);
        let name = tree.remaining.as_ref().map_or("_", |name| &name.text);
        let remaining = Value { name: name.to_string(), value_type: Type::Number };
        let inside = scope.with(&bound);
        let after_all = inside.with(std::slice::from_ref(&remaining));
        self.sight(&tree.reading, scope, &after_all);
        let (inside, outside) =
            (inside.hiding(&tree.remaining), scope.hiding(tree.bound.iter().chain(&tree.remaining)));
        let condition = self.or_literal(at, tree.condition.as_ref(), Expression::TRUE, &inside, inner);
        let after = self.or_literal(at, tree.after.as_ref(), Expression::ZERO, &outside, inner);
        let within = self.or_literal(at, tree.within.as_ref(), Expression::ZERO, &outside, inner);
        let then = self.optional(at, tree.then.as_deref(), &after_all, inner);
        Some(Wait {
            place: 0,
            reading: reading?,
            bound,
            remaining,
            condition: condition?,
            after: after?,
            within: within?,
            then: then?,
            late: Late::Else(Clause::Fulfilled),
        })
    }

    /// The reading's number.
    fn reading(&mut self, tree: &syntax::Wait) -> Option<usize> {
        let names = tree.bound.iter().chain(&tree.remaining);
        self.distinct(names.filter(|name| name.text != "_"), "value");
        let name = &tree.reading;
        let known = self.readings.iter().position(|reading| reading.name == name.text);
        match known {
            Some(number) => {
                let values = self.readings[number].values.len();
                self.faults.extend(count(name, values, "value", tree.bound.len(), "named"));
            }
            None => {
                let known = self.readings.iter().map(|reading| reading.name.as_str());
                self.faults.push(unknown("reading", name, known));
            }
        }
        known
    }

    /// The reading's values under the names given here. A name without a value is of any type.
    fn bound(&self, tree: &syntax::Wait, reading: Option<usize>) -> Vec<Value> {
        let values = reading.map_or(&[][..], |number| &self.readings[number].values);
        let types = values.iter().map(|value| value.value_type).chain(std::iter::repeat(Type::Number));
        tree.bound.iter().zip(types).map(|(name, value_type)| Value { name: name.text.clone(), value_type }).collect()
    }

    /// "At most 16 are in sight." Said where the limit is passed first.
    fn sight(&mut self, reading: &Name, outside: &Scope, inside: &Scope) {
        let (before, now) = (outside.sight(), inside.sight());
        if before <= limits::SIGHT && now > limits::SIGHT {
            let over = now - limits::SIGHT;
            let what = format!(
                "{now} values would be in sight in the `then` of this `{}`, {over} over the {} there may be: \
                 {before} from outside, {} of the reading and the remaining time",
                reading.text,
                limits::SIGHT,
                now - before - 1,
            );
            self.faults.push(reading.fault(what).refused(3));
        }
    }

    fn instance(&mut self, tree: &syntax::Instance, scope: &Scope, inner: usize) -> Option<Clause> {
        let name = &tree.template;
        let known = self.heads.iter().position(|head| head.name == name.text);
        match known {
            Some(template) => {
                let head = &self.heads[template];
                let (values, parameters) = (head.values.len(), head.parameters.len());
                let values = count(name, values, "value", tree.values.len(), "given");
                let parameters = count(name, parameters, "party parameter", tree.parties.len(), "given");
                self.faults.extend(values.into_iter().chain(parameters).map(|fault| fault.refused(2)));
            }
            None => {
                let known = self.heads.iter().map(|head| head.name.as_str());
                self.faults.push(unknown("template", name, known));
            }
        }
        let values: Vec<_> = tree.values.iter().map(|value| self.expression(value, scope, inner)).collect();
        let blames: Vec<_> = tree.parties.iter().map(|party| self.noted(scope.blame(party))).collect();
        let values = values.into_iter().collect::<Option<Vec<Expression>>>();
        let blames = blames.into_iter().collect::<Option<Vec<Blame>>>();
        Some(Clause::Instance(Instance { template: known?, values: values?, blames: blames? }))
    }
}

/// The fault of other than as many as there must be.
fn count(name: &Name, wanted: usize, what: &str, found: usize, done: &str) -> Option<Fault> {
    let plural = if wanted == 1 { "" } else { "s" };
    let what = format!("`{}` has {wanted} {what}{plural}, {found} {done} here", name.text);
    (wanted != found).then(|| name.fault(what))
}

/// The bytes of a clause's fields that are no records.
fn fields(form: &Form) -> usize {
    match form {
        Form::Fulfilment | Form::If(..) | Form::And(..) | Form::Or(..) => 0,
        Form::Obligation(..) => 2,
        Form::Choice(..) => 1,
        Form::Instance(instance) => 1 + instance.parties.len(),
    }
}
