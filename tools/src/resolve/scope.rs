//! The names in sight.

use crate::fault::Fault;
use crate::model::{Blame, Expression, Head, Value};
use crate::near::did_you_mean;
use crate::syntax::Name;
use std::rc::Rc;

#[derive(Clone)]
pub struct Scope {
    parties: Rc<[String]>,
    parameters: Rc<[String]>,
    /// "the template's, then those bound outside in"
    values: Vec<Value>,
    /// Names of a reading's values where they are not seen.
    hidden: Vec<String>,
}

impl Scope {
    /// What the main clause sees.
    pub fn empty(parties: &[Name]) -> Scope {
        let parties = parties.iter().map(|party| party.text.clone()).collect();
        Scope { parties, parameters: Rc::new([]), values: Vec::new(), hidden: Vec::new() }
    }

    /// What a template's body sees.
    pub fn of_template(&self, head: &Head) -> Scope {
        let parameters = head.parameters.as_slice().into();
        Scope { parties: self.parties.clone(), parameters, values: head.values.clone(), hidden: Vec::new() }
    }

    /// The same with further values.
    pub fn with(&self, bound: &[Value]) -> Scope {
        let mut scope = self.clone();
        scope.values.extend_from_slice(bound);
        scope
    }

    /// The same where some names are bound and not seen.
    pub fn hiding<'n>(&self, names: impl IntoIterator<Item = &'n Name>) -> Scope {
        let mut scope = self.clone();
        scope.hidden.extend(names.into_iter().map(|name| name.text.clone()));
        scope
    }

    /// How many values are in sight.
    pub fn sight(&self) -> usize {
        self.values.len()
    }

    /// What a name stands for in an expression. An inner name hides an outer one.
    pub fn value(&self, name: &Name) -> Result<Expression, Fault> {
        if let Some(value) = self.values.iter().rposition(|value| is(&value.name, name)) {
            return Ok(Expression::Value(value));
        }
        if self.parameters.iter().any(|parameter| is(parameter, name)) {
            let what = format!("`{}` is a party parameter; those are no values, so no expression has them", name.text);
            return Err(name.fault(what));
        }
        match self.parties.iter().position(|party| is(party, name)) {
            Some(party) => Ok(Expression::Party(party)),
            None => Err(self.no_value(name)),
        }
    }

    fn no_value(&self, name: &Name) -> Fault {
        if self.hidden.iter().any(|hidden| is(hidden, name)) {
            let seen = "`where` and `then` see the values of a reading, and `then` the remaining time";
            return name.fault(format!("`{}` is not in sight here: {seen}", name.text));
        }
        let values = self.values.iter().map(|value| value.name.as_str());
        unknown("value", name, values.chain(self.parties.iter().map(String::as_str)))
    }

    /// "A blame byte is a party below the party count, or 128 to 131 for the template's party
    /// parameter 0 to 3."
    pub fn blame(&self, name: &Name) -> Result<Blame, Fault> {
        if self.values.iter().any(|value| is(&value.name, name)) {
            let what = format!("`{}` is a value here; to blame is a party or a party parameter", name.text);
            return Err(name.fault(what));
        }
        let parameter = self.parameters.iter().position(|parameter| is(parameter, name)).map(Blame::Parameter);
        let party = || self.parties.iter().position(|party| is(party, name)).map(Blame::Party);
        let known = self.parameters.iter().chain(self.parties.iter()).map(String::as_str);
        parameter.or_else(party).ok_or_else(|| unknown("party", name, known))
    }
}

/// `_` binds no name.
fn is(known: &str, name: &Name) -> bool {
    known == name.text && known != "_"
}

/// The fault of a name that none of those known is.
pub fn unknown<'k>(what: &str, name: &Name, known: impl IntoIterator<Item = &'k str>) -> Fault {
    name.fault(format!("unknown {what} `{}`{}", name.text, did_you_mean(&name.text, known)))
}
