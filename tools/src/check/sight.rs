//! What is in sight at a clause, as far as it is known: the types of values, and who can be blamed.

use crate::model::Type;
use crate::syntax::{Agreement, Name, Reading, Template, Wait};

#[derive(Clone)]
pub struct Sight<'t> {
    tree: &'t Agreement,
    parameters: &'t [Name],
    /// None is the type of a value that some other fault leaves open.
    values: Vec<(&'t str, Option<Type>)>,
}

/// Someone whom a clause can blame. "a parameter counts as a member of its own"
#[derive(Clone, Copy, Debug, PartialEq, Eq)]
pub enum Member {
    Party(usize),
    Parameter(usize),
}

impl<'t> Sight<'t> {
    pub fn of_main(tree: &'t Agreement) -> Sight<'t> {
        Sight { tree, parameters: &[], values: Vec::new() }
    }

    pub fn of_template(tree: &'t Agreement, template: &'t Template) -> Sight<'t> {
        let value = |value: &'t crate::syntax::Parameter| (value.name.text.as_str(), Some(value.value_type));
        Sight { tree, parameters: &template.parameters, values: template.values.iter().map(value).collect() }
    }

    /// What `where` sees.
    pub fn inside(&self, wait: &'t Wait) -> Sight<'t> {
        let mut sight = self.clone();
        let reading = self.tree.readings.iter().find(|reading| reading.name.text == wait.reading.text);
        let type_of = |n: usize, reading: &Reading| reading.values.get(n).map(|value| value.value_type);
        let bound = wait.bound.iter().enumerate();
        sight.values.extend(bound.map(|(n, name)| (name.text.as_str(), reading.and_then(|known| type_of(n, known)))));
        sight
    }

    /// What `then` sees.
    pub fn after(&self, wait: &'t Wait) -> Sight<'t> {
        let mut sight = self.inside(wait);
        sight.values.push((wait.remaining.as_ref().map_or("_", |name| &name.text), Some(Type::Number)));
        sight
    }

    /// The type of what a name stands for in an expression.
    pub fn type_of(&self, name: &str) -> Option<Type> {
        if name == "_" {
            return None;
        }
        if let Some((_, value_type)) = self.values.iter().rev().find(|(known, _)| *known == name) {
            return *value_type;
        }
        let parameter = self.parameters.iter().any(|known| known.text == name);
        let party = self.tree.parties.iter().any(|known| known.text == name);
        (party && !parameter).then_some(Type::Party)
    }

    /// Whom a blame means.
    pub fn member(&self, name: &str) -> Option<Member> {
        if self.values.iter().any(|(known, _)| *known == name) {
            return None;
        }
        let among = |names: &[Name]| names.iter().position(|known| known.text == name);
        among(self.parameters).map(Member::Parameter).or_else(|| among(&self.tree.parties).map(Member::Party))
    }

    /// What a member is called.
    pub fn name(&self, member: Member) -> &'t str {
        let name = match member {
            Member::Party(party) => self.tree.parties.get(party),
            Member::Parameter(parameter) => self.parameters.get(parameter),
        };
        name.map_or("?", |name| &name.text)
    }
}
