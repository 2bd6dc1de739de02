//! The text of an agreement with the places of its clauses.

use crate::assemble::{assemble, Assembled};
use crate::fault::{utf8, Fault, Place};
use crate::parse::parse;
use crate::sites::sites;
use crate::syntax::{self, Clause, Form};
use std::collections::BTreeMap;

/// An agreement, and where in its text each obligation and choice stands.
pub struct Source {
    /// The file, as messages name it.
    pub name: String,
    pub assembled: Assembled,
    /// By the byte place in the record.
    places: BTreeMap<usize, Place>,
}

impl Source {
    pub fn read(name: &str, text: &[u8]) -> Result<Source, Fault> {
        Source::of(name, assemble(text)?, text)
    }

    /// An agreement that was assembled from this text.
    pub fn of(name: &str, assembled: Assembled, text: &[u8]) -> Result<Source, Fault> {
        let written = written(&parse(utf8(text)?)?);
        let encoded = sites(&assembled.agreement).into_iter().map(|site| site.wait.place).collect::<Vec<_>>();
        let places = encoded.into_iter().zip(written).collect();
        Ok(Source { name: name.to_string(), assembled, places })
    }

    /// Where the clause at a byte place of the record is written.
    pub fn place(&self, byte: usize) -> Option<Place> {
        self.places.get(&byte).copied()
    }
}

/// The places of all obligations and choices, in the order in which `sites` gives them.
fn written(tree: &syntax::Agreement) -> Vec<Place> {
    let mut places = Vec::new();
    tree.templates.iter().for_each(|template| collect(&template.body, &mut places));
    collect(&tree.main, &mut places);
    places
}

fn collect(clause: &Clause, places: &mut Vec<Place>) {
    match &clause.form {
        Form::Fulfilment | Form::Instance(_) => {}
        Form::Obligation(_, wait) => {
            places.push(clause.at);
            optional(&wait.then, places);
        }
        Form::Choice(wait, otherwise) => {
            places.push(clause.at);
            optional(&wait.then, places);
            optional(otherwise, places);
        }
        Form::If(_, then, otherwise) => {
            collect(then, places);
            optional(otherwise, places);
        }
        Form::And(left, right) | Form::Or(left, right) => {
            collect(left, places);
            collect(right, places);
        }
    }
}

fn optional(clause: &Option<Box<Clause>>, places: &mut Vec<Place>) {
    if let Some(clause) = clause {
        collect(clause, places);
    }
}
