//! What clauses need of units (paper 02, No. 7), and the least units that templates can declare.

use super::orders::path;
use crate::fault::Fault;
use crate::limits;
use crate::syntax::{Agreement, Clause, Form, Name};

/// What a clause needs where the templates declare these units. "The need of fulfilled is 0. For an obligation it is
/// the larger of 1 and the need of `then`. For a choice it is the largest of 1 and the needs of its two clauses. For an
/// if it is the larger of both. For `and` and `or` it is 1 and both together. An instance needs its template's units."
/// What is left out is fulfilled.
pub fn need(clause: &Clause, tree: &Agreement, units: &[usize]) -> usize {
    let of = |clause: &Clause| need(clause, tree, units);
    let optional = |clause: &Option<Box<Clause>>| clause.as_deref().map_or(0, of);
    match &clause.form {
        Form::Fulfilment => 0,
        Form::Obligation(_, wait) => optional(&wait.then).max(1),
        Form::Choice(wait, otherwise) => optional(&wait.then).max(optional(otherwise)).max(1),
        Form::If(_, then, otherwise) => of(then).max(optional(otherwise)),
        Form::And(left, right) | Form::Or(left, right) => 1 + of(left) + of(right),
        Form::Instance(instance) => tree.template(&instance.template).map_or(0, |number| units[number]),
    }
}

/// The units that the templates declare, where the agreement is sized: "An agreement whose templates are all of kind 4,
/// and which has at least one, is sized."
pub fn declared(tree: &Agreement) -> Option<Vec<usize>> {
    let units = tree.templates.iter().map(|template| Some(template.units.as_ref()?.byte().into()));
    units.collect::<Option<Vec<usize>>>().filter(|units| !units.is_empty())
}

/// What the main clause needs, where the agreement is sized.
pub fn main_need(tree: &Agreement) -> Option<usize> {
    declared(tree).map(|units| need(&tree.main, tree, &units))
}

/// The least units that hold what every body needs by them, or why none do.
pub fn least(tree: &Agreement) -> Result<Vec<usize>, Vec<Fault>> {
    let mut units = vec![0; tree.templates.len()];
    loop {
        let before = units.clone();
        for (number, template) in tree.templates.iter().enumerate() {
            // It never falls, since none does of which it is made.
            units[number] = need(&template.body, tree, &units);
            if units[number] > limits::UNITS {
                return Err(never(tree, &template.name, units[number]));
            }
        }
        if units == before {
            return Ok(units);
        }
    }
}

/// Why no units do, where the body of a template comes to need more than can be declared. Templates that begin anew
/// beside another clause are all that make a need grow without end.
fn never(tree: &Agreement, over: &Name, need: usize) -> Vec<Fault> {
    let faults = endless(tree);
    if !faults.is_empty() {
        return faults;
    }
    let what = format!(
        "the body of `{}` needs {need} units or more, and at most {} can be declared",
        over.text,
        limits::UNITS
    );
    vec![over.fault(what)]
}

/// Each instance beside another clause that comes to the template in whose body it stands.
fn endless(tree: &Agreement) -> Vec<Fault> {
    let bodies: Vec<_> = tree.templates.iter().map(|template| named(&template.body, false)).collect();
    let edges: Vec<Vec<usize>> =
        bodies.iter().map(|names| names.iter().filter_map(|(name, _)| tree.template(name)).collect()).collect();
    let mut faults = Vec::new();
    for (number, names) in bodies.iter().enumerate() {
        for (name, _) in names.iter().filter(|(_, beside)| *beside) {
            let way = tree.template(name).and_then(|other| path(other, number, &edges));
            faults.extend(way.map(|way| name.fault(told(tree, number, &way))));
        }
    }
    faults
}

/// The way goes from the template that is named to the one that names it.
fn told(tree: &Agreement, number: usize, way: &[usize]) -> String {
    let name = |number: usize| format!("`{}`", tree.templates[number].name.text);
    let again = name(number);
    let named = if way.len() == 1 { "itself".to_string() } else { name(way[0]) };
    let steps: Vec<String> = way.windows(2).map(|pair| format!("{} names {}", name(pair[0]), name(pair[1]))).collect();
    let and = if steps.is_empty() { "" } else { ", and " };
    let steps = steps.join(", ");
    format!(
        "{again} names {named} beside another clause{and}{steps}: the more units {again} declares, the more it needs"
    )
}

/// The templates that a clause names, and whether inside an `and` or `or`.
fn named(clause: &Clause, beside: bool) -> Vec<(&Name, bool)> {
    match &clause.form {
        Form::Fulfilment => Vec::new(),
        Form::Obligation(_, wait) => optional(&wait.then, beside),
        Form::Choice(wait, otherwise) => [optional(&wait.then, beside), optional(otherwise, beside)].concat(),
        Form::If(_, then, otherwise) => [named(then, beside), optional(otherwise, beside)].concat(),
        Form::And(left, right) | Form::Or(left, right) => [named(left, true), named(right, true)].concat(),
        Form::Instance(instance) => vec![(&instance.template, beside)],
    }
}

fn optional(clause: &Option<Box<Clause>>, beside: bool) -> Vec<(&Name, bool)> {
    clause.as_deref().map(|clause| named(clause, beside)).unwrap_or_default()
}
