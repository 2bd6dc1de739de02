//! Widths: refusal 5. "The main clause, each template body and each `then` has width at most 256."

use crate::fault::Fault;
use crate::limits;
use crate::syntax::{Agreement, Clause, Form, Wait};

/// The number of this refusal.
const REFUSAL: u32 = 5;

/// Every width that is passed. A template that is too wide counts for nothing where it is named, so that its fault is
/// told once.
pub fn faults(tree: &Agreement) -> Vec<Fault> {
    let mut widths = Widths { tree, bodies: Vec::new(), faults: Vec::new() };
    for template in &tree.templates {
        let width = widths.of(&template.body);
        let what = format!("the body of `{}`", template.name.text);
        let over = told(&what, width).map(|what| template.name.fault(what).refused(REFUSAL));
        widths.bodies.push(if over.is_some() { 0 } else { width });
        widths.faults.extend(over);
    }
    let main = told("the main clause", widths.of(&tree.main));
    widths.faults.extend(main.map(|what| Fault::new(tree.main.from, what).refused(REFUSAL)));
    tree.templates.iter().for_each(|template| widths.thens(&template.body));
    widths.thens(&tree.main);
    widths.faults
}

fn told(what: &str, width: usize) -> Option<String> {
    let over = width.checked_sub(limits::WIDTH).filter(|over| *over > 0)?;
    Some(format!(
        "{what} has a width of {width}, {over} over the {} there may be; \
         each clause outside a further `then` counts 1, an instance its template's body too",
        limits::WIDTH
    ))
}

struct Widths<'t> {
    tree: &'t Agreement,
    /// The widths of the bodies so far.
    bodies: Vec<usize>,
    faults: Vec<Fault>,
}

impl Widths<'_> {
    /// "Width: 1 for kinds 16 and 17; 1 and the else's for 18; 1 and both clauses' for 19, 20, 21; 1 and the body's
    /// for 22." What is left out is fulfilled.
    fn of(&self, clause: &Clause) -> usize {
        let optional = |clause: &Option<Box<Clause>>| clause.as_deref().map_or(1, |clause| self.of(clause));
        match &clause.form {
            Form::Fulfilment | Form::Obligation(..) => 1,
            Form::Choice(_, otherwise) => 1 + optional(otherwise),
            Form::If(_, then, otherwise) => 1 + self.of(then) + optional(otherwise),
            Form::And(left, right) | Form::Or(left, right) => 1 + self.of(left) + self.of(right),
            Form::Instance(instance) => {
                let known = self.tree.template(&instance.template);
                // A later template's width is not known yet: that it is named here is refusal 4.
                1 + known.and_then(|number| self.bodies.get(number)).unwrap_or(&0)
            }
        }
    }

    /// The width of every `then` in a clause.
    fn thens(&mut self, clause: &Clause) {
        match &clause.form {
            Form::Fulfilment | Form::Instance(_) => {}
            Form::Obligation(_, wait) => self.then(wait),
            Form::Choice(wait, otherwise) => {
                self.then(wait);
                self.optional(otherwise);
            }
            Form::If(_, then, otherwise) => {
                self.thens(then);
                self.optional(otherwise);
            }
            Form::And(left, right) | Form::Or(left, right) => {
                self.thens(left);
                self.thens(right);
            }
        }
    }

    fn optional(&mut self, clause: &Option<Box<Clause>>) {
        if let Some(clause) = clause {
            self.thens(clause);
        }
    }

    fn then(&mut self, wait: &Wait) {
        let Some(then) = wait.then.as_deref() else { return };
        let what = told(&format!("the `then` of this `{}`", wait.reading.text), self.of(then));
        self.faults.extend(what.map(|what| wait.reading.fault(what).refused(REFUSAL)));
        self.thens(then);
    }
}
