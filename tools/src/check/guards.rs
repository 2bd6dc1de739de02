//! Guards: refusal 4. "In template n's body an unguarded instance names only a template below n."

use super::orders::{path, whole_order};
use crate::fault::Fault;
use crate::syntax::{Agreement, Clause, Form, Name};

/// The number of this refusal.
const REFUSAL: u32 = 4;

/// Every unguarded instance of its own or a later template.
pub fn faults(tree: &Agreement) -> Vec<Fault> {
    let named = |clause: &Clause| unguarded(clause).into_iter().filter_map(|name| tree.template(name)).collect();
    let edges: Vec<Vec<usize>> = tree.templates.iter().map(|template| named(&template.body)).collect();
    let guards = Guards { tree, order: whole_order(&edges), edges };
    let mut faults = Vec::new();
    for (n, template) in tree.templates.iter().enumerate() {
        for name in unguarded(&template.body) {
            if let Some(m) = tree.template(name).filter(|m| *m >= n) {
                faults.push(name.fault(guards.told(n, m)).refused(REFUSAL));
            }
        }
    }
    faults
}

/// The templates that a clause names unguarded. "A position is guarded if it lies in some `then` of kind 17 or 18".
fn unguarded(clause: &Clause) -> Vec<&Name> {
    match &clause.form {
        Form::Fulfilment | Form::Obligation(..) => Vec::new(),
        Form::Choice(_, otherwise) => otherwise.as_deref().map(unguarded).unwrap_or_default(),
        Form::If(_, left, right) => {
            let right = right.as_deref().map(unguarded).unwrap_or_default();
            [unguarded(left), right].concat()
        }
        Form::And(left, right) | Form::Or(left, right) => [unguarded(left), unguarded(right)].concat(),
        Form::Instance(instance) => vec![&instance.template],
    }
}

struct Guards<'t> {
    tree: &'t Agreement,
    /// The templates that each names unguarded.
    edges: Vec<Vec<usize>>,
    /// An order of all that would do.
    order: Option<Vec<usize>>,
}

impl Guards<'_> {
    fn name(&self, template: usize) -> String {
        format!("`{}`", self.tree.templates[template].name.text)
    }

    fn told(&self, naming: usize, named: usize) -> String {
        let rule = "a template names itself or a later one only inside a `then`";
        let (one, other) = (self.name(naming), self.name(named));
        if naming == named {
            return format!("{one} names itself outside every `then`: {rule}");
        }
        let what = format!("{one} names {other}, a later template, outside every `then`");
        if let Some(path) = path(named, naming, &self.edges) {
            let step = |pair: &[usize]| format!("{} names {}", self.name(pair[0]), self.name(pair[1]));
            let steps: Vec<String> = path.windows(2).map(step).collect();
            return format!("{what}, and {}: {rule}, and no order of these would do", steps.join(", "));
        }
        match &self.order {
            Some(order) => {
                let order: Vec<String> = order.iter().map(|template| self.name(*template)).collect();
                format!("{what}: {rule}; the order {} would do", order.join(", "))
            }
            None => format!("{what}: {rule}; {other} before {one} would do"),
        }
    }
}
