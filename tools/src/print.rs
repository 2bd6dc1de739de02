//! An agreement as text that reads back as the same record.

mod clauses;
mod expressions;
mod layout;
mod length;
mod parentheses;

use crate::model::{Agreement, Head, Value, Wait};
use layout::Layout;

/// Lines are kept to this many columns where parts can be put on lines of their own.
const WIDTH: usize = 100;

/// How expressions are spelt.
#[derive(Clone, Copy, PartialEq, Eq)]
pub enum Spelling {
    /// Operator by operator, so that the text reads back as the same record.
    Exact,
    /// With CSL's sugar and units of time, for reading only.
    Sugared,
}

/// Prints with the names of an agreement.
pub struct Printer<'a> {
    pub agreement: &'a Agreement,
    pub spelling: Spelling,
}

/// The names in sight at a clause.
#[derive(Clone, Default)]
pub struct Sight {
    pub values: Vec<Value>,
    pub parameters: Vec<String>,
}

impl Sight {
    pub fn of_template(head: &Head) -> Sight {
        Sight { values: head.values.clone(), parameters: head.parameters.clone() }
    }

    /// What `where` sees.
    pub fn inside(&self, wait: &Wait) -> Sight {
        self.with(&wait.bound)
    }

    /// What `then` sees.
    pub fn after(&self, wait: &Wait) -> Sight {
        self.inside(wait).with(std::slice::from_ref(&wait.remaining))
    }

    /// The same with further values.
    fn with(&self, bound: &[Value]) -> Sight {
        let mut sight = self.clone();
        sight.values.extend_from_slice(bound);
        sight
    }
}

/// The whole agreement, a line or more to each declaration and clause.
pub fn print(agreement: &Agreement) -> String {
    let printer = Printer { agreement, spelling: Spelling::Exact };
    let mut layout = Layout { printer: &printer, lines: Vec::new() };
    layout.push(0, &format!("parties {}", agreement.parties.join(", ")));
    layout.push(0, "readings");
    for reading in &agreement.readings {
        layout.push(1, &format!("{}({})", reading.name, parameters(&reading.values)));
    }
    if !agreement.templates.is_empty() {
        layout.push(0, "letrec");
    }
    for template in &agreement.templates {
        layout.push(1, &printer.head(&template.head));
        layout.clause(&template.body, &Sight::of_template(&template.head), 2);
    }
    layout.push(0, "in");
    layout.clause(&agreement.main, &Sight::default(), 1);
    layout.push(0, &format!("starting {}", agreement.start));
    layout.lines.join("\n") + "\n"
}

impl Printer<'_> {
    fn head(&self, head: &Head) -> String {
        let is_declared = |party: &usize| head.declared >> party & 1 == 1;
        let declared: Vec<_> =
            (0..self.agreement.parties.len()).filter(is_declared).map(|party| self.party(party)).collect();
        let declares = if declared.is_empty() { String::new() } else { format!(" declares {}", declared.join(", ")) };
        let sized = head.units.map(|units| format!(" sized {units}")).unwrap_or_default();
        format!("{}({}){}{declares}{sized} =", head.name, parameters(&head.values), angles(&head.parameters))
    }
}

fn parameters(values: &[Value]) -> String {
    let parameter = |value: &Value| format!("{}: {}", value.name, value.value_type.word());
    values.iter().map(parameter).collect::<Vec<_>>().join(", ")
}

/// Parties in angle brackets, or nothing.
fn angles(parties: &[String]) -> String {
    match parties {
        [] => String::new(),
        _ => format!("<{}>", parties.join(", ")),
    }
}
