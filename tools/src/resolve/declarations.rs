//! The declarations: parties, readings and the heads of templates.

use super::meter::Meter;
use super::scope::unknown;
use super::Resolver;
use crate::fault::Fault;
use crate::limits;
use crate::model::{Head, Reading, Value};
use crate::syntax::{self, Agreement, Name, Parameter, Template, Units};
use std::collections::BTreeSet;

impl Resolver {
    /// The declarations, which clauses may refer to before they come.
    pub fn new(tree: &Agreement) -> Resolver {
        let mut resolver =
            Resolver { readings: Vec::new(), heads: Vec::new(), meter: Meter::default(), faults: Vec::new() };
        resolver.room(tree.main.from, 1, 7);
        resolver.limited(&tree.parties, limits::PARTIES, "parties", |party| party);
        resolver.limited(&tree.readings, limits::READINGS, "readings", |reading| &reading.name);
        resolver.limited(&tree.templates, limits::TEMPLATES, "templates", |template| &template.name);
        resolver.distinct(&tree.parties, "party");
        resolver.distinct(tree.readings.iter().map(|reading| &reading.name), "reading");
        resolver.distinct(tree.templates.iter().map(|template| &template.name), "template");
        if tree.readings.is_empty() {
            let fault = Fault::new(tree.main.from, "no reading is declared: at least 1 is needed");
            resolver.faults.push(fault.refused(2));
        }
        resolver.readings = tree.readings.iter().map(|reading| resolver.reading_type(reading)).collect();
        resolver.heads = tree.templates.iter().map(|template| resolver.head(template, tree)).collect();
        resolver.of_one_kind(&tree.templates);
        resolver
    }

    fn reading_type(&mut self, tree: &syntax::Reading) -> Reading {
        if tree.name.text == "mark" {
            self.faults.push(tree.name.fault("`mark` is the name of the time mark, type 0"));
        }
        self.limited(&tree.values, limits::READING_VALUES, "values of a reading", |value| &value.name);
        self.distinct_values(&tree.values, &[]);
        self.room(tree.name.at, 2, 1 + tree.values.len());
        Reading { name: tree.name.text.clone(), values: values(&tree.values) }
    }

    fn head(&mut self, tree: &Template, agreement: &Agreement) -> Head {
        self.limited(&tree.values, limits::TEMPLATE_VALUES, "values of a template", |value| &value.name);
        self.limited(&tree.parameters, limits::PARAMETERS, "party parameters", |name| name);
        self.distinct_values(&tree.values, &tree.parameters);
        self.room(tree.name.at, 2, 1 + tree.values.len() + 3 + usize::from(tree.units.is_some()));
        let declared = self.declared(tree, agreement);
        let parameters = tree.parameters.iter().map(|name| name.text.clone()).collect();
        let units = tree.units.as_ref().map(|units| self.units(units));
        Head { name: tree.name.text.clone(), values: values(&tree.values), parameters, declared, units }
    }

    fn units(&mut self, units: &Units) -> u8 {
        if usize::from(units.byte()) > limits::UNITS {
            let what = format!("too many units: {}, at most {}", units.number, limits::UNITS);
            self.faults.push(units.fault(what).refused(2));
        }
        units.byte()
    }

    /// "Mixing kinds 3 and 4 [..] is refusal 2."
    fn of_one_kind(&mut self, templates: &[Template]) {
        let Some(sized) = templates.iter().find(|template| template.units.is_some()) else { return };
        for template in templates.iter().filter(|template| template.units.is_none()) {
            let (one, other) = (&sized.name.text, &template.name.text);
            let what = format!("`{other}` declares no units, and `{one}` does: all templates are sized or none is");
            self.faults.push(template.name.fault(what).refused(2));
        }
    }

    /// The declared parties by bit.
    fn declared(&mut self, tree: &Template, agreement: &Agreement) -> u16 {
        let mut declared = 0;
        self.distinct(&tree.declared, "party");
        for party in &tree.declared {
            match agreement.parties.iter().position(|known| known.text == party.text) {
                // A party beyond the limit has no bit; that there are too many is said elsewhere.
                Some(known) => declared |= u32::try_from(known).ok().and_then(|n| 1_u16.checked_shl(n)).unwrap_or(0),
                None => {
                    let known = agreement.parties.iter().map(|party| party.text.as_str());
                    self.faults.push(unknown("party", party, known));
                }
            }
        }
        declared
    }

    /// At most so many.
    fn limited<T>(&mut self, items: &[T], most: usize, what: &str, name: impl Fn(&T) -> &Name) {
        if let Some(item) = items.get(most) {
            let what = format!("too many {what}: {}, at most {most}", items.len());
            self.faults.push(name(item).fault(what).refused(2));
        }
    }

    /// Names that others refer to: each once, and no `_`.
    pub fn distinct<'n>(&mut self, names: impl IntoIterator<Item = &'n Name>, what: &str) {
        let mut known: BTreeSet<&str> = BTreeSet::new();
        for name in names {
            if name.text == "_" {
                self.faults.push(name.fault(format!("`_` names no {what}")));
            } else if !known.insert(&name.text) {
                self.faults.push(name.fault(format!("the {what} `{}` is named twice", name.text)));
            }
        }
    }

    /// The names bound at one place: each once, but for `_`.
    fn distinct_values(&mut self, values: &[Parameter], parameters: &[Name]) {
        let names = values.iter().map(|value| &value.name).chain(parameters);
        self.distinct(names.filter(|name| name.text != "_"), "value");
    }
}

fn values(parameters: &[Parameter]) -> Vec<Value> {
    let value = |tree: &Parameter| Value { name: tree.name.text.clone(), value_type: tree.value_type };
    parameters.iter().map(value).collect()
}
