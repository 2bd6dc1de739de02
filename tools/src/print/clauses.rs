//! Clauses on one line.

use super::expressions::value_name;
use super::parentheses::{must_close, side_closes, uses, wait_closes};
use super::{angles, Printer, Sight};
use crate::model::{Blame, Clause, Expression, Instance, Late, Wait};

impl Printer<'_> {
    pub fn clause(&self, clause: &Clause, sight: &Sight) -> String {
        match clause {
            Clause::Fulfilled => "fulfilment".to_string(),
            Clause::Wait(wait) => self.wait(wait, sight),
            Clause::If(condition, then, otherwise) => {
                let condition = self.expression(condition, sight);
                let then = enclosed(self.clause(then, sight), must_close(then, otherwise));
                format!("if {condition} then {then}{}", self.optional("else", otherwise, false, sight))
            }
            Clause::And(left, right) | Clause::Or(left, right) => {
                let left = enclosed(self.clause(left, sight), side_closes(left, clause, true));
                let right = enclosed(self.clause(right, sight), side_closes(right, clause, false));
                format!("{left} {} {right}", Printer::joining(clause))
            }
            Clause::Instance(instance) => {
                let (name, arguments) = (self.template_name(instance), self.arguments(instance, sight));
                format!("{name}({}){}", arguments.join(", "), self.blames(instance, sight))
            }
        }
    }

    fn wait(&self, wait: &Wait, sight: &Sight) -> String {
        let mut line = self.reading(wait, sight);
        if wait.condition != Expression::TRUE {
            line += &format!(" where {}", self.expression(&wait.condition, &sight.inside(wait)));
        }
        line += &format!(" {}", self.deadline(wait, sight));
        line += &self.optional("then", &wait.then, wait_closes(wait), &sight.after(wait));
        match &wait.late {
            Late::Breach(_) => line,
            Late::Else(otherwise) => line + &self.optional("else", otherwise, false, sight),
        }
    }

    /// A word and a clause, left out where it is fulfilment.
    fn optional(&self, word: &str, clause: &Clause, closes: bool, sight: &Sight) -> String {
        match clause {
            Clause::Fulfilled => String::new(),
            _ => format!(" {word} {}", enclosed(self.clause(clause, sight), closes)),
        }
    }

    /// The word that joins the sides of `and` or `or`.
    pub fn joining(clause: &Clause) -> &'static str {
        if matches!(clause, Clause::And(..)) {
            "and"
        } else {
            "or"
        }
    }

    /// The blame or `if`, and the reading with its values.
    pub fn reading(&self, wait: &Wait, sight: &Sight) -> String {
        let begin = match wait.late {
            Late::Breach(blame) => format!("<{}>", self.blame(blame, sight)),
            Late::Else(_) => "if".to_string(),
        };
        format!("{begin} {}", self.reading_name(wait))
    }

    /// The reading with its values.
    pub fn reading_name(&self, wait: &Wait) -> String {
        let bound: Vec<&str> = wait.bound.iter().map(|value| value.name.as_str()).collect();
        let reading = self.agreement.readings.get(wait.reading);
        let name = reading.map_or_else(|| format!("R{}", wait.reading + 1), |reading| reading.name.clone());
        format!("{name}({})", bound.join(", "))
    }

    pub fn deadline(&self, wait: &Wait, sight: &Sight) -> String {
        let after = match &wait.after {
            Expression::Number(0) => String::new(),
            after => format!("after {} ", self.sum(after, sight)),
        };
        let within = match &wait.within {
            Expression::Number(0) if after.is_empty() => "immediately".to_string(),
            within => format!("within {}", self.sum(within, sight)),
        };
        let remaining = sight.values.len() + wait.bound.len();
        match uses(&wait.then, remaining) {
            true => format!("due {after}{within} remaining {}", value_name(remaining, &sight.after(wait))),
            false => format!("due {after}{within}"),
        }
    }

    pub fn template_name(&self, instance: &Instance) -> String {
        let template = self.agreement.templates.get(instance.template);
        template.map_or_else(|| format!("T{}", instance.template), |template| template.head.name.clone())
    }

    pub fn arguments(&self, instance: &Instance, sight: &Sight) -> Vec<String> {
        instance.values.iter().map(|value| self.expression(value, sight)).collect()
    }

    pub fn blames(&self, instance: &Instance, sight: &Sight) -> String {
        let blames: Vec<_> = instance.blames.iter().map(|blame| self.blame(*blame, sight)).collect();
        angles(&blames)
    }

    pub fn blame(&self, blame: Blame, sight: &Sight) -> String {
        match blame {
            Blame::Party(party) => self.party(party),
            Blame::Parameter(n) => sight.parameters.get(n).cloned().unwrap_or_else(|| format!("p{n}")),
        }
    }
}

fn enclosed(line: String, closes: bool) -> String {
    if closes {
        format!("({line})")
    } else {
        line
    }
}
