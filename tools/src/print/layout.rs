//! Clauses over lines, with their parts indented.

use super::length::is_long;
use super::parentheses::{must_close, side_closes, wait_closes};
use super::{Printer, Sight, WIDTH};
use crate::model::{Clause, Expression, Instance, Late, Wait};

/// Lines in the making.
pub struct Layout<'p> {
    pub printer: &'p Printer<'p>,
    pub lines: Vec<String>,
}

impl Layout<'_> {
    pub fn push(&mut self, indent: usize, line: &str) {
        self.lines.push(format!("{}{line}", margin(indent)));
    }

    /// Adds a line, if it is short enough.
    fn fits(&mut self, indent: usize, line: &str) -> bool {
        let fits = margin(indent).len() + line.chars().count() <= WIDTH;
        if fits {
            self.push(indent, line);
        }
        fits
    }

    /// A clause: on one line where it fits.
    pub fn clause(&mut self, clause: &Clause, sight: &Sight, indent: usize) {
        if !is_long(clause) && self.fits(indent, &self.printer.clause(clause, sight)) {
            return;
        }
        match clause {
            Clause::Fulfilled => self.push(indent, &self.printer.clause(clause, sight)),
            Clause::Wait(wait) => self.wait(wait, sight, indent),
            Clause::If(condition, then, otherwise) => {
                self.condition("if", condition, sight, indent);
                self.part("then", then, must_close(then, otherwise), sight, indent);
                self.optional("else", otherwise, false, sight, indent);
            }
            Clause::And(left, right) | Clause::Or(left, right) => {
                self.side(left, side_closes(left, clause, true), sight, indent);
                self.push(indent, Printer::joining(clause));
                self.side(right, side_closes(right, clause, false), sight, indent);
            }
            Clause::Instance(instance) => self.instance(instance, sight, indent),
        }
    }

    fn wait(&mut self, wait: &Wait, sight: &Sight, indent: usize) {
        self.push(indent, &self.printer.reading(wait, sight));
        if wait.condition != Expression::TRUE {
            self.condition("where", &wait.condition, &sight.inside(wait), indent + 1);
        }
        self.push(indent + 1, &self.printer.deadline(wait, sight));
        self.optional("then", &wait.then, wait_closes(wait), &sight.after(wait), indent);
        if let Late::Else(otherwise) = &wait.late {
            self.optional("else", otherwise, false, sight, indent);
        }
    }

    /// A condition after a word: on its line if it fits, else an operand of `&&` to a line.
    fn condition(&mut self, word: &str, condition: &Expression, sight: &Sight, indent: usize) {
        if self.fits(indent, &format!("{word} {}", self.printer.expression(condition, sight))) {
            return;
        }
        let mut conjuncts = self.printer.conjuncts(condition, sight).into_iter();
        self.push(indent, &format!("{word} {}", conjuncts.next().unwrap_or_default()));
        conjuncts.for_each(|conjunct| self.push(indent + 1, &format!("&& {conjunct}")));
    }

    /// A word on its line, and a clause below it.
    fn part(&mut self, word: &str, clause: &Clause, closes: bool, sight: &Sight, indent: usize) {
        let open = if closes { " (" } else { "" };
        self.push(indent, &format!("{word}{open}"));
        self.clause(clause, sight, indent + 1);
        if closes {
            self.push(indent, ")");
        }
    }

    /// The same, left out where the clause is fulfilment.
    fn optional(&mut self, word: &str, clause: &Clause, closes: bool, sight: &Sight, indent: usize) {
        if *clause != Clause::Fulfilled {
            self.part(word, clause, closes, sight, indent);
        }
    }

    fn side(&mut self, side: &Clause, closes: bool, sight: &Sight, indent: usize) {
        if !closes {
            return self.clause(side, sight, indent);
        }
        self.push(indent, "(");
        self.clause(side, sight, indent + 1);
        self.push(indent, ")");
    }

    /// An argument to a line.
    fn instance(&mut self, instance: &Instance, sight: &Sight, indent: usize) {
        self.push(indent, &format!("{}(", self.printer.template_name(instance)));
        let arguments = self.printer.arguments(instance, sight);
        for (n, argument) in (1..).zip(&arguments) {
            let comma = if n < arguments.len() { "," } else { "" };
            self.push(indent + 1, &format!("{argument}{comma}"));
        }
        self.push(indent, &format!("){}", self.printer.blames(instance, sight)));
    }
}

fn margin(indent: usize) -> String {
    "  ".repeat(indent)
}
