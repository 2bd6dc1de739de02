//! The words for a state.

use super::fit::{Unit, Units};
use super::{bits, joined, margin, time, times, Context, Joined};
use crate::model::{Clause, Expression, Late};
use crate::print::{Printer, Sight, Spelling};
use crate::table::{Outcome, Residue, State, Waiting};

/// A clause of at most so many columns is shown, a longer one only mentioned.
const SHORT: usize = 160;

pub fn lines(state: &State, units: &Units, context: &Context) -> Result<Vec<String>, String> {
    let times = times(state, context.dated);
    let teller = Teller {
        units,
        dated: context.dated,
        printer: Printer { agreement: context.agreement, spelling: Spelling::Sugared },
    };
    match &state.outcome {
        Outcome::Fulfilled => Ok(vec![format!("fulfilled, {times}")]),
        Outcome::Breached(when, parties) => {
            let parties: Vec<_> = bits(*parties).map(|party| teller.printer.party(party)).collect();
            let when = time(*when, context.dated);
            Ok(vec![format!("breached at {when} by {}, {times}", parties.join(" and "))])
        }
        Outcome::Running(residue) => {
            let mut lines = vec![format!("running, {times}")];
            teller.residue(residue, 0, &mut lines)?;
            Ok(lines)
        }
    }
}

struct Teller<'t, 'a> {
    units: &'t Units<'a>,
    dated: bool,
    printer: Printer<'a>,
}

impl Teller<'_, '_> {
    fn residue(&self, residue: &Residue, indent: usize, lines: &mut Vec<String>) -> Result<(), String> {
        match joined(residue) {
            Joined::Waiting(waiting) => {
                let Some(unit) = self.units.get(&waiting.unit) else {
                    return Err(format!("unit {} has no clause", waiting.unit));
                };
                let told = self.waiting(waiting, unit)?;
                lines.extend(told.into_iter().map(|line| margin(indent) + &line));
                Ok(())
            }
            Joined::Sides(word, sides) => {
                lines.push(margin(indent) + word);
                sides.into_iter().try_for_each(|side| self.residue(side, indent + 1, lines))
            }
        }
    }

    /// Who owes what, or what may come; where, when, and what follows.
    fn waiting(&self, waiting: &Waiting, unit: &Unit) -> Result<Vec<String>, String> {
        let wait = unit.wait;
        let reading = self.printer.reading_name(wait);
        let first = waiting.activated + number(unit, &wait.after, "after", waiting.unit)?;
        let last = first + number(unit, &wait.within, "within", waiting.unit)?;
        // "an obligation is breached at the later of A and last"
        let late = time(last.max(waiting.activated), self.dated);
        let window = format!("  from {} to {}", time(first, self.dated), time(last, self.dated));
        let condition = unit.known.expression(&wait.condition);
        let mut lines = Vec::new();
        match &wait.late {
            Late::Breach(blame) => {
                let blame = unit.known.blame(*blame);
                lines.push(format!("{} owes {reading}", self.printer.blame(blame, &unit.sight)));
            }
            Late::Else(_) => lines.push(format!("{reading} may come")),
        }
        if condition != Expression::TRUE {
            lines.push(format!("  where {}", self.printer.expression(&condition, &unit.sight.inside(wait))));
        }
        lines.push(if first > last { window + ", which is no time at all" } else { window });
        lines.push(format!("  then {}", self.clause(&wait.then, unit, &unit.sight.after(wait))));
        lines.push(match &wait.late {
            Late::Breach(_) => format!("  else a breach at {late}"),
            Late::Else(otherwise) => format!("  else at {late}: {}", self.clause(otherwise, unit, &unit.sight)),
        });
        Ok(lines)
    }

    fn clause(&self, clause: &Clause, unit: &Unit, sight: &Sight) -> String {
        let line = self.printer.clause(&unit.known.clause(clause), sight);
        match line.chars().count() {
            0..=SHORT => line,
            _ => "more than fits here".to_string(),
        }
    }
}

/// The number that an `after` or `within` comes to.
fn number(unit: &Unit, expression: &Expression, word: &str, number: usize) -> Result<i64, String> {
    match unit.known.expression(expression) {
        Expression::Number(number) => Ok(i64::from(number)),
        _ => Err(format!("the `{word}` of unit {number} comes to no number: the agreement is not typed")),
    }
}
