//! A table in words.

pub(crate) mod fit;
mod words;

use crate::dates;
use crate::model::Agreement;
use crate::table::{self, Outcome, Residue, State, Waiting};

/// The agreement that a table belongs to.
pub struct Context<'a> {
    pub agreement: &'a Agreement,
    /// Whether minutes are shown as dates too.
    pub dated: bool,
}

/// Tells a table, or says in words why it cannot be right. Without its agreement only the layout can
/// be told.
pub fn explain(table: &[u8], context: Option<Context>) -> Result<String, String> {
    let state = table::read(table)?;
    let lines = match context {
        Some(context) => words::lines(&state, &fit::fit(&state, context.agreement)?, &context)?,
        None => plain_lines(&state),
    };
    Ok(lines.join("\n") + "\n")
}

/// What can be said without the agreement.
fn plain_lines(state: &State) -> Vec<String> {
    let times = times(state, false);
    match &state.outcome {
        Outcome::Fulfilled => vec![format!("fulfilled, {times}")],
        Outcome::Breached(time, parties) => {
            let parties: Vec<_> = bits(*parties).map(|party| format!("P{party}")).collect();
            vec![format!("breached at {time} by {}, {times}", parties.join(" and "))]
        }
        Outcome::Running(residue) => {
            let mut lines = vec![format!("running, {times}")];
            plain_residue(residue, 0, &mut lines);
            lines
        }
    }
}

/// When it was last read, and when it last moved.
fn times(state: &State, dated: bool) -> String {
    format!("last reading at {}, last moved at {}", time(state.last, dated), time(state.moved, dated))
}

fn plain_residue(residue: &Residue, indent: usize, lines: &mut Vec<String>) {
    match joined(residue) {
        Joined::Waiting(waiting) => {
            let what = if waiting.sort == 17 { "an obligation" } else { "a choice" };
            let line = format!("{what} at byte {} of the agreement, since {}", waiting.place, waiting.activated);
            lines.push(margin(indent) + &line);
        }
        Joined::Sides(word, sides) => {
            lines.push(margin(indent) + word);
            sides.into_iter().for_each(|side| plain_residue(side, indent + 1, lines));
        }
    }
}

/// A residue with joins of one kind taken together.
enum Joined<'r> {
    Waiting(&'r Waiting),
    Sides(&'static str, Vec<&'r Residue>),
}

fn joined(residue: &Residue) -> Joined<'_> {
    match residue {
        Residue::Waiting(waiting) => Joined::Waiting(waiting),
        Residue::And(..) => {
            let mut sides = Vec::new();
            gather(residue, true, &mut sides);
            Joined::Sides(if sides.len() == 2 { "both of" } else { "all of" }, sides)
        }
        Residue::Or(..) => {
            let mut sides = Vec::new();
            gather(residue, false, &mut sides);
            Joined::Sides("one of", sides)
        }
    }
}

fn gather<'r>(residue: &'r Residue, and: bool, sides: &mut Vec<&'r Residue>) {
    match residue {
        Residue::And(left, right) if and => {
            gather(left, and, sides);
            gather(right, and, sides);
        }
        Residue::Or(left, right) if !and => {
            gather(left, and, sides);
            gather(right, and, sides);
        }
        side => sides.push(side),
    }
}

fn margin(indent: usize) -> String {
    "  ".repeat(indent)
}

/// The parties of a set.
fn bits(parties: u32) -> impl Iterator<Item = usize> {
    (0..32).filter(move |party| parties >> party & 1 == 1)
}

/// A minute, with its date beside it if dates are used.
fn time(minutes: i64, dated: bool) -> String {
    match dated {
        true => format!("{minutes} ({})", dates::date(minutes)),
        false => minutes.to_string(),
    }
}
