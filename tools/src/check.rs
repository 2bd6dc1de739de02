//! Whether a text is an agreement that the monitor accepts; and if not, what is wrong, where, in the text's own names.
//!
//! The verdict is the proved library's alone: it is asked about the record. The faults only explain it. Should the two
//! ever differ, that is said.

mod guards;
pub(crate) mod needs;
mod orders;
mod parties;
mod sight;
mod sizes;
mod typing;
mod widths;
pub(crate) mod words;

use crate::assemble::Assembled;
use crate::fault::{utf8, Fault};
use crate::parse::parse_all;
use crate::resolve::{in_order, resolve};
use crate::syntax::Agreement;
use givuntha::{Parties, Refusal};

/// An agreement that the proved check accepts.
pub struct Accepted {
    pub assembled: Assembled,
    /// Those whom it can blame.
    pub parties: Parties,
    /// The units that its main clause needs, if it is sized.
    pub need: Option<usize>,
}

/// A text that is no accepted agreement.
#[derive(Debug)]
pub struct Refused {
    /// In the order of the text.
    pub faults: Vec<Fault>,
    pub verdict: Verdict,
}

/// What the proved check said of the record.
#[derive(Clone, Copy, Debug, PartialEq, Eq)]
pub enum Verdict {
    /// It refuses, and the lowest refusal among the faults is the same; of those that it makes, 15 is asked last.
    Refused(Refusal),
    /// It was not asked: the text stands for no record.
    NoRecord,
    /// It said another thing than the faults do. This is a mistake of this tool.
    Disagreement(Result<Parties, Refusal>),
}

/// Checks the text of an agreement.
pub fn check(text: &[u8]) -> Result<Accepted, Refused> {
    let (text, tree) = parsed(text)?;
    check_tree(text, &tree)
}

/// The text and its tree, or what is wrong with its grammar.
pub fn parsed(text: &[u8]) -> Result<(&str, Agreement), Refused> {
    let no_record = |faults| Refused { faults, verdict: Verdict::NoRecord };
    let text = utf8(text).map_err(|fault| no_record(vec![fault]))?;
    Ok((text, parse_all(text).map_err(no_record)?))
}

/// Checks the tree of a text.
pub fn check_tree(text: &str, tree: &Agreement) -> Result<Accepted, Refused> {
    let resolved = resolve(tree);
    let mut faults = resolved.faults;
    if resolved.bounded {
        faults.extend(explained(text, tree));
        in_order(&mut faults);
    }
    match resolved.agreement {
        Some(agreement) => judged(Assembled::of(agreement, tree.dated), tree, faults),
        None => Err(Refused { faults, verdict: Verdict::NoRecord }),
    }
}

/// Asks the proved check.
fn judged(assembled: Assembled, tree: &Agreement, faults: Vec<Fault>) -> Result<Accepted, Refused> {
    let answer = givuntha::check(&assembled.bytes);
    let lowest = faults.iter().filter_map(|fault| fault.refusal).min();
    match answer {
        Ok(parties) if lowest.is_none() => Ok(Accepted { assembled, parties, need: needs::main_need(tree) }),
        Err(refusal) if lowest == Some(refusal.number()) => Err(Refused { faults, verdict: Verdict::Refused(refusal) }),
        _ => Err(Refused { faults, verdict: Verdict::Disagreement(answer) }),
    }
}

/// The faults of typing, guards, widths and sizes. What is wrong with a name is passed over: `resolve` says it.
fn explained(text: &str, tree: &Agreement) -> Vec<Fault> {
    let mut faults = typing::faults(text, tree);
    faults.extend(parties::faults(tree));
    faults.extend(guards::faults(tree));
    faults.extend(widths::faults(tree));
    faults.extend(sizes::faults(tree));
    faults
}
