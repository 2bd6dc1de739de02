//! The words for a refused and for an accepted text.

use super::{Accepted, Refused, Verdict};
use crate::fault::{unmarked, Fault};
use crate::limits;
use crate::shown::{excerpt, printable};
use givuntha::{Parties, Refusal};

/// No more faults than this are told.
const MOST: usize = 100;

impl Accepted {
    /// One line for people.
    pub fn told(&self, file: &str) -> String {
        let parties = self.parties.iter().map(|party| match self.assembled.agreement.parties.get(usize::from(party)) {
            Some(name) => name.clone(),
            None => format!("party {party}"),
        });
        let parties: Vec<String> = parties.collect();
        let blamed = if parties.is_empty() { "nobody".to_string() } else { parties.join(", ") };
        let bytes = self.assembled.bytes.len();
        let sized = self.need.map(|need| format!("; sized, it needs {need} of {} units", limits::UNITS));
        let sized = sized.unwrap_or_default();
        format!("{}: accepted; {bytes} bytes; it can blame {blamed}{sized}\n", printable(file))
    }
}

impl Refused {
    /// Each fault with its place, its line and what is wrong; then the verdict.
    pub fn told(&self, file: &str, text: &[u8]) -> String {
        told(file, text, &self.faults, &self.verdict_told())
    }

    fn verdict_told(&self) -> String {
        match self.verdict {
            Verdict::Refused(refusal) => format!("refused with {}: {refusal}", refusal.number()),
            Verdict::NoRecord => "no record can be written of this text".to_string(),
            Verdict::Disagreement(answer) => {
                let lowest = self.faults.iter().filter_map(|fault| fault.refusal).min();
                let explained = lowest.map_or("nothing wrong".to_string(), |number| format!("refusal {number}"));
                let says = answer_told(answer);
                format!("a mistake of this tool: it found {explained}, and the monitor's check {says}, which holds")
            }
        }
    }
}

/// Each fault with its place, its line and what is wrong; then what they come to.
pub fn told(file: &str, text: &[u8], faults: &[Fault], verdict: &str) -> String {
    let (file, text) = (printable(file), String::from_utf8_lossy(unmarked(text)));
    let mut lines = Vec::new();
    for fault in faults.iter().take(MOST) {
        let refusal = fault.refusal.map(|number| format!(" (refusal {number})")).unwrap_or_default();
        lines.push(format!("{file}:{fault}{refusal}"));
        lines.push(excerpt(&text, fault.at, fault.length));
    }
    if let Some(more) = faults.len().checked_sub(MOST).filter(|more| *more > 0) {
        lines.push(format!("{file}: {more} more mistakes are not told"));
    }
    lines.push(format!("{file}: {verdict}"));
    lines.join("\n")
}

fn answer_told(answer: Result<Parties, Refusal>) -> String {
    match answer {
        Ok(_) => "accepts the agreement".to_string(),
        Err(refusal) => format!("refuses it with {}: {refusal}", refusal.number()),
    }
}

/// Names as a list: `a`, `b` and `c`.
pub fn listed(names: &[String]) -> String {
    match names {
        [] => String::new(),
        [one] => one.clone(),
        [first @ .., last] => format!("{} and {last}", first.join(", ")),
    }
}
