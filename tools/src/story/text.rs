//! A story as lines for people.

use super::words::Words;
use super::{Ending, Event, Told};
use crate::pending::changes::Change;
use crate::pending::{Pending, Tree};
use crate::run::Verdict;
use givuntha::Breach;

/// The start or a reading, and under it what it did and what is ahead.
pub fn event(words: &Words, event: &Event) -> String {
    let mut lines = vec![format!("{}  {}", words.time(event.time.into()), event.what)];
    let mut under = |line: String| lines.push(format!("    {line}"));
    changes(words, event).into_iter().for_each(&mut under);
    early(words, event).into_iter().for_each(&mut under);
    verdict(words, event).into_iter().for_each(under);
    lines.join("\n") + "\n"
}

/// What a reading cost, as a line under it; the start has none.
pub fn cost(event: &Event) -> String {
    event.step.cost.map_or_else(String::new, |cost| format!("    cost    {cost}\n"))
}

fn changes(words: &Words, event: &Event) -> Vec<String> {
    match (&event.changes, &event.step.verdict) {
        (_, Verdict::Refused(_)) => Vec::new(),
        (Err(why), _) => vec![format!("what it changed cannot be told: {why}")],
        (Ok(changes), _) if changes.is_empty() => vec!["nothing changes".to_string()],
        (Ok(changes), _) => changes.iter().map(|change| changed(words, change)).collect(),
    }
}

/// Each window that a reading was too early for, where the library says that it was.
fn early(words: &Words, event: &Event) -> Vec<String> {
    let told = |one: &Pending| [words.too_early(one), format!("        {}", waiting(words, one))];
    match &event.early {
        _ if !event.step.early => Vec::new(),
        Ok(windows) => windows.iter().flat_map(told).collect(),
        Err(why) => vec![format!("too early: which window opens later cannot be told: {why}")],
    }
}

fn verdict(words: &Words, event: &Event) -> Vec<String> {
    match &event.step.verdict {
        Verdict::Live(None) => vec!["ahead   no breach, if only time goes on".to_string()],
        Verdict::Live(Some(breach)) => ahead(words, breach, &event.broken),
        Verdict::Done => vec!["FULFILLED".to_string()],
        Verdict::Breached(breach) => vec![format!("BREACHED {}", by_whom(words, breach))],
        Verdict::Refused(refusal) => vec![format!("REFUSED with {}: {refusal}", refusal.number())],
    }
}

fn changed(words: &Words, change: &Change) -> String {
    match change {
        Change::Met(pending) if pending.party().is_some() => format!("met     {}", told(words, pending, "owed")),
        Change::Met(pending) => format!("came    {}", told(words, pending, "")),
        Change::Lapsed(pending) => format!("lapsed  {}", due(words, pending)),
        Change::Missed(pending) => format!("missed  {}", due(words, pending)),
        Change::Dropped(pending) => format!("dropped {}", told(words, pending, "owed")),
        Change::Begun(pending) => format!("new     {}", waiting(words, pending)),
    }
}

/// A breach to come, and each duty behind it.
fn ahead(words: &Words, breach: &Breach, broken: &Told<Vec<Pending>>) -> Vec<String> {
    let what = format!("ahead   a breach {}, if only time goes on", by_whom(words, breach));
    match broken {
        Ok(broken) => {
            let duties = broken.iter().map(|pending| format!("        {}", told(words, pending, "would miss")));
            std::iter::once(what).chain(duties).collect()
        }
        Err(why) => vec![what, format!("        which duty it is cannot be told: {why}")],
    }
}

fn by_whom(words: &Words, breach: &Breach) -> String {
    format!("at {} by {}", words.moment(breach.time), words.parties(breach.parties).join(" and "))
}

/// The clause and its line.
fn told(words: &Words, pending: &Pending, owes: &str) -> String {
    format!("{}{}", words.duty(pending, owes), line(words, pending))
}

fn due(words: &Words, pending: &Pending) -> String {
    format!("{}, due by {}{}", words.duty(pending, "owed"), words.time(pending.last), line(words, pending))
}

fn waiting(words: &Words, pending: &Pending) -> String {
    let may_come = if pending.party().is_some() { "" } else { " may come" };
    let (duty, window) = (words.duty(pending, "owes"), words.window(pending));
    format!("{duty}{may_come}, {window}{}", line(words, pending))
}

fn line(words: &Words, pending: &Pending) -> String {
    words.line(pending).map_or_else(String::new, |line| format!(" (line {line})"))
}

/// How the run stands after the last reading. `readings` is their file, as messages name it.
pub fn ending(words: &Words, ending: &Ending, readings: &str) -> String {
    let lines = match ending {
        Ending::Fulfilled(event) => vec![format!("FULFILLED, {}", shown_by(words, event, readings))],
        Ending::Breached(breach, event) => breached(words, breach, event, readings),
        Ending::Running { waiting, last_moved } => running(words, waiting, *last_moved),
    };
    lines.join("\n") + "\n"
}

/// When it last moved, and what waits.
fn running(words: &Words, waiting: &Told<Tree>, last_moved: u32) -> Vec<String> {
    let told = format!("RUNNING, last moved at {}", words.time(last_moved.into()));
    match waiting {
        Ok(tree) => {
            let mut lines = vec![told];
            owed(words, tree, 1, &mut lines);
            lines
        }
        Err(why) => vec![format!("{told}; what is owed cannot be told: {why}")],
    }
}

/// Who broke which duty, where it is written, when it was due, and which reading showed it.
fn breached(words: &Words, breach: &Breach, event: &Event, readings: &str) -> Vec<String> {
    let mut lines = vec![format!("BREACHED {}", by_whom(words, breach))];
    match &event.broken {
        Ok(broken) => broken.iter().for_each(|pending| {
            lines.push(format!("  {}", words.duty(pending, "owed")));
            lines.push(format!("    due {}", words.window(pending)));
            if let Some(place) = words.source.place(pending.wait.place) {
                lines.push(format!("    written at {}:{place}", words.source.name));
            }
        }),
        Err(why) => lines.push(format!("  which duty was broken cannot be told: {why}")),
    }
    lines.push(format!("  {}", shown_by(words, event, readings)));
    lines
}

fn shown_by(words: &Words, event: &Event, readings: &str) -> String {
    let reading = format!("shown by {} {}", words.time(event.time.into()), event.what);
    match event.line {
        Some(line) => format!("{reading} at {readings}:{line}"),
        None => reading,
    }
}

/// What waits, with the sides of `and` and `or` under a word for them.
fn owed(words: &Words, tree: &Tree, indent: usize, lines: &mut Vec<String>) {
    let margin = "  ".repeat(indent);
    let (word, sides) = match tree {
        Tree::Fulfilled => return,
        Tree::Waits(pending) => return lines.push(margin + &waiting(words, pending)),
        Tree::And(..) => ("all of", tree.sides()),
        Tree::Or(..) => ("one of", tree.sides()),
    };
    lines.push(margin + word);
    sides.into_iter().for_each(|side| owed(words, side, indent + 1, lines));
}
