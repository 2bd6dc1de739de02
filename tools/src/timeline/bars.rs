//! The windows of a run and what became of them.

use super::label::label;
use crate::pending::changes::Change;
use crate::pending::Pending;
use crate::run::Verdict;
use crate::story::words::Words;
use crate::story::Event;

/// A window.
#[derive(Clone)]
pub struct Bar {
    /// None of a choice.
    pub party: Option<usize>,
    /// The reading that is waited for, in short.
    pub what: String,
    /// All of it in words, for those who point at it.
    pub title: String,
    pub first: i64,
    pub last: i64,
    pub fate: Fate,
}

/// What became of a window.
#[derive(Clone, Copy, Debug, PartialEq, Eq, PartialOrd, Ord)]
pub enum Fate {
    /// The reading came at this time.
    Met(i64),
    /// Nothing came, and the run went on: the else of a choice, or the other side of an `or`.
    Lapsed,
    /// It waited no more from this time on.
    Dropped(i64),
    /// It is the duty behind the breach.
    Broken,
    /// It is the duty behind the breach that is ahead.
    Ahead,
    Waiting,
}

/// All windows, in the order in which they opened.
pub fn bars(words: &Words, events: &[Event]) -> Vec<Bar> {
    let mut windows = Windows { all: Vec::new() };
    for event in events {
        event.changes.iter().flatten().for_each(|change| windows.change(change, event));
        if matches!(event.step.verdict, Verdict::Breached(_)) {
            windows.decide(event, Fate::Broken);
            windows.close(event.time.into());
        }
    }
    let taken = events.iter().rev().find(|event| !matches!(event.step.verdict, Verdict::Refused(_)));
    match taken {
        Some(event) if matches!(event.step.verdict, Verdict::Live(_)) => windows.decide(event, Fate::Ahead),
        _ => {}
    }
    windows.all.iter().map(|(pending, fate)| bar(words, pending, *fate)).collect()
}

struct Windows<'a> {
    all: Vec<(Pending<'a>, Fate)>,
}

impl<'a> Windows<'a> {
    fn change(&mut self, change: &Change<'a>, event: &Event) {
        let time = i64::from(event.time);
        match change {
            Change::Begun(pending) => self.all.push((pending.clone(), Fate::Waiting)),
            Change::Met(pending) => self.end(pending, Fate::Met(time)),
            Change::Lapsed(pending) | Change::Missed(pending) => self.end(pending, Fate::Lapsed),
            Change::Dropped(pending) => self.end(pending, Fate::Dropped(time)),
        }
    }

    /// An else that is over at once was never seen waiting; its window is shown all the same.
    fn end(&mut self, pending: &Pending<'a>, fate: Fate) {
        let waiting = |(other, fate): &&mut (Pending, Fate)| *fate == Fate::Waiting && other.is(pending);
        match self.all.iter_mut().find(waiting) {
            Some((_, waited)) => *waited = fate,
            None => self.all.push((pending.clone(), fate)),
        }
    }

    /// After a breach nothing is waited for.
    fn close(&mut self, time: i64) {
        let waiting = self.all.iter_mut().filter(|(_, fate)| *fate == Fate::Waiting);
        waiting.for_each(|(_, fate)| *fate = Fate::Dropped(time));
    }

    /// Marks the duties behind a breach.
    fn decide(&mut self, event: &Event<'a>, fate: Fate) {
        for pending in event.broken.iter().flatten() {
            match self.all.iter_mut().rev().find(|(other, _)| other.is(pending)) {
                Some((_, other)) => *other = fate,
                None => self.all.push((pending.clone(), fate)),
            }
        }
    }
}

fn bar(words: &Words, pending: &Pending, fate: Fate) -> Bar {
    let line = words.line(pending).map_or_else(String::new, |line| format!(", line {line}"));
    let became = match fate {
        Fate::Met(time) => format!("came at {}", words.time(time)),
        Fate::Lapsed => "did not come".to_string(),
        Fate::Dropped(time) => format!("not waited for since {}", words.time(time)),
        Fate::Broken => "BROKEN".to_string(),
        Fate::Ahead => "breached if only time goes on".to_string(),
        Fate::Waiting => "waits".to_string(),
    };
    let may_come = if pending.party().is_some() { "" } else { " may come" };
    Bar {
        party: pending.party(),
        what: label(words, pending),
        title: format!("{}{may_come}, {}{line}: {became}", words.duty(pending, "owes"), words.window(pending)),
        first: pending.first,
        last: pending.last,
        fate,
    }
}
