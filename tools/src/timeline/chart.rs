//! What a picture shows, without coordinates.

use super::bars::{bars, Bar};
use super::label::label;
use crate::pending::Pending;
use crate::run::Verdict;
use crate::story::words::Words;
use crate::story::{Ending, Event};
use givuntha::Breach;

/// A window is cut where it goes on for more than so many times the rest of the picture.
const FAR: i64 = 4;
/// A sentence of more characters does not fit.
const SENTENCE: usize = 130;

pub struct Chart {
    pub title: String,
    /// How the run stands, in a sentence.
    pub verdict: String,
    /// The first and the last minute that are shown.
    pub start: i64,
    pub end: i64,
    /// Whether minutes are shown as dates.
    pub dated: bool,
    pub readings: Vec<Tick>,
    pub lanes: Vec<Lane>,
    pub mark: Option<Mark>,
}

/// A reading.
pub struct Tick {
    pub time: i64,
    pub what: String,
    pub refused: bool,
    /// The date and the verdict, and if it came too early the next window to open, for those who point at it.
    pub title: String,
}

/// The windows of a party, or those of the choices.
pub struct Lane {
    pub name: String,
    pub bars: Vec<Bar>,
}

/// The moment that decides, or that is ahead.
pub struct Mark {
    pub time: i64,
    pub sort: MarkSort,
    pub what: String,
}

#[derive(Clone, Copy, PartialEq, Eq)]
pub enum MarkSort {
    Breach,
    Forecast,
    Fulfilled,
}

impl Chart {
    pub fn new(words: &Words, title: &str, events: &[Event], ending: &Ending) -> Chart {
        let mark = mark(words, events, ending);
        let bars = bars(words, events);
        let start = events.first().map_or(0, |event| i64::from(event.time));
        Chart {
            title: title.to_string(),
            verdict: verdict(words, events, ending),
            start,
            end: end(start, events, mark.as_ref(), &bars),
            dated: words.source.assembled.dated,
            readings: events.iter().filter(|event| event.line.is_some()).map(|event| tick(words, event)).collect(),
            lanes: lanes(words, bars),
            mark,
        }
    }
}

fn tick(words: &Words, event: &Event) -> Tick {
    let time = i64::from(event.time);
    Tick {
        time,
        what: format!("{}{}", event.what, if event.step.early { " (too early)" } else { "" }),
        refused: matches!(event.step.verdict, Verdict::Refused(_)),
        title: format!("{} {}: {}{}", words.time(time), event.what, event.step.verdict, early(words, event)),
    }
}

/// What is added to the title of a reading that the library marked.
fn early(words: &Words, event: &Event) -> String {
    match event.early.iter().flatten().next() {
        Some(window) if event.step.early => format!("; {}", words.too_early(window)),
        _ => String::new(),
    }
}

/// One for each party, then one for the choices if there are any.
fn lanes(words: &Words, bars: Vec<Bar>) -> Vec<Lane> {
    let parties = 0..words.source.assembled.agreement.parties.len();
    let of = |owner| bars.iter().filter(|bar| bar.party == owner).cloned().collect::<Vec<_>>();
    let owed = parties.map(|party| Lane { name: words.party(party), bars: of(Some(party)) });
    let choices = Lane { name: "may come".to_string(), bars: of(None) };
    owed.chain(Some(choices).filter(|choices| !choices.bars.is_empty())).collect()
}

fn mark(words: &Words, events: &[Event], ending: &Ending) -> Option<Mark> {
    let by =
        |breach: &Breach| format!("{} by {}", words.moment(breach.time), words.parties(breach.parties).join(" and "));
    match ending {
        Ending::Breached(breach, _) => {
            let what = format!("breach {}", by(breach));
            Some(Mark { time: minutes(breach), sort: MarkSort::Breach, what })
        }
        Ending::Fulfilled(event) => {
            let what = format!("fulfilled {}", words.time(event.time.into()));
            Some(Mark { time: event.time.into(), sort: MarkSort::Fulfilled, what })
        }
        Ending::Running { .. } => last_forecast(events).map(|breach| {
            let what = format!("ahead: breach {}", by(&breach));
            Mark { time: minutes(&breach), sort: MarkSort::Forecast, what }
        }),
    }
}

/// The forecast of the last reading that was taken.
fn last_forecast(events: &[Event]) -> Option<Breach> {
    let taken = events.iter().rev().find(|event| !matches!(event.step.verdict, Verdict::Refused(_)))?;
    match taken.step.verdict {
        Verdict::Live(ahead) => ahead,
        _ => None,
    }
}

fn verdict(words: &Words, events: &[Event], ending: &Ending) -> String {
    let parties = |breach: &Breach| words.parties(breach.parties).join(" and ");
    match ending {
        Ending::Breached(breach, event) => {
            let told = format!("breached at {} by {}: ", words.moment(breach.time), parties(breach));
            let whole = told.clone() + &duties(event, |pending| words.clause(pending));
            // Where the conditions do not fit the duties are named as their bars are.
            match whole.chars().count() <= SENTENCE {
                true => whole,
                false => told + &duties(event, |pending| label(words, pending)),
            }
        }
        Ending::Fulfilled(event) => format!("fulfilled, shown at {}", words.time(event.time.into())),
        Ending::Running { .. } => match last_forecast(events) {
            Some(breach) => {
                let (when, who) = (words.moment(breach.time), parties(&breach));
                format!("running; if only time goes on, breached at {when} by {who}")
            }
            None => "running, no breach ahead".to_string(),
        },
    }
}

/// The duties behind a breach.
fn duties(event: &Event, named: impl Fn(&Pending) -> String) -> String {
    match &event.broken {
        Ok(broken) => broken.iter().map(named).collect::<Vec<_>>().join("; "),
        Err(why) => format!("which duty cannot be told: {why}"),
    }
}

/// The last minute shown: all readings that were taken, the mark, and the windows that are not too long.
fn end(start: i64, events: &[Event], mark: Option<&Mark>, bars: &[Bar]) -> i64 {
    let taken = events.iter().filter(|event| !matches!(event.step.verdict, Verdict::Refused(_)));
    let readings = taken.map(|event| i64::from(event.time));
    let end = readings.chain(mark.map(|mark| mark.time)).max().unwrap_or(start).max(start + 1);
    let far = start.saturating_add((end - start).saturating_mul(FAR));
    bars.iter().map(|bar| bar.last).filter(|last| *last <= far).fold(end, i64::max)
}

fn minutes(breach: &Breach) -> i64 {
    i64::try_from(breach.time).unwrap_or(i64::MAX)
}
