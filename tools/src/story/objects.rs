//! A story as JSON, an object to each event and one to the end.

use super::words::Words;
use super::{Ending, Event, Told};
use crate::json::Json;
use crate::pending::changes::Change;
use crate::pending::{Pending, Tree};
use crate::run::Verdict;
use givuntha::{Breach, Parties, Refusal};

/// The start or a reading.
pub fn event(words: &Words, event: &Event) -> Json {
    let mut members = vec![("number", count(event.step.number))];
    members.extend(reading(words, event));
    let breach = breach_of(&event.step.verdict);
    members.extend([
        ("verdict", Json::text(word(&event.step.verdict))),
        ("refusal", Json::optional(refusal_of(&event.step.verdict), refusal)),
        ("early", Json::Truth(event.step.early)),
        ("early_for", early_for(words, event)),
        ("cost", Json::optional(event.step.cost, count)),
        ("breach", Json::optional(breach, |breach| told(words, &breach, &event.broken))),
        ("last_moved", Json::Number(event.last_moved.into())),
        ("last_moved_date", date(words, event.last_moved.into())),
        ("changes", changes(words, &event.changes)),
    ]);
    Json::Object(members)
}

/// A reading that is not entered: the event that it would be.
pub fn preview(words: &Words, foreseen: &Event) -> Json {
    Json::Object(vec![("preview", event(words, foreseen))])
}

/// What was read, and when.
fn reading(words: &Words, event: &Event) -> Vec<(&'static str, Json)> {
    let (minutes, what) = (i64::from(event.time), Json::text(&event.what));
    vec![("line", line(event.line)), ("time", Json::Number(minutes)), ("date", date(words, minutes)), ("what", what)]
}

/// How the run stands after the last reading.
pub fn ending(words: &Words, ending: &Ending) -> Json {
    let waiting = |tree: &Tree| tree.all().into_iter().map(|one| pending(words, one)).collect();
    let (word, shown, breach, waits) = match ending {
        Ending::Fulfilled(event) => ("fulfilled", Some(event), Json::Null, Vec::new()),
        Ending::Breached(breach, event) => ("breached", Some(event), told(words, breach, &event.broken), Vec::new()),
        Ending::Running { waiting: tree, .. } => {
            ("running", None, Json::Null, tree.as_ref().map_or_else(|_| Vec::new(), waiting))
        }
    };
    let last_moved = i64::from(ending.last_moved());
    Json::Object(vec![
        ("end", Json::text(word)),
        ("shown_by", Json::optional(shown, |event| Json::Object(reading(words, event)))),
        ("breach", breach),
        ("last_moved", Json::Number(last_moved)),
        ("last_moved_date", date(words, last_moved)),
        ("waiting", Json::List(waits)),
    ])
}

fn word(verdict: &Verdict) -> &'static str {
    match verdict {
        Verdict::Live(_) => "LIVE",
        Verdict::Done => "DONE",
        Verdict::Breached(_) => "BREACH",
        Verdict::Refused(_) => "REFUSED",
    }
}

/// A run that was not started; without a number where the text is refused.
pub fn refused(number: Option<Refusal>, because: &str) -> Json {
    let refusal = Json::optional(number, refusal);
    Json::Object(vec![("end", Json::text("refused")), ("refusal", refusal), ("because", Json::text(because))])
}

fn refusal(refusal: Refusal) -> Json {
    let (number, because) = (Json::Number(refusal.number().into()), Json::text(refusal.to_string()));
    Json::Object(vec![("number", number), ("because", because)])
}

fn refusal_of(verdict: &Verdict) -> Option<Refusal> {
    match verdict {
        Verdict::Refused(refusal) => Some(*refusal),
        _ => None,
    }
}

/// The breach that is ahead (LIVE) or has come (BREACH).
fn breach_of(verdict: &Verdict) -> Option<Breach> {
    match verdict {
        Verdict::Live(ahead) => *ahead,
        Verdict::Breached(breach) => Some(*breach),
        Verdict::Done | Verdict::Refused(_) => None,
    }
}

fn told(words: &Words, breach: &Breach, broken: &Told<Vec<Pending>>) -> Json {
    let time = i64::try_from(breach.time).unwrap_or(i64::MAX);
    let (duties, unexplained) = match broken {
        Ok(broken) => (broken.iter().map(|one| pending(words, one)).collect(), Json::Null),
        Err(why) => (Vec::new(), Json::text(why)),
    };
    Json::Object(vec![
        ("time", Json::Number(time)),
        ("date", date(words, time)),
        ("parties", parties(words, breach.parties)),
        ("bits", Json::Number(breach.parties.bits().into())),
        ("duties", Json::List(duties)),
        ("unexplained", unexplained),
    ])
}

/// The clauses that a reading was too early for; null where they cannot be told.
fn early_for(words: &Words, event: &Event) -> Json {
    let list = |windows: &Vec<Pending>| Json::List(windows.iter().map(|one| pending(words, one)).collect());
    Json::optional(event.early.as_ref().ok(), list)
}

/// Null where they cannot be told.
fn changes(words: &Words, changes: &Told<Vec<Change>>) -> Json {
    let list = |changes: &Vec<Change>| Json::List(changes.iter().map(|change| changed(words, change)).collect());
    Json::optional(changes.as_ref().ok(), list)
}

fn changed(words: &Words, change: &Change) -> Json {
    let (word, one) = match change {
        Change::Met(one) => ("met", one),
        Change::Lapsed(one) => ("lapsed", one),
        Change::Missed(one) => ("missed", one),
        Change::Dropped(one) => ("dropped", one),
        Change::Begun(one) => ("new", one),
    };
    Json::Object(vec![("change", Json::text(word)), ("clause", pending(words, one))])
}

/// An obligation, or a choice, which has no party.
fn pending(words: &Words, pending: &Pending) -> Json {
    Json::Object(vec![
        ("party", Json::optional(pending.party(), |party| Json::Text(words.party(party)))),
        ("reading", Json::Text(words.wanted(pending))),
        ("where", Json::optional(words.condition(pending), Json::Text)),
        ("first", Json::Number(pending.first)),
        ("first_date", date(words, pending.first)),
        ("last", Json::Number(pending.last)),
        ("last_date", date(words, pending.last)),
        ("line", line(words.line(pending))),
    ])
}

fn parties(words: &Words, parties: Parties) -> Json {
    Json::List(words.parties(parties).into_iter().map(Json::Text).collect())
}

fn date(words: &Words, minutes: i64) -> Json {
    if words.source.assembled.dated {
        Json::Text(words.time(minutes))
    } else {
        Json::Null
    }
}

fn count(count: u64) -> Json {
    Json::Number(i64::try_from(count).unwrap_or(i64::MAX))
}

fn line(line: Option<usize>) -> Json {
    Json::optional(line, |line| Json::Number(i64::try_from(line).unwrap_or(i64::MAX)))
}
