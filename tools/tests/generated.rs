//! Generated agreements, started and given generated readings: every story can be told and drawn, in
//! words, in JSON and as a picture, with the library's own verdicts.

#[path = "common/json.rs"]
mod json;
#[path = "common/xml.rs"]
mod xml;

use reference::generate::{calls, Aim, Entry};
use reference::table::MOVED;
use reference::{reading, start, CELLS};
use std::collections::BTreeMap;
use tools::disassemble;
use tools::readings::Reading;
use tools::run::records::lines;
use tools::source::Source;
use tools::story::words::Words;
use tools::story::{objects, text, Story};
use tools::timeline::{picture, Form};

/// The reading of a record of kind 64 with whole values; other bytes are none that a line can stand for.
fn read(record: &[u8]) -> Option<Reading> {
    let whole = record.len() >= 9 && record.len() <= 25 && (record.len() - 9).is_multiple_of(4);
    let [low, high, 64, 0, ..] = record else { return None };
    if !whole || usize::from(u16::from_le_bytes([*low, *high])) != record.len() {
        return None;
    }
    let number = |bytes: &[u8]| i32::from_le_bytes(bytes.try_into().unwrap_or_default());
    let time = u32::from_le_bytes(record[4..8].try_into().ok()?);
    Some(Reading { time, kind: record[8], values: record[9..].chunks(4).map(number).collect() })
}

/// Up to 40 readings for each agreement, in the order of their times but for every seventh.
fn runs(seed: u64, calls_made: usize) -> Vec<(Vec<u8>, Vec<Reading>)> {
    let mut runs: BTreeMap<Vec<u8>, Vec<Reading>> = BTreeMap::new();
    for call in calls(seed).take(calls_made).filter(|call| call.aim == Aim::Run) {
        let Entry::Reading { reading, .. } = &call.entry else { continue };
        runs.entry(call.agreement.to_vec()).or_default().extend(read(reading));
    }
    for readings in runs.values_mut() {
        readings.truncate(40);
        readings.sort_by_key(|reading| if reading.time % 7 == 0 { 0 } else { reading.time });
    }
    runs.into_iter().collect()
}

/// By the second monitor, after the start and after each reading: when the agreement last moved, the mark of a reading
/// that came too early, and its cost.
fn second(agreement: &[u8], readings: &[Reading]) -> Vec<(i64, bool, Option<u64>)> {
    let mut table = vec![0; CELLS];
    assert_eq!(start(agreement, &mut table).number, 0);
    let mut told = vec![(table[MOVED], false, None)];
    for given in readings {
        // A refused reading leaves the table.
        let taken = reading(agreement, &mut table, &given.record());
        told.push((table[MOVED], taken.early == 1, Some(taken.cost)));
    }
    told
}

#[test]
fn every_story_is_told_and_drawn() {
    let (mut told, mut breached, mut long, mut early) = (0, 0, 0, 0);
    for (record, readings) in runs(31, 12_000) {
        let agreement = disassemble(&record).unwrap_or_else(|fault| panic!("{fault}"));
        let source = Source::read("agreement", agreement.as_bytes()).unwrap_or_else(|fault| panic!("{fault}"));
        let Ok((mut story, begun)) = Story::start(&source) else { continue };
        let words = Words::of(&source);
        let mut events = vec![begun];
        events.extend((1..).zip(&readings).map(|(line, reading)| story.reading(line, reading)));
        let stream = readings.iter().fold(record.clone(), |stream, reading| [stream, reading.record()].concat());
        let verdicts: String = events.iter().map(|event| format!("{}\n", event.step)).collect();
        assert_eq!(verdicts, lines(&stream));
        let answers = events.iter().map(|event| (i64::from(event.last_moved), event.step.early, event.step.cost));
        assert_eq!(answers.collect::<Vec<_>>(), second(&record, &readings), "{verdicts}");
        for event in &events {
            assert!(event.changes.is_ok() && event.broken.is_ok() && event.early.is_ok(), "{verdicts}");
            let said = text::event(&words, event);
            assert!(said.contains(&event.what));
            assert_eq!(said.contains("too early: the window opens at "), event.step.early);
            early += usize::from(event.step.early);
            json::parse(&objects::event(&words, event).to_string()).unwrap_or_else(|what| panic!("{what}"));
        }
        let ending = text::ending(&words, &story.ending(), "readings");
        breached += usize::from(ending.starts_with("BREACHED"));
        let numbered: Vec<(usize, Reading)> = (1..).zip(readings).collect();
        let svg = picture(&source, "readings", &numbered, Form::Svg).unwrap_or_else(|what| panic!("{what}"));
        let drawn = xml::parse(&svg).unwrap_or_else(|what| panic!("{what}"));
        assert_eq!(xml::overlapping(&drawn), None);
        (told, long) = (told + 1, long + usize::from(events.len() > 5));
    }
    let enough = told > 150 && breached > 20 && long > 20 && early > 20;
    assert!(enough, "{told} told, {breached} breached, {long} long, {early} early");
}
