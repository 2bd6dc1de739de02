//! Generated runs: every breach that the library tells, come or ahead, is led back to duties, and what
//! a reading changed is seen exactly where the table changed.

use givuntha::{reading, start, Breach, Parties, State};
use reference::generate::{calls, Aim, Call, Entry};
use tools::decode::decode;
use tools::model::Agreement;
use tools::pending::breach::broken;
use tools::pending::changes::{changes, Change};
use tools::pending::Tree;
use tools::readings::Reading;
use tools::source::Source;
use tools::story::words::Words;
use tools::story::{objects, text, Ending, Story};

fn bytes(table: &[i64]) -> Vec<u8> {
    table.iter().flat_map(|cell| cell.to_le_bytes()).collect()
}

fn tree<'a>(table: &[i64], agreement: &'a Agreement) -> Tree<'a> {
    Tree::of_table(&bytes(table), agreement).unwrap_or_else(|what| panic!("{what}"))
}

/// The reading of an accepted record.
fn read(record: &[u8]) -> Reading {
    let time = u32::from_le_bytes(record[4..8].try_into().expect("four bytes"));
    let value = |bytes: &[u8]| i32::from_le_bytes(bytes.try_into().expect("four bytes"));
    Reading { time, kind: record[8], values: record[9..].chunks(4).map(value).collect() }
}

/// The breach that a start or a reading tells, and the table that it leaves.
fn ahead(call: &Call) -> Option<(Breach, Vec<i64>)> {
    let (Entry::Start { table } | Entry::Reading { table, .. }) = &call.entry else { return None };
    let mut left = table.clone();
    let told = match &call.entry {
        Entry::Reading { reading: record, .. } => reading(&call.agreement, &mut left, record).ok()?.ahead,
        _ => start(&call.agreement, &mut left).ok()?,
    };
    told.map(|breach| (breach, left))
}

#[test]
fn every_breach_ahead() {
    let (mut by_start, mut by_reading) = (0, 0);
    for call in calls(11).take(40_000) {
        let Some((breach, left)) = ahead(&call) else { continue };
        if State::of(&left) != Some(State::Running) {
            continue;
        }
        let agreement = decode(&call.agreement).expect("an accepted agreement");
        let duties = broken(&agreement, &tree(&left, &agreement), i64::MAX, &breach).expect("an explanation");
        assert!(!duties.is_empty());
        let by = if matches!(call.entry, Entry::Start { .. }) { &mut by_start } else { &mut by_reading };
        *by += 1;
    }
    assert!(by_start > 500 && by_reading > 2_000, "{by_start} by a start, {by_reading} by a reading");
}

#[test]
fn every_breach_that_came_and_every_change() {
    let (mut breached, mut changed, mut unchanged, mut dropped) = (0, 0, 0, 0);
    for call in calls(12).take(60_000) {
        let Entry::Reading { table: before, reading: record } = &call.entry else { continue };
        let mut after = before.clone();
        let took = reading(&call.agreement, &mut after, record).is_ok();
        if !took || call.aim != Aim::Run || State::of(before) != Some(State::Running) {
            continue;
        }
        let agreement = decode(&call.agreement).expect("an accepted agreement");
        let (waited, waits) = (tree(before, &agreement), tree(&after, &agreement));
        let reading = read(record);
        if let Some(State::Breached(breach)) = State::of(&after) {
            let duties = broken(&agreement, &waited, i64::from(reading.time), &breach).expect("an explanation");
            assert!(duties.iter().all(|duty| duty.over() == i64::try_from(breach.time).expect("a time")));
            breached += 1;
            continue;
        }
        let told = changes(&agreement, &waited, &waits, &reading);
        assert_eq!(told.is_empty(), before[8..] == after[8..], "{}", call.agreement.len());
        let without_or = before[8..].chunks(24).all(|unit| unit[0] != 21);
        let drops = told.iter().filter(|change| matches!(change, Change::Dropped(_))).count();
        assert!(drops == 0 || !without_or, "dropped without an `or`");
        (changed, unchanged) = (changed + usize::from(!told.is_empty()), unchanged + usize::from(told.is_empty()));
        dropped += drops;
    }
    let enough = breached > 500 && changed > 500 && unchanged > 500 && dropped > 20;
    assert!(enough, "{breached} breached, {changed} changed, {unchanged} unchanged, {dropped} dropped");
}

const SAMPLE: &[u8] = include_bytes!("sample.csl");

/// Another time, other parties, or a time that is not over yet: nothing is explained by a guess.
#[test]
fn another_breach_is_not_explained() {
    let source = Source::read("sample.csl", SAMPLE).unwrap_or_else(|fault| panic!("{fault}"));
    let agreement = &source.assembled.agreement;
    let mut table = vec![0; 3080];
    givuntha::start(&source.assembled.bytes, &mut table).expect("a start");
    let explained = |time: u64, bits: u16, until: i64| {
        let breach = Breach { time, parties: Parties::from_bits(bits) };
        broken(agreement, &tree(&table, agreement), until, &breach).is_some()
    };
    assert!(explained(160, 1, 161) && explained(160, 1, i64::MAX));
    assert!(!explained(159, 1, 161) && !explained(160, 2, 161) && !explained(160, 3, 161) && !explained(160, 1, 160));
}

#[test]
fn what_cannot_be_told_is_said_to_be_so() {
    let source = Source::read("sample.csl", SAMPLE).unwrap_or_else(|fault| panic!("{fault}"));
    let words = Words::of(&source);
    let (mut story, mut start) = Story::start(&source).expect("a start");
    start.broken = Err("no reason".to_string());
    let ahead = "    ahead   a breach at 160 by Keeper, if only time goes on
            which duty it is cannot be told: no reason
";
    assert!(text::event(&words, &start).ends_with(ahead), "{}", text::event(&words, &start));
    assert!(objects::event(&words, &start).to_string().contains("\"duties\":[],\"unexplained\":\"no reason\""));
    let mut shown = story.reading(1, &Reading { time: 161, kind: 0, values: Vec::new() });
    (shown.broken, shown.changes) = (Err("no reason".to_string()), Err("no table".to_string()));
    let changed = "161  mark\n    what it changed cannot be told: no table\n    BREACHED at 160 by Keeper\n";
    assert_eq!(text::event(&words, &shown), changed);
    let breach = Breach { time: 160, parties: Parties::from_bits(1) };
    let ending = text::ending(&words, &Ending::Breached(breach, &shown), "-");
    let expected = "BREACHED at 160 by Keeper
  which duty was broken cannot be told: no reason
  shown by 161 mark at -:1
";
    assert_eq!(ending, expected);
}
