//! A reading that came too early: that it did is the library's mark, which windows open later is told here.

mod common;

#[path = "common/json.rs"]
mod json;
#[path = "common/xml.rs"]
mod xml;

use common::{agreement, examples, read, text, written};
use json::{parse, Value};
use reference::generate::{calls, Entry};
use tools::decode::decode;
use tools::pending::Tree;
use tools::readings::{numbered, Reading};
use tools::source::Source;
use tools::story::words::Words;
use tools::story::{self, objects, Event, Story};

const POND: &str = "examples/pond/agreement.csl";
const AN_HOUR_EARLY: &str = "examples/pond/an_hour_early.readings";

/// The events of a run, start and readings.
fn events<'a>(source: &'a Source, lines: &str) -> Vec<Event<'a>> {
    let readings = numbered(lines.as_bytes(), Some(&source.assembled.agreement)).expect("readings");
    let (mut story, start) = Story::start(source).expect("a start");
    let mut events = vec![start];
    events.extend(readings.iter().map(|(line, reading)| story.reading(*line, reading)));
    events
}

fn source(name: &str, text: &[u8]) -> Source {
    Source::read(name, text).unwrap_or_else(|fault| panic!("{name}:{fault}"))
}

/// The lines about windows that open later, of each event.
fn told(source: &Source, events: &[Event]) -> Vec<String> {
    let words = Words::of(source);
    let early = |event: &Event| {
        let told = story::text::event(&words, event);
        let from = told.find("    too early").map_or(String::new(), |at| told[at..].to_string());
        from.split("    ahead ").next().unwrap_or_default().to_string()
    };
    events.iter().map(early).collect()
}

/// The pond keeper of the request: the pond's page shows what is said of it.
#[test]
fn an_hour_before_the_window() {
    let expected = "\
2026-06-08T07:00  Harvested 1 30
    nothing changes
    too early: the window opens at 2026-06-08T08:00
            Harvester owes Harvested(p, t) where p = 1 && 0 < t, from 2026-06-08T08:00 to 2026-06-12T08:00 (line 42)
    ahead   a breach at 2026-06-12T08:00 by Harvester, if only time goes on
            Harvester would miss Harvested(p, t) where p = 1 && 0 < t (line 42)
";
    let run = written(&["run", POND, AN_HOUR_EARLY], b"", 0);
    assert!(run.contains(expected), "{run}");
    assert_eq!(run.matches("too early").count(), 1, "{run}");
    assert!(text(&read("examples/pond/README.md")).contains(&format!("```\n{expected}```\n")));
    let followed = written(&["run", "--follow", POND], &read(AN_HOUR_EARLY), 0);
    assert!(followed.contains(expected), "{followed}");
    let page = written(&["timeline", "--html", POND, AN_HOUR_EARLY], b"", 0);
    assert!(page.contains("\n    too early: the window opens at 2026-06-08T08:00\n"), "{page}");
}

#[test]
fn in_json() {
    let written = written(&["run", "--json", POND, AN_HOUR_EARLY], b"", 0);
    let objects: Vec<Value> = written.lines().map(|line| parse(line).expect("an object")).collect();
    let (_, events) = objects.split_last().expect("an end");
    let marks: Vec<bool> = events.iter().map(|event| *event.get("early") == Value::Truth(true)).collect();
    assert_eq!(marks, [false, false, false, true, false, false]);
    let [window] = events[3].get("early_for").list() else { panic!("one window") };
    assert_eq!((window.get("party").text(), window.get("reading").text()), ("Harvester", "Harvested(p, t)"));
    assert_eq!((window.get("first").number(), window.get("first_date").text()), (29_681_760, "2026-06-08T08:00"));
    assert_eq!((window.get("last_date").text(), window.get("line").number()), ("2026-06-12T08:00", 42));
}

/// The reading's name says so, and its title when the window opens; no other reading's does.
#[test]
fn in_the_picture() {
    let drawn = xml::parse(&written(&["timeline", POND, AN_HOUR_EARLY], b"", 0)).expect("a picture");
    let texts: Vec<&str> = drawn.all().into_iter().map(|element| element.text.as_str()).collect();
    let early: Vec<&str> = texts.into_iter().filter(|text| text.contains("too early")).collect();
    let title = "2026-06-08T07:00 Harvested 1 30: LIVE 29687520 2; too early: the window opens at 2026-06-08T08:00";
    assert_eq!(early, [title, "Harvested 1 30 (too early)"]);
}

/// Lifted twice, a day apart: the reading is too early for both harvests.
#[test]
fn each_window_and_the_next_to_open_first() {
    let source = source(POND, &read(POND));
    let lines = "2026-06-02T07:00 Salinity 1 252\n2026-06-02T08:00 Lifted 1\n2026-06-03T07:00 Salinity 1 253\n\
                 2026-06-03T08:00 Lifted 1\n2026-06-07T07:59 Harvested 1 50\n2026-06-07T08:00 Harvested 1 50\n";
    let window = |opens: &str, ends: &str| {
        let owes = "Harvester owes Harvested(p, t) where p = 1 && 0 < t";
        let told = format!("    too early: the window opens at {opens}\n");
        format!("{told}            {owes}, from {opens} to {ends} (line 42)\n")
    };
    let first = window("2026-06-07T08:00", "2026-06-11T08:00");
    let expected = first + &window("2026-06-08T08:00", "2026-06-12T08:00");
    let mut silent = vec![String::new(); 7];
    silent[5] = expected;
    assert_eq!(told(&source, &events(&source, lines)), silent);
}

/// On the 20th the fine's window has not opened, but the reading ends the time for a return: something altered.
#[test]
fn a_reading_that_alters_something_is_not_early() {
    let sale = "examples/sale/agreement.csl";
    let source = source(sale, &read(sale));
    let lines = "2011-01-01 Deliver Seller Buyer 1\n2011-01-01 Payment Buyer Seller 100\n\
                 2011-01-20 Payment Buyer Seller 110\n2011-01-20T00:01 Payment Buyer Seller 110\n\
                 ! 2011-01-19 Payment Buyer Seller 110\n2011-01-21 Payment Buyer Seller 109\n2011-01-22 mark\n";
    let events = events(&source, lines);
    let marks: Vec<bool> = events.iter().map(|event| event.step.early).collect();
    assert_eq!(marks, [false, false, false, false, true, false, false, false]);
    for (mark, told) in marks.into_iter().zip(told(&source, &events)) {
        assert_eq!(mark, told.starts_with("    too early: the window opens at 2011-01-31\n"), "{told}");
        assert_eq!(mark, told.contains("too early"), "{told}");
    }
}

/// The choice's time is over before it begins; its else takes the reading and leads back to it in the same minute.
const NO_TIME_AT_ALL: &[u8] = b"parties A readings N() letrec
t() declares A = if N() due after 10 within -20 else <A> N() due within 60 then t()
in t() starting 100";

#[test]
fn a_window_that_is_over_before_it_opens() {
    let source = source("never.csl", NO_TIME_AT_ALL);
    let expected = "    too early: the window opens at 110\n            \
                    N() may come, from 110 to 90, which is no time at all (line 2)\n";
    assert_eq!(told(&source, &events(&source, "100 N\n101 N\n")), ["", expected, ""]);
}

/// Whatever windows were found, nothing is claimed without the mark; with it, that no window was found is said.
#[test]
fn the_mark_alone_decides() {
    let source = source(POND, &read(POND));
    let words = Words::of(&source);
    let mut event = events(&source, &text(&read(AN_HOUR_EARLY)))[3].clone();
    assert!(event.step.early && event.early.as_ref().is_ok_and(|windows| windows.len() == 1));
    event.step.early = false;
    assert!(!story::text::event(&words, &event).contains("too early"));
    assert!(objects::event(&words, &event).to_string().contains("\"early\":false,"));
    (event.step.early, event.early) = (true, Err("no reason".to_string()));
    let unexplained = "    too early: which window opens later cannot be told: no reason\n";
    assert!(story::text::event(&words, &event).contains(unexplained));
    assert!(objects::event(&words, &event).to_string().contains("\"early\":true,\"early_for\":null,"));
}

/// Words and objects say the same, and a marked reading left everything as it was.
#[test]
fn in_every_example() {
    let mut early = Vec::new();
    for (agreement_text, readings) in examples() {
        let output = agreement(&["run", "--json", &agreement_text, &readings], b"");
        let story = text(&agreement(&["run", &agreement_text, &readings], b"").stdout);
        let (mut windows, mut marked) = (0, false);
        for event in text(&output.stdout).lines().map(|line| parse(line).expect("an object")) {
            let Value::Object(members) = &event else { panic!("no object") };
            if members.iter().any(|(name, _)| name == "end") {
                continue;
            }
            let (is_early, early_for) = (*event.get("early") == Value::Truth(true), event.get("early_for").list());
            assert_eq!(is_early, !early_for.is_empty(), "{readings}");
            assert!(early_for.iter().all(|one| one.get("first").number() > event.get("time").number()), "{readings}");
            let stayed = event.get("verdict").text() == "LIVE" && event.get("changes").list().is_empty();
            assert!(stayed || !is_early, "{readings}");
            (windows, marked) = (windows + early_for.len(), marked || is_early);
        }
        assert_eq!(story.matches("    too early: the window opens at ").count(), windows, "{readings}");
        early.extend(marked.then_some(readings));
    }
    let expected =
        ["instalments/not_an_instalment", "lease/tenant_fails", "pond/an_hour_early", "pond/harvester_fails"];
    assert_eq!(early, expected.map(|name| format!("examples/{name}.readings")));
}

/// The reading of an accepted record.
fn reading_of(record: &[u8]) -> Reading {
    let time = u32::from_le_bytes(record[4..8].try_into().expect("four bytes"));
    let value = |bytes: &[u8]| i32::from_le_bytes(bytes.try_into().expect("four bytes"));
    Reading { time, kind: record[8], values: record[9..].chunks(4).map(value).collect() }
}

/// Each marked reading of generated calls has a window to be told, and one that has a window and altered nothing is
/// marked: the tool's windows are the library's.
#[test]
fn of_generated_calls() {
    let (mut early, mut altered, mut open) = (0, 0, 0);
    for call in calls(13).take(60_000) {
        let Entry::Reading { table: before, reading: record } = &call.entry else { continue };
        let mut after = before.clone();
        let Ok(taken) = givuntha::reading(&call.agreement, &mut after, record) else { continue };
        let agreement = decode(&call.agreement).expect("an accepted agreement");
        let bytes: Vec<u8> = before.iter().flat_map(|cell| cell.to_le_bytes()).collect();
        let tree = Tree::of_table(&bytes, &agreement).unwrap_or_else(|what| panic!("{what}"));
        let windows = tree.opening_after(&reading_of(record));
        assert!(windows.is_sorted_by_key(|pending| pending.first));
        let stayed = before[0] == after[0] && before[8..] == after[8..];
        assert_eq!(taken.early, stayed && !windows.is_empty(), "{:?}", call.agreement);
        early += usize::from(taken.early);
        altered += usize::from(!stayed && !windows.is_empty());
        open += usize::from(stayed && windows.is_empty());
    }
    assert!(early > 20 && altered > 20 && open > 500, "{early} early, {altered} altered, {open} open");
}
