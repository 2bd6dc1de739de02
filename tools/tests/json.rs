//! `agreement run --json`: every line of every example is one JSON object that says what the words say.

mod common;

#[path = "common/json.rs"]
mod parser;

use common::{agreement, examples, read, text};
use parser::{parse, Value};
use tools::json::Json;

/// The line that `brinewatch` writes, from the object.
fn verdict(object: &Value) -> String {
    let breach = |value: &Value| match value.get("breach") {
        Value::Null => " NONE".to_string(),
        breach => format!(" {} {}", breach.get("time").number(), breach.get("bits").number()),
    };
    let (number, time) = (object.get("number").number(), object.get("time").number());
    let rest = match object.get("verdict").text() {
        word @ ("LIVE" | "BREACH") => format!("{word}{}", breach(object)),
        "DONE" => "DONE".to_string(),
        word => format!("{word} {}", object.get("refusal").get("number").number()),
    };
    format!("{number} {time} {rest}\n")
}

/// The objects of a run, one a line.
fn objects(told: &str) -> Vec<Value> {
    told.lines().map(|line| parse(line).unwrap_or_else(|what| panic!("{what}: {line}"))).collect()
}

#[test]
fn every_example() {
    let mut explained = 0;
    for (agreement_text, readings) in examples() {
        let output = agreement(&["run", "--json", &agreement_text, &readings], b"");
        let objects = objects(&text(&output.stdout));
        let (end, events) = objects.split_last().expect("an end");
        let lines: String = events.iter().map(verdict).collect();
        assert_eq!(lines, text(&read(&readings.replace(".readings", ".out"))), "{readings}");
        let breached = end.get("end").text() == "breached";
        assert_eq!(output.status.code(), Some(i32::from(breached)), "{readings}");
        for breach in objects.iter().map(|object| object.get("breach")).filter(|breach| **breach != Value::Null) {
            assert_eq!(*breach.get("unexplained"), Value::Null, "{readings}");
            assert!(!breach.get("duties").list().is_empty(), "{readings}");
            explained += 1;
        }
    }
    assert!(explained > 100, "{explained}");
}

/// An agreement moves at its start, at each reading with changes, and at no other.
#[test]
fn when_every_example_moved() {
    let (mut moved, mut stayed) = (0, 0);
    for (agreement_text, readings) in examples() {
        let objects = objects(&text(&agreement(&["run", "--json", &agreement_text, &readings], b"").stdout));
        let (end, events) = objects.split_last().expect("an end");
        let mut last_moved = events[0].get("time");
        for (n, event) in events.iter().enumerate() {
            let changed = !event.get("changes").list().is_empty();
            if changed {
                last_moved = event.get("time");
            }
            assert_eq!(event.get("last_moved"), last_moved, "{readings}, {n}");
            (moved, stayed) = (moved + usize::from(changed), stayed + usize::from(!changed));
        }
        let last = events.last().expect("a start");
        for member in ["last_moved", "last_moved_date"] {
            assert_eq!(end.get(member), last.get(member), "{readings}");
        }
    }
    assert!(moved > 200 && stayed > 50, "{moved} moved, {stayed} stayed");
}

/// The times of the events and of the end, and when the agreement last moved.
fn times(text_file: &str, lines: &[u8]) -> (Vec<(i64, i64)>, i64) {
    let objects = objects(&text(&agreement(&["run", "--json", text_file, "-"], lines).stdout));
    let (end, events) = objects.split_last().expect("an end");
    let event_times = |event: &Value| (event.get("time").number(), event.get("last_moved").number());
    (events.iter().map(event_times).collect(), end.get("last_moved").number())
}

/// Neither an idle mark, nor a reading that meets nothing, nor a refused one moves it, nor one after the end.
#[test]
fn when_the_sample_moved() {
    let sample = "tools/tests/sample.csl";
    let kept = b"105 mark\n110 Salinity 240\n! 109 Salinity 250\n160 Salinity 250\n170 mark\n";
    assert_eq!(times(sample, b""), (vec![(100, 100)], 100));
    let moved_at_160 = vec![(100, 100), (105, 100), (110, 100), (109, 100), (160, 160), (170, 160)];
    assert_eq!(times(sample, kept), (moved_at_160, 160));
    let breached = vec![(100, 100), (160, 100), (165, 165), (170, 165)];
    assert_eq!(times(sample, b"160 mark\n165 mark\n170 mark\n"), (breached, 165));
}

#[test]
fn when_it_moved_is_a_date_where_the_start_is_one() {
    let readings = "examples/pond/refused.readings";
    let objects = objects(&text(&agreement(&["run", "--json", "examples/pond/agreement.csl", readings], b"").stdout));
    assert_eq!(objects[0].get("last_moved_date").text(), "2026-06-01T06:00");
    let end = objects.last().expect("an end");
    assert_eq!((end.get("end").text(), end.get("last_moved_date").text()), ("running", "2026-06-03T10:03"));
    let sample = agreement(&["run", "--json", "tools/tests/sample.csl", "/dev/null"], b"");
    assert_eq!(
        *parse(text(&sample.stdout).lines().last().expect("an end")).expect("an object").get("last_moved_date"),
        Value::Null
    );
}

#[test]
fn the_duty_that_was_broken() {
    let readings = "examples/pond/washery_fails.readings";
    let output = agreement(&["run", "--json", "examples/pond/agreement.csl", readings], b"");
    let told = text(&output.stdout);
    let end = parse(told.lines().last().expect("an end")).expect("an object");
    assert_eq!(end.get("shown_by").get("what").text(), "mark");
    assert_eq!(end.get("shown_by").get("line").number(), 7);
    let [duty] = end.get("breach").get("duties").list() else { panic!("one duty") };
    assert_eq!((duty.get("party").text(), duty.get("where").text()), ("Washery", "p = 1 && w = 40"));
    assert_eq!((duty.get("line").number(), duty.get("last_date").text()), (46, "2026-06-10T08:00"));
}

#[test]
fn every_character_comes_back() {
    let odd: String = ('\0'..'\u{100}').chain(['"', '\\', '\u{2028}', '\u{1f9c2}', '\u{fffd}']).collect();
    let object = Json::Object(vec![
        ("text", Json::text(&odd)),
        ("list", Json::List(vec![Json::Null, Json::Truth(true), Json::Number(-5)])),
        ("none", Json::List(Vec::new())),
    ]);
    let read = parse(&object.to_string()).expect("an object");
    assert_eq!(read.get("text").text(), odd);
    assert_eq!(read.get("list").list(), [Value::Null, Value::Truth(true), Value::Number(-5)]);
    assert!(read.get("none").list().is_empty());
    for wrong in ["", "{", "{\"a\":1,}", "[1 2]", "\"\n\"", "{\"a\" 1}", "01", "nul", "{} {}", "\"\\x\""] {
        assert!(parse(wrong).is_err(), "{wrong}");
    }
}
