//! `agreement run --preview`: what a reading would do, told as if it were entered, and nothing is.

mod common;

#[path = "common/json.rs"]
mod json;

use common::{agreement, complaint, examples, read, text, written};
use json::{parse, Value};
use std::fs;
use tools::readings::{numbered, Reading};
use tools::source::Source;
use tools::story::words::Words;
use tools::story::{objects, text as words, Event, Story};

const SAMPLE: &str = "tools/tests/sample.csl";
const POND: &str = "examples/pond/agreement.csl";
const REFUSED: &str = "examples/pond/refused.readings";
const MASTER_SALE: &str = "examples/master_sale/agreement.csl";
const MANY_ORDERS: &str = "examples/master_sale/many_orders.readings";

/// What is told of a preview after these lines, behind what is told without it.
fn preview(options: &[&str], reading: &str, text_file: &str, readings: &str, lines: &[u8]) -> String {
    let run = [&["run"], options, &[text_file, readings]].concat();
    let (without, with) = (agreement(&run, lines), agreement(&[&run[..], &["--preview", reading]].concat(), lines));
    assert_eq!((with.status, text(&with.stderr)), (without.status, text(&without.stderr)), "{reading}");
    let told = text(&with.stdout);
    told.strip_prefix(&text(&without.stdout)).unwrap_or_else(|| panic!("{told}")).to_string()
}

#[test]
fn word_for_word() {
    let told = |reading: &str| preview(&["--cost"], reading, SAMPLE, "-", b"110 Salinity 240\n");
    let waits = "
PREVIEW, not entered
160  Salinity 249
    nothing changes
    ahead   a breach at 160 by Keeper, if only time goes on
            Keeper would miss Salinity(level) where level >= 250 (line 5)
    cost    1
";
    assert_eq!(told("160 Salinity 249"), waits);
    let fulfils = "
PREVIEW, not entered
160  Salinity 250
    met     Keeper owed Salinity(level) where level >= 250 (line 5)
    FULFILLED
    cost    2
";
    assert_eq!(told("160 Salinity 250"), fulfils);
    let breaches = "
PREVIEW, not entered
161  mark
    missed  Keeper owed Salinity(level) where level >= 250, due by 160 (line 5)
    BREACHED at 160 by Keeper
    cost    1
";
    assert_eq!(told("161 mark"), breaches);
    let refused = "
PREVIEW, not entered
109  Salinity 250
    REFUSED with 10: time below the last reading time
    cost    0
";
    assert_eq!(told("109 Salinity 250"), refused);
}

/// The pond's page shows it: harvested an hour before the window, which is not entered.
#[test]
fn before_the_harvest() {
    let told = preview(&[], "2026-06-08T09:03 Harvested 1 30", POND, REFUSED, b"");
    assert!(told.contains("\n    too early: the window opens at 2026-06-08T10:03\n"), "{told}");
    assert!(text(&read("examples/pond/README.md")).contains(&format!("```{told}```\n")), "{told}");
}

/// What the tool's page shows.
#[test]
fn as_its_page_shows_it() {
    let command = "printf '110 Salinity 240\\n' | agreement run --preview '161 mark' tests/sample.csl - | tail -n 4\n";
    let told = preview(&[], "161 mark", SAMPLE, "-", b"110 Salinity 240\n");
    let told = told.trim_start();
    assert_eq!(told.matches('\n').count(), 4);
    assert!(text(&read("tools/README.md")).contains(&format!("```\n$ {command}{told}```\n")), "{told}");
}

/// In whatever order the arguments stand, and of readings from standard input.
#[test]
fn wherever_the_option_stands() {
    let lines = text(&read(REFUSED));
    let told = written(&["run", "--preview", "2026-06-08T10:03 Harvested 1 30", "--cost", POND, REFUSED], b"", 0);
    for arguments in [
        ["run", POND, REFUSED, "--cost", "--preview", "2026-06-08T10:03 Harvested 1 30"],
        ["run", POND, "--preview", "2026-06-08T10:03 Harvested 1 30", "-", "--cost"],
    ] {
        assert_eq!(written(&arguments, lines.as_bytes(), 0), told);
    }
}

/// Neither the status nor the file is another for it.
#[test]
fn nothing_is_entered() {
    let file = std::env::temp_dir().join(format!("agreement-preview-{}", std::process::id()));
    let name = file.to_string_lossy();
    for (lines, status) in [("", 0), ("160 Salinity 250\n", 0), ("161 mark\n", 1)] {
        fs::write(&file, lines).expect("a file");
        for reading in ["161 mark", "170 Salinity 250", "! 170 Salinity"] {
            let told = written(&["run", "--preview", reading, SAMPLE, &name], b"", status);
            assert_eq!(told.matches("\nPREVIEW, not entered\n").count(), 1, "{told}");
            assert_eq!(fs::read_to_string(&file).expect("the file"), lines);
        }
    }
    fs::remove_file(&file).expect("the file");
}

#[test]
fn in_json() {
    let told = preview(&["--json"], "2026-06-08T09:03 Harvested 1 30", POND, REFUSED, b"");
    let Value::Object(members) = parse(told.trim_end()).expect("an object") else { panic!("no object") };
    let [(name, event)] = &members[..] else { panic!("one member") };
    assert_eq!((name.as_str(), told.matches('\n').count()), ("preview", 1));
    assert_eq!((event.get("number").number(), event.get("line")), (10, &Value::Null));
    assert_eq!((event.get("verdict").text(), event.get("early")), ("LIVE", &Value::Truth(true)));
    let [window] = event.get("early_for").list() else { panic!("one window") };
    assert_eq!(window.get("first_date").text(), "2026-06-08T10:03");
    assert_eq!(event.get("last_moved_date").text(), "2026-06-03T10:03");
    let told = preview(&["--json"], "2026-06-08T10:03 Harvested 1 30", POND, REFUSED, b"");
    let moves = parse(told.trim_end()).expect("an object");
    assert_eq!(moves.get("preview").get("last_moved_date").text(), "2026-06-08T10:03");
    assert_eq!(moves.get("preview").get("changes").list().len(), 2);
}

/// The 65th order does not fit, and its preview has the cost that it has itself.
#[test]
fn refused_with_11() {
    let lines = text(&read(MANY_ORDERS));
    let orders: String =
        lines.lines().take_while(|line| !line.contains("REFUSED 11")).map(|line| format!("{line}\n")).collect();
    let told = preview(&["--cost"], "2011-07-01 Request Customer Vendor 1", MASTER_SALE, "-", orders.as_bytes());
    let expected = "
PREVIEW, not entered
2011-07-01  Request Customer Vendor 1
    REFUSED with 11: the residue by the rules needs over 128 units
    cost    134
";
    assert_eq!(told, expected);
}

/// What is wrong with the reading is said before anything is told, with its place in the argument.
#[test]
fn a_reading_that_is_wrong() {
    let wrong = [
        ("110 Salinty 240", "--preview:1:5: unknown reading `Salinty`; did you mean `Salinity`?\n"),
        ("110 Salinity", "--preview:1:5: `Salinity` has 1 values, 0 given here\n"),
        ("110", "--preview:1:4: a reading is a time, a type and values\n"),
        ("", "--preview: one reading is wanted, 0 given\n"),
        ("110 mark\n120 mark", "--preview: one reading is wanted, 2 given\n"),
        (
            "110 mark -- at\r noon",
            "--preview:1:15: a carriage return inside a line: lines end with a newline, or with both\n",
        ),
        ("110 \u{1b}[2J", "--preview:1:5: unknown reading `\\u{1b}[2J`\n"),
    ];
    for (reading, told) in wrong {
        for options in [&["run"][..], &["run", "--json"]] {
            let arguments = [options, &["--preview", reading, SAMPLE, "/dev/null"]].concat();
            assert_eq!(complaint(&arguments, b"", 2), told, "{reading:?}");
        }
    }
    let refused = complaint(&["run", "--preview", "110 mark", "-", "/dev/null"], b"parties", 2);
    assert!(refused.starts_with("-:1:8: expected a party's name"), "{refused}");
}

fn source(name: &str) -> Source {
    Source::read(name, &read(name)).unwrap_or_else(|fault| panic!("{name}:{fault}"))
}

/// The words and the object of an event.
fn told(source: &Source, event: &Event) -> (String, String) {
    let words_of = Words::of(source);
    (words::event(&words_of, event) + &words::cost(event), objects::event(&words_of, event).to_string())
}

/// Before each reading of each example its preview tells what it then does, but for its line; others do not disturb.
#[test]
fn of_every_example() {
    let mut verdicts = [0; 4];
    for (text_file, readings) in examples() {
        let source = source(&text_file);
        let list = numbered(&read(&readings), Some(&source.assembled.agreement)).expect("readings");
        let (mut story, _) = Story::start(&source).expect("a start");
        for (line, reading) in &list {
            let foreseen = story.preview(reading);
            let others = [list.first(), list.last()].into_iter().flatten();
            others.for_each(|(_, other)| assert_eq!(story.preview(other).line, None));
            let event = story.reading(*line, reading);
            assert_eq!(event.step, foreseen.step);
            let (words, object) = told(&source, &event);
            let object = object.replacen(&format!("\"line\":{line},"), "\"line\":null,", 1);
            assert_eq!(told(&source, &foreseen), (words, object), "{readings}:{line}");
            verdicts[verdict(&event.step.verdict.to_string())] += 1;
        }
    }
    assert!(verdicts.iter().all(|count| *count > 10), "{verdicts:?}");
}

fn verdict(told: &str) -> usize {
    let words = ["LIVE", "DONE", "BREACH", "REFUSED"];
    words.iter().position(|word| told.starts_with(word)).expect("a verdict")
}

/// That a breach is shown by a preview is not kept: the story goes on from where it stood.
#[test]
fn a_story_goes_on_from_where_it_stood() {
    let source = source(SAMPLE);
    let (mut story, _) = Story::start(&source).expect("a start");
    let mark = |time| Reading { time, kind: 0, values: Vec::new() };
    assert!(told(&source, &story.preview(&mark(161))).0.contains("\n    BREACHED at 160 by Keeper\n"));
    let met = Reading { time: 160, kind: 1, values: vec![250] };
    assert!(told(&source, &story.preview(&met)).0.contains("\n    FULFILLED\n"));
    let (words, object) = told(&source, &story.reading(1, &mark(160)));
    assert!(words.contains("\n    ahead   a breach at 160 by Keeper"), "{words}");
    assert!(object.starts_with("{\"number\":1,\"line\":1,"), "{object}");
    assert!(words::ending(&Words::of(&source), &story.ending(), "-").starts_with("RUNNING, last moved at 100\n"));
}
