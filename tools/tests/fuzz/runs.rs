//! Whole runs of damaged texts and readings: told, followed, drawn, as records, and compared with what is expected.

use super::corpus::{Corpus, Stream};
use super::damage::{damaged, jumbled};
use super::json;
use super::random::Random;
use super::xml;
use tools::check::check;
use tools::examples::difference;
use tools::model::{Agreement, Type};
use tools::readings::{numbered, readings, Reading};
use tools::run::records::lines;
use tools::run::{followed, told, Form};
use tools::source::Source;
use tools::status::Status;
use tools::timeline::{self, picture as drawn};

/// The text of a stream's agreement, damaged or not; none where it is refused.
fn source(random: &mut Random, corpus: &Corpus, stream: &Stream) -> Option<Source> {
    let mut text = corpus.texts[stream.agreement].clone();
    if random.below(3) == 0 {
        let other = random.pick(&corpus.texts);
        text = damaged(random, &text, other);
    }
    let accepted = check(&text).ok()?;
    Some(Source::of("text", accepted.assembled, &text).unwrap_or_else(|fault| panic!("{fault}")))
}

/// The lines of a stream damaged, lines that fit the agreement, or something else.
fn input(random: &mut Random, corpus: &Corpus, stream: &Stream, agreement: &Agreement) -> Vec<u8> {
    let other = random.pick(&corpus.streams);
    match random.below(8) {
        0 => jumbled(random),
        1..4 => damaged(random, &stream.lines, &other.lines),
        _ => fitting(random, agreement).into_bytes(),
    }
}

/// Readings of the agreement's types, one after another, with some that are not.
fn fitting(random: &mut Random, agreement: &Agreement) -> String {
    let mut time = u64::from(agreement.start);
    let mut lines = String::new();
    for _ in 0..random.below(40) {
        let far = 1 << random.below(18);
        time = (time + random.below(far) as u64).min(u64::from(u32::MAX));
        let reading = random.pick(&agreement.readings);
        let value = |random: &mut Random, value_type| match value_type {
            Type::Number => random.pick(&["0", "1", "2", "250", "500", "-1", "1000000000", "1D"]).to_string(),
            Type::Truth => random.pick(&["true", "false"]).to_string(),
            Type::Party => random.pick(&agreement.parties).clone(),
        };
        let values: Vec<String> = reading.values.iter().map(|wanted| value(random, wanted.value_type)).collect();
        lines += &match random.below(10) {
            0 => format!("{time} mark\n"),
            1 => format!("! {} {} 7\n", time.saturating_sub(5), random.below(20)),
            _ => format!("{time} {} {}\n", reading.name, values.join(" ")),
        };
    }
    lines
}

/// A run to be: its agreement and its readings.
type Prepared = Option<(Source, Vec<(usize, Reading)>)>;

fn prepared(random: &mut Random, corpus: &Corpus) -> Prepared {
    let stream = random.pick(&corpus.streams);
    let source = source(random, corpus, stream)?;
    let input = input(random, corpus, stream, &source.assembled.agreement);
    let readings = numbered(&input, Some(&source.assembled.agreement)).ok()?;
    Some((source, readings))
}

/// What is written, and how it ends.
fn written(source: &Source, readings: &[(usize, Reading)], form: Form) -> (String, Status) {
    previewed(source, readings, None, form)
}

/// The same, and then what one more reading would do.
fn previewed(
    source: &Source,
    readings: &[(usize, Reading)],
    preview: Option<&Reading>,
    form: Form,
) -> (String, Status) {
    let mut output = Vec::new();
    let status = told(source, "-", readings, preview, form, &mut output).unwrap_or_else(|what| panic!("{what}"));
    (String::from_utf8(output).expect("text"), status)
}

/// The words that `brinewatch` has for a verdict of the story.
fn verdicts(objects: &str) -> Vec<String> {
    let events = objects.lines().map(|line| json::parse(line).unwrap_or_else(|what| panic!("{what}: {line}")));
    let mut verdicts: Vec<json::Value> = events.collect();
    // The last line is the end.
    verdicts.pop().expect("an end").get("end").text();
    verdicts.iter().map(|event| event.get("verdict").text().to_string()).collect()
}

/// The story in words and in objects, with the verdicts that the records have.
pub fn run(random: &mut Random, corpus: &Corpus) -> bool {
    let Some((source, readings)) = prepared(random, corpus) else { return false };
    let (words, status) = written(&source, &readings, Form::Text);
    assert!(words.ends_with('\n') && words.chars().all(|c| c == '\n' || !c.is_control()), "{words:?}");
    let (costs, same) = written(&source, &readings, Form::Costs);
    let (costs, others): (Vec<&str>, Vec<&str>) = costs.lines().partition(|line| line.starts_with("    cost    "));
    assert_eq!((costs.len(), others, same), (readings.len(), words.lines().collect(), status));
    let (objects, same) = written(&source, &readings, Form::Json);
    assert_eq!(status, same);
    let mut stream = source.assembled.bytes.clone();
    stream.extend(readings.iter().flat_map(|(_, reading)| reading.record()));
    let watched = lines(&stream);
    let watched: Vec<&str> = watched.lines().filter_map(|line| line.split(' ').nth(2)).collect();
    assert_eq!(verdicts(&objects), watched);
    true
}

/// What the last reading would do is what it does, and the story before it is as without it.
pub fn preview(random: &mut Random, corpus: &Corpus) -> bool {
    let Some((source, readings)) = prepared(random, corpus) else { return false };
    let Some(((line, last), before)) = readings.split_last() else { return false };
    let foreseen = |form| {
        let ((without, status), (with, same)) =
            (written(&source, before, form), previewed(&source, before, Some(last), form));
        assert_eq!(status, same);
        with.strip_prefix(&without).unwrap_or_else(|| panic!("{with}")).to_string()
    };
    // The last event, with the empty line behind it.
    let event = foreseen(Form::Costs).replacen("\nPREVIEW, not entered\n", "", 1) + "\n";
    assert!(written(&source, &readings, Form::Costs).0.contains(&event), "{event}");
    let (objects, _) = written(&source, &readings, Form::Json);
    let object = objects.lines().nth(readings.len()).expect("the last event");
    let object = object.replacen(&format!("\"line\":{line},"), "\"line\":null,", 1);
    assert_eq!(foreseen(Form::Json), format!("{{\"preview\":{object}}}\n"));
    true
}

/// Lines as they come: a wrong one is complained of, and what is told is told as of a file.
pub fn follow(random: &mut Random, corpus: &Corpus) -> bool {
    let stream = random.pick(&corpus.streams);
    let Some(source) = source(random, corpus, stream) else { return false };
    let input = input(random, corpus, stream, &source.assembled.agreement);
    let (mut output, mut faults) = (Vec::new(), Vec::new());
    let status = followed(&source, Form::Text, &mut &input[..], &mut output, |fault| faults.push(fault.to_string()));
    let status = status.unwrap_or_else(|what| panic!("{what}"));
    assert!(faults.iter().all(|fault| !fault.chars().any(char::is_control)), "{faults:?}");
    assert!(faults.is_empty() || status != Status::Well, "{faults:?}");
    let output = String::from_utf8(output).expect("text");
    match numbered(&input, Some(&source.assembled.agreement)) {
        Ok(readings) if faults.is_empty() => assert_eq!((output, status), written(&source, &readings, Form::Text)),
        _ => assert!(output.ends_with('\n'), "{output}"),
    }
    faults.is_empty()
}

/// A picture is well formed, and no two of its texts overlap.
pub fn picture(random: &mut Random, corpus: &Corpus) -> bool {
    let Some((source, readings)) = prepared(random, corpus) else { return false };
    let draw = |form| drawn(&source, "-", &readings, form).unwrap_or_else(|what| panic!("{what}"));
    let svg = draw(timeline::Form::Svg);
    let picture = xml::parse(&svg).unwrap_or_else(|what| panic!("{what}"));
    assert_eq!(xml::overlapping(&picture), None);
    assert!(draw(timeline::Form::Html).contains(&svg));
    true
}

/// Bytes as `brinewatch` takes them: each line has a number, a time and a verdict.
pub fn records(random: &mut Random, corpus: &Corpus) -> bool {
    let stream = random.pick(&corpus.streams);
    let assembled = &corpus.agreements[stream.agreement];
    let mut bytes = assembled.bytes.clone();
    bytes.extend(readings(&stream.lines, Some(&assembled.agreement)).unwrap_or_else(|fault| panic!("{fault}")));
    let other = random.pick(&corpus.agreements);
    let bytes = damaged(random, &bytes, &other.bytes);
    let told = lines(&bytes);
    for (number, line) in told.lines().enumerate() {
        let words: Vec<&str> = line.split(' ').collect();
        assert!(words.len() >= 3 && words[0] == number.to_string(), "{line}");
    }
    !told.starts_with("0 - REFUSED")
}

/// Expected verdicts, damaged or not: the difference is told in one line.
pub fn test(random: &mut Random, corpus: &Corpus) -> bool {
    let (stream, other) = (random.pick(&corpus.streams), random.pick(&corpus.streams));
    let assembled = &corpus.agreements[stream.agreement];
    let records = readings(&stream.lines, Some(&assembled.agreement)).unwrap_or_else(|fault| panic!("{fault}"));
    let right = random.below(2) == 0;
    let expected = if right { stream.expected.clone() } else { damaged(random, &stream.expected, &other.expected) };
    let told = difference(assembled, &records, &expected);
    assert!(told.is_none() || !right, "{told:?}");
    assert!(!told.iter().flat_map(|told| told.chars()).any(char::is_control), "{told:?}");
    told.is_none()
}
