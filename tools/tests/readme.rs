//! What README.md shows is so.

use tools::assemble;
use tools::check::check;
use tools::readings::{numbered, readings};
use tools::source::Source;
use tools::story::words::Words;
use tools::story::{text, Story};

const README: &str = include_str!("../README.md");

/// The blocks between lines of three backticks.
fn blocks() -> Vec<&'static str> {
    README.split("```\n").skip(1).step_by(2).collect()
}

fn block(beginning: &str) -> &'static str {
    blocks().into_iter().find(|block| block.starts_with(beginning)).unwrap_or_else(|| panic!("{beginning}"))
}

#[test]
fn its_agreements_are_those_of_the_tests() {
    assert!(blocks().contains(&include_str!("sample.csl")));
    assert!(blocks().contains(&include_str!("watch.csl")));
}

#[test]
fn its_lines_are_readings() {
    let sale = assemble(include_bytes!("sale.csl")).unwrap_or_else(|fault| panic!("{fault}"));
    let stream = readings(block("-- TIME TYPE VALUE..").as_bytes(), Some(&sale.agreement));
    let stream = stream.unwrap_or_else(|fault| panic!("{fault}"));
    assert_eq!(stream.len(), 17 + 17 + 9 + 13);
    assert_eq!(stream[..17], stream[17..34]);
}

#[test]
fn its_commands_are_those_of_the_usage() {
    let usage = include_str!("../src/bin/agreement.rs");
    for line in block("agreement check").lines() {
        let command = line.split("  ").next().unwrap_or(line);
        let command = command.split(" TABLE").next().unwrap_or(command);
        assert!(usage.contains(command), "{command}");
    }
}

/// The first agreement that a new user writes, runs as shown.
#[test]
fn the_first_agreement_of_the_repository() {
    let readme = include_str!("../../README.md");
    let file = |name: &str| {
        let begin = format!("cat > target/{name} <<'END'\n");
        let rest = readme.split_once(&begin).unwrap_or_else(|| panic!("{name}")).1;
        rest.split_once("END\n").expect("its end").0
    };
    let source = Source::read("target/sale.csl", file("sale.csl").as_bytes()).unwrap_or_else(|fault| panic!("{fault}"));
    let words = Words::of(&source);
    let readings = numbered(file("sale.readings").as_bytes(), Some(&source.assembled.agreement)).expect("readings");
    let (mut story, _) = Story::start(&source).expect("a start");
    let events = readings.iter().map(|(line, reading)| text::event(&words, &story.reading(*line, reading)));
    let told: String = events.skip(1).collect();
    let told = format!("```\n{told}\n{}```\n", text::ending(&words, &story.ending(), "target/sale.readings"));
    assert!(readme.contains(&told), "{told}");
}

/// What both pages show of a mistake is what is said of it.
#[test]
fn its_mistakes_are_told_so() {
    let told = |file: &str, text: &str| match check(text.as_bytes()) {
        Ok(_) => panic!("accepted: {text}"),
        Err(refused) => refused.told(file, text.as_bytes()) + "\n",
    };
    let sample = include_str!("sample.csl").replace("!(level < 250)", "!level");
    assert_eq!(block("sample.csl:"), told("sample.csl", &sample));
    let contractor = include_str!("../../examples/contractor/agreement.csl");
    let (before, pay) = contractor.split_once("  pay(").expect("a template");
    let contractor = format!("{before}  pay({}", pay.replacen("sized 3", "sized 2", 1));
    assert_eq!(block("pay.csl:"), told("pay.csl", &contractor));
    let pond = include_str!("../../examples/pond/agreement.csl").replace("g >= 250", "g");
    let shown = include_str!("../../README.md").split("```\n").find(|block| block.starts_with("agreement.csl:"));
    assert_eq!(shown, Some(told("agreement.csl", &pond).as_str()));
}
