//! The C header says the same numbers as this crate.

use givuntha::{Breach, Parties, Refusal, State, Times, CELLS, MOST_COST, STACK};
use std::fs;
use std::path::Path;

fn header() -> String {
    fs::read_to_string(Path::new(env!("CARGO_MANIFEST_DIR")).join("../../include/givuntha.h")).unwrap()
}

/// A refusal's name in C: `TableLength` is `GIVUNTHA_TABLE_LENGTH`.
fn name(refusal: Refusal) -> String {
    let spaced = |letter: char| if letter.is_uppercase() { format!("_{letter}") } else { letter.to_string() };
    let words: String = format!("{refusal:?}").chars().map(spaced).collect();
    format!("GIVUNTHA{}", words.to_uppercase())
}

#[test]
fn every_refusal_has_its_number() {
    let header = header();
    for refusal in Refusal::ALL {
        let line = format!("    {} = {}", name(refusal), refusal.number());
        assert!(header.lines().any(|known| known.trim_end_matches(',') == line), "{line}");
    }
}

/// Behind "accepted" the enum has the refusals in the order in which they are asked, and no other.
#[test]
fn the_refusals_stand_in_their_order() {
    let header = header();
    let names: Vec<&str> = enumerated(&header, "givuntha_answer").into_iter().map(|(name, _)| name).collect();
    let refusals = Refusal::ALL.map(|refusal| name(refusal).replace("GIVUNTHA_", ""));
    assert_eq!(names[1..], refusals);
}

/// The names and numbers of an enum of the header, in its order.
fn enumerated<'h>(header: &'h str, name: &str) -> Vec<(&'h str, usize)> {
    let begin = format!("enum {name} {{");
    let body = header.split_once(&begin).expect(name).1.split_once("};").expect(name).0;
    let numbered = |line: &'h str| {
        let (name, number) = line.trim().strip_prefix("GIVUNTHA_")?.split_once(" = ")?;
        let digits = number.find(|c: char| !c.is_ascii_digit()).unwrap_or(number.len());
        Some((name, number[..digits].parse().expect(line)))
    };
    body.lines().filter_map(numbered).collect()
}

/// What is written where the header says is read there by this crate.
#[test]
fn the_head_s_cells_are_those_of_the_header() {
    let header = header();
    let head = enumerated(&header, "givuntha_head");
    let names = ["STATE", "LAST_READING", "BREACH_TIME", "BLAMED", "UNITS", "LAST_MOVED"];
    assert_eq!(head, names.map(|name| format!("HEAD_{name}")).iter().map(String::as_str).zip(0..).collect::<Vec<_>>());
    let mut cells = vec![0; CELLS];
    let written = [("STATE", 3), ("LAST_READING", 161), ("BREACH_TIME", 160), ("BLAMED", 1), ("LAST_MOVED", 155)];
    for (name, number) in written {
        let (_, cell) = head.iter().find(|(known, _)| *known == format!("HEAD_{name}")).expect(name);
        cells[*cell] = number;
    }
    let breach = Breach { time: 160, parties: Parties::from_bits(1) };
    assert_eq!(State::of(&cells), Some(State::Breached(breach)));
    assert_eq!(Times::of(&cells), Some(Times { last_reading: 161, last_moved: 155 }));
}

#[test]
fn table_stack_and_cost_are_those_of_the_header() {
    let header = header();
    for (name, number) in [("TABLE_CELLS", CELLS as u64), ("STACK_BYTES", STACK as u64), ("MOST_COST", MOST_COST)] {
        let line = format!("#define GIVUNTHA_{name} {number}");
        assert!(header.lines().any(|known| known == line), "{line}");
    }
}

#[test]
fn the_version_is_the_library_s() {
    let header = header();
    let part = |name: &str| -> u32 {
        let line = header.lines().find_map(|line| line.strip_prefix(&format!("#define GIVUNTHA_VERSION_{name} ")));
        line.expect(name).parse().expect(name)
    };
    assert_eq!(givuntha::version(), part("MAJOR") * 10_000 + part("MINOR") * 100 + part("PATCH"));
    assert_eq!(env!("CARGO_PKG_VERSION"), format!("{}.{}.{}", part("MAJOR"), part("MINOR"), part("PATCH")));
}

/// The C functions of a text with their parameters' names; `begin` is what stands before a name, `end` behind the list.
fn functions(text: &str, begin: &str, end: &str, name: fn(&str) -> Option<&str>) -> Vec<String> {
    let told = |rest: &str| {
        let (function, list) = rest.split_once(end)?.0.split_once('(')?;
        let names = list.split(',').filter_map(|one| name(one.trim())).filter(|name| !["", "void"].contains(name));
        Some(format!("{function}({})", names.collect::<Vec<_>>().join(", ")))
    };
    text.split(begin).skip(1).filter_map(told).collect()
}

#[test]
fn the_functions_are_those_of_the_header() {
    let declared = functions(&header(), "\nuint32_t ", ");", |one| one.rsplit([' ', '*']).next());
    let raw = functions(include_str!("../src/raw.rs"), "pub fn ", ") -> u32;", |one| one.split(':').next());
    assert_eq!(declared, raw);
    let names: Vec<&str> = declared.iter().filter_map(|one| one.split('(').next()).collect();
    let entries = ["version", "check", "start", "reading", "preview"].map(|name| format!("givuntha_{name}"));
    assert_eq!(names, entries);
    assert!(declared.contains(&"givuntha_start(agreement, agreement_bytes, table, table_cells, time, parties)".into()));
    let parameters =
        "agreement, agreement_bytes, table, table_cells, reading, reading_bytes, time, parties, early, cost";
    assert!(declared.contains(&format!("givuntha_reading({parameters})")), "{declared:?}");
    let with_second = parameters.replace(" time,", " second, second_cells, time,");
    assert!(declared.contains(&format!("givuntha_preview({with_second})")), "{declared:?}");
}

/// What is only read is so in both: no cell of a preview's first table can be written by it.
#[test]
fn what_is_only_read_is_that_of_the_header() {
    let header = header();
    let read: Vec<&str> = header.split("const int64_t *").skip(1).filter_map(|rest| rest.split(',').next()).collect();
    assert_eq!(read, ["table"]);
    let preview = include_str!("../src/raw.rs").split_once("givuntha_preview(").expect("a preview").1;
    assert!(preview.contains("table: *const i64,") && preview.contains("second: *mut i64,"));
}

/// Every answer of the header has words, and no two the same.
#[test]
fn every_answer_has_words() {
    let header = header();
    let words: Vec<&str> = header.lines().filter_map(|line| line.trim().strip_prefix("case GIVUNTHA_")).collect();
    assert_eq!(words.len(), Refusal::ALL.len() + 1);
    for refusal in Refusal::ALL {
        let case = name(refusal);
        let case = case.trim_start_matches("GIVUNTHA_");
        assert!(words.iter().any(|word| word.starts_with(&format!("{case}: return \""))), "{case}");
    }
}
