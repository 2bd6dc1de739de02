//! What is done with a damaged input. Each trial answers whether the input was still taken.

use super::corpus::Corpus;
use super::damage::{damaged, jumbled};
use super::json;
use super::random::Random;
use super::runs::{follow, picture, preview, records, run, test};
use tools::check::{check, Verdict};
use tools::explain::Context;
use tools::readings::readings;
use tools::sizes::Sizes;
use tools::{assemble, disassemble, explain};

type Trial = fn(&mut Random, &Corpus) -> bool;

pub const TRIALS: [(&str, Trial); 11] = [
    ("text", text as Trial),
    ("sizes", sizes),
    ("record", record),
    ("lines", lines),
    ("table", table),
    ("run", run),
    ("preview", preview),
    ("follow", follow),
    ("picture", picture),
    ("records", records),
    ("test", test),
];

fn text(random: &mut Random, corpus: &Corpus) -> bool {
    let (text, other) = (random.pick(&corpus.texts), random.pick(&corpus.texts));
    let text = if random.below(8) == 0 { jumbled(random) } else { damaged(random, text, other) };
    match check(&text) {
        Ok(accepted) => {
            assert!(accepted.told("text").ends_with('\n'));
            let assembled = assemble(&text).unwrap_or_else(|fault| panic!("{fault}"));
            assert_eq!(assembled.bytes, accepted.assembled.bytes);
            true
        }
        Err(refused) => {
            assert!(!matches!(refused.verdict, Verdict::Disagreement(_)), "{refused:?}");
            assert!(refused.faults.is_sorted_by_key(|fault| fault.at), "{refused:?}");
            let told = refused.told("text", &text);
            assert!(told.chars().all(|c| c == '\n' || !c.is_control()), "{told:?}");
            false
        }
    }
}

/// Sizes that are found are the library's too, and what is not found is told.
fn sizes(random: &mut Random, corpus: &Corpus) -> bool {
    let (text, other) = (random.pick(&corpus.texts), random.pick(&corpus.texts));
    let found = Sizes::of("text", &damaged(random, text, other));
    let object = found.object().to_string();
    let object = json::parse(&object).unwrap_or_else(|what| panic!("{what}: {object}"));
    assert_eq!(object.get("templates").list().len(), found.templates.len());
    match found.because {
        Some(told) => {
            assert!(!told.contains("a mistake of this tool"), "{told}");
            assert!(told.chars().all(|c| c == '\n' || !c.is_control()), "{told:?}");
            false
        }
        None => found.main.is_some_and(|need| need <= 128),
    }
}

fn record(random: &mut Random, corpus: &Corpus) -> bool {
    let (record, other) = (random.pick(&corpus.agreements), random.pick(&corpus.agreements));
    let bytes = damaged(random, &record.bytes, &other.bytes);
    match disassemble(&bytes) {
        Ok(text) => {
            // The text is of the same record, so it is judged as the record is.
            let number = givuntha::check(&bytes).map_or_else(givuntha::Refusal::number, |_| 0);
            let judged = match check(text.as_bytes()) {
                Ok(_) => Some(0),
                Err(refused) => refused.faults.iter().filter_map(|fault| fault.refusal).min(),
            };
            assert_eq!(judged, Some(number), "{text}");
            true
        }
        Err(fault) => {
            assert!(givuntha::check(&bytes).is_err(), "{fault}");
            false
        }
    }
}

fn lines(random: &mut Random, corpus: &Corpus) -> bool {
    let (stream, other) = (random.pick(&corpus.streams), random.pick(&corpus.streams));
    let lines = damaged(random, &stream.lines, &other.lines);
    let agreement = &random.pick(&corpus.agreements).agreement;
    let named = random.below(2) == 0;
    match readings(&lines, Some(agreement).filter(|_| named)) {
        Ok(stream) => {
            let mut stream = &stream[..];
            while let Ok(Some(record)) = givuntha::record::next(&mut stream) {
                assert!((9..=25).contains(&record.len()), "{record:?}");
            }
            true
        }
        Err(fault) => {
            assert!(!fault.to_string().chars().any(char::is_control), "{fault:?}");
            false
        }
    }
}

/// A table of its agreement or of another, with some cells changed or bytes damaged.
fn table(random: &mut Random, corpus: &Corpus) -> bool {
    let (number, table) = random.pick(&corpus.tables);
    let mut table = table.clone();
    match random.below(4) {
        0 => table = damaged(random, &table, &[]),
        _ => {
            // The cells in use are the first ones.
            for _ in 0..random.below(4) {
                let cell = 8 * if random.below(4) == 0 { random.below(3_080) } else { random.below(8 + 5 * 24) };
                let value =
                    random.pick(&[0, 1, 2, 3, 17, 18, 20, 21, -1, i64::MAX, i64::MIN, 29_671_560, 4_294_967_295]);
                table[cell..cell + 8].copy_from_slice(&value.to_le_bytes());
            }
        }
    }
    let assembled = match random.below(5) {
        0 => random.pick(&corpus.agreements),
        _ => &corpus.agreements[*number],
    };
    let context = Context { agreement: &assembled.agreement, dated: assembled.dated };
    explain(&table, Some(context).filter(|_| random.below(4) > 0)).is_ok()
}
