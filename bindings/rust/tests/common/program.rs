//! The paper's program `brinewatch` over this crate.

use givuntha::{record, Breach, Refusal, Refused, State, Table};

/// What the program writes for an input.
pub fn watch(mut input: &[u8]) -> String {
    let agreement = next(&mut input).unwrap_or_default();
    let (mut table, ahead) = match Table::start(&agreement) {
        Ok(started) => started,
        Err(refusal) => return format!("0 - REFUSED {}\n", refusal.number()),
    };
    let mut written = format!("0 {} {}\n", time(&agreement), verdict(&table, ahead));
    for line in 1.. {
        let Some(reading) = next(&mut input) else { break };
        match table.reading(&agreement, &reading) {
            Ok(taken) => written += &format!("{line} {} {}\n", time(&reading), verdict(&table, taken.ahead)),
            Err(Refused::Other(Refusal::ReadingForm)) => return written + &format!("{line} - REFUSED 8\n"),
            Err(refused) => written += &format!("{line} {} REFUSED {}\n", time(&reading), refused.number()),
        }
    }
    written
}

fn next(input: &mut &[u8]) -> Option<Vec<u8>> {
    record::next(input).expect("bytes in memory")
}

/// The start time of an agreement or the time of a reading: both stand after length and kind.
fn time(record: &[u8]) -> u32 {
    u32::from_le_bytes([record[4], record[5], record[6], record[7]])
}

fn verdict(table: &Table, ahead: Option<Breach>) -> String {
    let word = match table.state().expect("a state") {
        State::Fulfilled => return "DONE".to_string(),
        State::Running => "LIVE",
        State::Breached(_) => "BREACH",
    };
    match ahead {
        Some(breach) => format!("{word} {} {}", breach.time, breach.parties.bits()),
        None => format!("{word} NONE"),
    }
}
