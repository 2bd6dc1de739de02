//! The paper's program `brinewatch`: reads the agreement, then readings, from standard input, and
//! writes one line for the start and one for each reading. Paper 02, No. 2: "the program calls the
//! joined ones", one call for each line.

use reference::table::{BREACHED, FULFILLED, STATE};
use reference::{reading, start, Forecast, CELLS};
use std::io::{self, BufRead, BufReader, Read, Write};

fn main() -> io::Result<()> {
    watch(&mut BufReader::new(io::stdin().lock()), &mut io::stdout().lock())
}

fn watch(input: &mut impl BufRead, output: &mut impl Write) -> io::Result<()> {
    // "begins with a table of 3,080 zeros"
    let mut table = [0; CELLS];
    let agreement = record(input)?;
    let started = start(&agreement, &mut table);
    if started.number != 0 {
        return writeln!(output, "0 - REFUSED {}", started.number);
    }
    writeln!(output, "0 {} {}", time(&agreement), verdict(&table, started.forecast))?;
    for line in 1.. {
        let bytes = record(input)?;
        // "Input that ends after a whole record ends the run without a line."
        if bytes.is_empty() {
            break;
        }
        // The mark and the cost of paper 02, No. 8 and No. 9, are the entry's; the program's fields are paper 01's.
        let taken = reading(&agreement, &mut table, &bytes);
        match taken.number {
            0 => writeln!(output, "{line} {} {}", time(&bytes), verdict(&table, taken.forecast))?,
            // "a reading refused with 8, print `-` as time and end the run"
            8 => return writeln!(output, "{line} - REFUSED 8"),
            refusal => writeln!(output, "{line} {} REFUSED {refusal}", time(&bytes))?,
        }
    }
    Ok(())
}

/// "Each record is taken by its length field; one cut short by the end of input is refused with 1
/// or 8." Gives what there is of it.
fn record(input: &mut impl BufRead) -> io::Result<Vec<u8>> {
    let mut taken = Vec::new();
    input.by_ref().take(2).read_to_end(&mut taken)?;
    if let [low, high] = taken[..] {
        let rest = u64::from(u16::from_le_bytes([low, high])).saturating_sub(2);
        input.by_ref().take(rest).read_to_end(&mut taken)?;
    }
    Ok(taken)
}

/// The start time of an agreement or the time of a reading: both stand after length and kind.
fn time(record: &[u8]) -> u32 {
    u32::from_le_bytes([record[4], record[5], record[6], record[7]])
}

/// The word, "and for LIVE and BREACH the forecast time and party bits in decimal, or NONE".
fn verdict(table: &[i64], forecast: Forecast) -> String {
    let word = match table[STATE] {
        FULFILLED => return "DONE".to_string(),
        BREACHED => "BREACH",
        _ => "LIVE",
    };
    match forecast {
        Some((time, parties)) => format!("{word} {time} {parties}"),
        None => format!("{word} NONE"),
    }
}
