//! Runs a stream of `brinewatch` (an agreement, then readings) from standard input, and writes the table that it ends
//! with to standard output: 3,080 cells of 64 bits, little-endian.
//!
//! A refused start is an error. A refused reading is told on standard error and passed over; one that is no whole
//! record (8) ends the input, as in `brinewatch`, since what follows it cannot be told apart.

use givuntha::{record, Refusal, Table};
use std::error::Error;
use std::io::{self, Read, Write};
use std::process::ExitCode;

fn main() -> ExitCode {
    match run(&mut io::stdin().lock(), &mut io::stdout().lock()) {
        Ok(()) => ExitCode::SUCCESS,
        Err(error) => {
            eprintln!("table: {error}");
            ExitCode::FAILURE
        }
    }
}

fn run(input: &mut impl Read, output: &mut impl Write) -> Result<(), Box<dyn Error>> {
    let agreement = record::next(input)?.unwrap_or_default();
    let (mut table, _) = Table::start(&agreement).map_err(|refusal| told("the agreement is", refusal))?;
    for n in 1u64.. {
        let Some(reading) = record::next(input)? else { break };
        if let Err(refused) = table.reading(&agreement, &reading) {
            let refusal = refused.refusal();
            eprintln!("table: {}", told(&format!("reading {n} is"), refusal));
            if refusal == Refusal::ReadingForm {
                break;
            }
        }
    }
    output.write_all(&bytes(&table))?;
    Ok(output.flush()?)
}

fn told(what: &str, refusal: Refusal) -> String {
    format!("{what} refused with {}: {refusal}", refusal.number())
}

fn bytes(table: &Table) -> Vec<u8> {
    table.cells().iter().flat_map(|cell| cell.to_le_bytes()).collect()
}
