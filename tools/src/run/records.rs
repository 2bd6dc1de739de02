//! A stream of records, as `brinewatch` takes it: an agreement, then readings.

use super::{Run, Step, Verdict};
use givuntha::{record, Refusal};
use std::io::{self, Read};

/// Runs a stream and gives each step away as it is made. The last verdict is the answer.
///
/// "A refused start, and a reading refused with 8, print `-` as time and end the run."
pub fn records(input: &mut impl Read, mut told: impl FnMut(Step) -> io::Result<()>) -> io::Result<Verdict> {
    let agreement = record::next(input)?.unwrap_or_default();
    let mut run = match Run::start(agreement) {
        Ok(run) => run,
        Err(refusal) => {
            let verdict = Verdict::Refused(refusal);
            told(Step { number: 0, time: None, verdict, early: false, cost: None })?;
            return Ok(verdict);
        }
    };
    told(run.started())?;
    while let Some(reading) = record::next(input)? {
        let step = run.reading(&reading);
        told(step)?;
        if step.verdict == Verdict::Refused(Refusal::ReadingForm) {
            break;
        }
    }
    Ok(run.verdict())
}

/// The lines that `brinewatch` writes for a stream.
pub fn lines(mut stream: &[u8]) -> String {
    let mut lines = String::new();
    let told = |step| {
        lines += &format!("{step}\n");
        Ok(())
    };
    // Bytes in memory can always be read.
    let _ = records(&mut stream, told);
    lines
}
