//! Readings from standard input, each told as soon as its line is whole.

use super::teller::{opened, Form, Teller};
use crate::fault::{utf8, Fault, Place};
use crate::model::Agreement;
use crate::output::complain;
use crate::readings::{reading, Reading};
use crate::source::Source;
use crate::status::Status;
use crate::story::Story;
use std::io::{self, BufRead, Write};

pub fn follow(text: &str, form: Form) -> Result<Status, String> {
    let source = opened(text, form)?;
    let mut input = io::stdin().lock();
    followed(&source, form, &mut input, io::stdout().lock(), |fault| complain(&format!("-:{fault}")))
}

/// A line that is no reading is complained of and passed over, so that a slip does not end the watch;
/// the status at the end is then 2, or 1 if the agreement is breached.
pub fn followed(
    source: &Source,
    form: Form,
    input: &mut impl BufRead,
    output: impl Write,
    mut complain: impl FnMut(Fault),
) -> Result<Status, String> {
    let mut teller = Teller::new(source, "-", form, output);
    let (mut story, start) = match Story::start(source) {
        Ok(started) => started,
        Err(refusal) => return teller.refused(refusal),
    };
    teller.event(&start)?;
    let mut wrong = false;
    for number in 1.. {
        let mut line = Vec::new();
        if input.read_until(b'\n', &mut line).map_err(|error| format!("-: {error}"))? == 0 {
            break;
        }
        match of_line(number, &line, &source.assembled.agreement) {
            Ok(None) => {}
            Ok(Some(reading)) => teller.event(&story.reading(number, &reading))?,
            Err(fault) => {
                complain(fault);
                wrong = true;
            }
        }
    }
    let status = teller.ending(&story.ending())?;
    Ok(if wrong && status == Status::Well { Status::Refused } else { status })
}

fn of_line(number: usize, line: &[u8], agreement: &Agreement) -> Result<Option<Reading>, Fault> {
    let in_line = |fault: Fault| Fault { at: Place { line: number, ..fault.at }, ..fault };
    reading(number, utf8(line).map_err(in_line)?, Some(agreement))
}
