//! The command `agreement run`.

use super::follow::follow;
use super::records::records;
use super::teller::{opened, Form, Teller};
use crate::readings::{numbered, Reading};
use crate::shown::printable;
use crate::source::Source;
use crate::status::{exit, usage, Status};
use crate::story::Story;
use crate::{files, output};
use std::io::{self, Write};
use std::process::ExitCode;

const USAGE: &str = "\
agreement run [--json] [--cost] TEXT READINGS
       agreement run [--json] [--cost] --preview READING TEXT READINGS
       agreement run [--json] [--cost] --follow TEXT
       agreement run --records STREAM";

pub fn command(arguments: &[&str]) -> ExitCode {
    let Some((preview, arguments)) = with_preview(arguments) else { return usage(USAGE) };
    let (options, files): (Vec<&str>, Vec<&str>) = arguments.iter().partition(|word| word.starts_with("--"));
    let asked = |option: &str| options.contains(&option);
    let form = match (asked("--json"), asked("--cost")) {
        // The objects have the cost in any case.
        (true, _) => Form::Json,
        (false, true) => Form::Costs,
        (false, false) => Form::Text,
    };
    let others: Vec<&str> = options.into_iter().filter(|option| !["--json", "--cost"].contains(option)).collect();
    match (&others[..], &files[..], preview, form) {
        ([], [text, readings], _, _) => exit(run(text, readings, preview, form)),
        (["--follow"], [text], None, _) => exit(follow(text, form)),
        (["--records"], [stream], None, Form::Text) => exit(raw(stream)),
        _ => usage(USAGE),
    }
}

/// The reading behind `--preview`, if it is asked for, and the other arguments; nothing where no reading stands there.
fn with_preview<'a>(arguments: &[&'a str]) -> Option<(Option<&'a str>, Vec<&'a str>)> {
    let Some(at) = arguments.iter().position(|word| *word == "--preview") else {
        return Some((None, arguments.to_vec()));
    };
    let reading = arguments.get(at + 1).filter(|word| !word.starts_with("--"))?;
    Some((Some(reading), [&arguments[..at], &arguments[at + 2..]].concat()))
}

/// A file of readings: all its lines are read before the first is given to the run.
fn run(text: &str, readings: &str, preview: Option<&str>, form: Form) -> Result<Status, String> {
    let source = opened(text, form)?;
    let preview = preview.map(|line| one_reading(line, &source)).transpose()?;
    told(&source, readings, &files::readings(readings, &source)?, preview.as_ref(), form, io::stdout().lock())
}

/// The reading of the argument of `--preview`.
fn one_reading(line: &str, source: &Source) -> Result<Reading, String> {
    let readings = numbered(line.as_bytes(), Some(&source.assembled.agreement));
    let readings = readings.map_err(|fault| format!("--preview:{fault}"))?;
    let [(_, reading)] = <[_; 1]>::try_from(readings)
        .map_err(|readings| format!("--preview: one reading is wanted, {} given", readings.len()))?;
    Ok(reading)
}

/// Tells a run to its end, and then what one more reading would do; `name` is the file of the readings.
pub fn told(
    source: &Source,
    name: &str,
    readings: &[(usize, Reading)],
    preview: Option<&Reading>,
    form: Form,
    output: impl Write,
) -> Result<Status, String> {
    let mut teller = Teller::new(source, name, form, output);
    let (mut story, start) = match Story::start(source) {
        Ok(started) => started,
        Err(refusal) => return teller.refused(refusal),
    };
    teller.event(&start)?;
    for (line, reading) in readings {
        teller.event(&story.reading(*line, reading))?;
    }
    let status = teller.ending(&story.ending())?;
    if let Some(reading) = preview {
        teller.preview(&story.preview(reading))?;
    }
    Ok(status)
}

/// A stream of records, as the program `brinewatch` takes it.
fn raw(stream: &str) -> Result<Status, String> {
    let mut output = io::stdout().lock();
    let mut lost = None;
    let told = |step| {
        let written = writeln!(output, "{step}").and_then(|()| output.flush());
        written.inspect_err(|error| lost = Some(output::lost(error)))
    };
    let verdict = match stream {
        "-" => records(&mut io::stdin().lock(), told),
        _ => records(&mut &files::read(stream)?[..], told),
    };
    let what = |error| lost.unwrap_or_else(|| format!("{}: {error}", printable(stream)));
    verdict.map(|verdict| Status::of(&verdict)).map_err(what)
}
