//! The command `agreement test`: folders of readings with the verdicts that must come.
//!
//! A folder has `agreement.csl`, and to each `NAME.readings` a `NAME.out` with the lines that
//! `brinewatch` writes for it.

use crate::fault::unmarked;
use crate::output::lost;
use crate::readings::readings;
use crate::run::records::lines;
use crate::shown::printable;
use crate::status::{exit, usage};
use crate::{assemble, files, Assembled};
use std::io::{self, Write};
use std::path::{Path, PathBuf};
use std::process::ExitCode;

pub fn command(folders: &[&str]) -> ExitCode {
    if folders.is_empty() {
        return usage("agreement test FOLDER..");
    }
    match told(folders, io::stdout().lock()) {
        Ok(passed) => ExitCode::from(u8::from(!passed)),
        Err(error) => exit(Err(lost(error))),
    }
}

/// Tells what does not come out as expected, and whether all do.
fn told(folders: &[&str], mut output: impl Write) -> io::Result<bool> {
    let (mut passed, mut failed) = (0, 0);
    for result in folders.iter().flat_map(|folder| results(Path::new(folder))) {
        match result {
            Ok(()) => passed += 1,
            Err(what) => {
                writeln!(output, "FAILED: {what}")?;
                failed += 1;
            }
        }
    }
    writeln!(output, "{passed} passed, {failed} failed")?;
    output.flush()?;
    Ok(failed == 0 && passed > 0)
}

/// What came of each `*.readings`, and what the folder lacks.
fn results(folder: &Path) -> Vec<Result<(), String>> {
    let (agreement, files) = match opened(folder) {
        Ok(opened) => opened,
        Err(what) => return vec![Err(what)],
    };
    let ending = |wanted: &'static str| files.iter().filter(move |file| file.extension().is_some_and(|e| e == wanted));
    let mut results: Vec<_> = ending("readings").map(|file| compared(&agreement, file)).collect();
    if results.is_empty() {
        results.push(Err(format!("{}: no readings", name(folder))));
    }
    let alone = ending("out").filter(|file| !file.with_extension("readings").exists());
    results.extend(alone.map(|file| Err(format!("{}: no readings of that name", name(file)))));
    results
}

/// The folder's agreement, and its files in the order of their names.
fn opened(folder: &Path) -> Result<(Assembled, Vec<PathBuf>), String> {
    let text = folder.join("agreement.csl");
    let agreement = assemble(&files::read(&text.to_string_lossy())?);
    let agreement = agreement.map_err(|fault| format!("{}:{fault}", name(&text)))?;
    let entries = folder.read_dir().and_then(|entries| entries.map(|entry| Ok(entry?.path())).collect());
    let mut files: Vec<PathBuf> = entries.map_err(|error| format!("{}: {error}", name(folder)))?;
    files.sort();
    Ok((agreement, files))
}

/// Runs a file of readings and compares the verdicts with those beside it.
fn compared(agreement: &Assembled, file: &Path) -> Result<(), String> {
    let beside = file.with_extension("out");
    let expected = files::read(&beside.to_string_lossy())?;
    let records = readings(&files::read(&file.to_string_lossy())?, Some(&agreement.agreement));
    let records = records.map_err(|fault| format!("{}:{fault}", name(file)))?;
    difference(agreement, &records, &expected).map_or(Ok(()), |what| Err(format!("{}:{what}", name(&beside))))
}

/// Where the verdicts of a run differ from those expected: the line, what was expected and what came.
pub fn difference(agreement: &Assembled, records: &[u8], expected: &[u8]) -> Option<String> {
    let expected = String::from_utf8_lossy(unmarked(expected));
    let written = lines(&[&agreement.bytes, records].concat());
    if written.lines().eq(expected.lines()) {
        return None;
    }
    let same = written.lines().zip(expected.lines()).take_while(|(written, expected)| written == expected).count();
    let line =
        |text: &str| text.lines().nth(same).map_or("nothing".to_string(), |line| format!("`{}`", printable(line)));
    Some(format!("{}: {} expected, {} came", same + 1, line(&expected), line(&written)))
}

/// A file as messages name it.
fn name(file: &Path) -> String {
    printable(&file.to_string_lossy())
}
