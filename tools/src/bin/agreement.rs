//! The command `agreement`.

use std::fmt::Display;
use std::process::ExitCode;
use tools::check::{check, Accepted};
use tools::decode::decode;
use tools::explain::Context;
use tools::files::read;
use tools::output::{complain, result};
use tools::readings::readings;
use tools::shown::printable;
use tools::{disassemble, examples, explain, run, sizes, timeline};

const USAGE: &str = "\
usage: agreement check FILE                     what is wrong with the text of an agreement, and where
       agreement sizes [--json] FILE            the least units that its templates can declare
       agreement assemble FILE                  text to an agreement record, if it is accepted
       agreement disassemble FILE               an agreement record to text with invented names
       agreement readings [--for TEXT] FILE     lines `TIME TYPE VALUE..` to reading records
       agreement explain [--for TEXT | --agreement RECORD] TABLE
                                                a table of 24,640 bytes in words
       agreement run [--json] [--cost] TEXT READINGS
                                                what each reading did (and cost), what is ahead, how it ends
       agreement run [--json] [--cost] --preview READING TEXT READINGS
                                                the same, then what READING, in quotes, would do; it is not entered
       agreement run [--json] [--cost] --follow TEXT
                                                the same of lines from standard input, as they come
       agreement run --records STREAM           the lines that brinewatch writes for a stream of records
       agreement test FOLDER..                  every *.readings of a folder against the *.out beside it
       agreement timeline [--html] TEXT READINGS
                                                a run as a picture (SVG), or as a page with its story
       agreement COMMAND --help, agreement --version

One FILE may be - for standard input. Results go to standard output; what is wrong with an input goes
to standard error as FILE:LINE:COLUMN. Exit status: 0 all is well, 1 breached (run) or not as expected
(test), 2 an input is wrong or refused or the output cannot be written, 3 wrong arguments.

This tool is not proved. Whether an agreement is accepted is decided by the monitor's proved entry
`check` alone, which is given the record, and every verdict of a run is the proved monitor's; the tool
only explains.
";

const VERSION: &str = concat!("agreement ", env!("CARGO_PKG_VERSION"), "\n");

/// The exit status where an input is wrong or refused.
const REFUSED: u8 = 2;
/// The exit status where the arguments are wrong.
const MISUSED: u8 = 3;

fn main() -> ExitCode {
    // Arguments that are no text are none that the command knows.
    let arguments = std::env::args_os().skip(1).map(|argument| argument.into_string());
    let arguments: Vec<String> = arguments.collect::<Result<_, _>>().unwrap_or_default();
    let arguments: Vec<&str> = arguments.iter().map(String::as_str).collect();
    let asked = |options: [&str; 2]| arguments.iter().any(|argument| options.contains(argument));
    let output = match arguments[..] {
        _ if asked_twice(&arguments) => {
            complain("standard input can be only one of the files");
            return ExitCode::from(MISUSED);
        }
        ["help"] => Ok(USAGE.as_bytes().to_vec()),
        _ if asked(["--help", "-h"]) => Ok(USAGE.as_bytes().to_vec()),
        _ if asked(["--version", "-V"]) => Ok(VERSION.as_bytes().to_vec()),
        ["run", ref rest @ ..] => return run::command(rest),
        ["test", ref rest @ ..] => return examples::command(rest),
        ["timeline", ref rest @ ..] => return timeline::command(rest),
        ["sizes", ref rest @ ..] => return sizes::command(rest),
        ["check", file] => accepted(file).map(|accepted| accepted.told(file).into_bytes()),
        ["assemble", file] => accepted(file).map(|accepted| accepted.assembled.bytes),
        ["disassemble", file] => disassembled(file).map(String::into_bytes),
        ["readings", file] => stream(file, None),
        ["readings", "--for", text, file] => stream(file, Some(text)),
        ["explain", table] => explained(table, None),
        ["explain", "--for", text, table] => explained_for(table, text),
        ["explain", "--agreement", record, table] => explained_by(table, record),
        _ => {
            complain(USAGE.trim_end());
            return ExitCode::from(MISUSED);
        }
    };
    match output.and_then(|bytes| result(&bytes)) {
        Ok(()) => ExitCode::SUCCESS,
        Err(what) => {
            complain(&what);
            ExitCode::from(REFUSED)
        }
    }
}

/// Whether two files are to be standard input, so that the second would be empty.
fn asked_twice(arguments: &[&str]) -> bool {
    let readings = usize::from(arguments.contains(&"--follow"));
    arguments.iter().filter(|argument| **argument == "-").count() + readings > 1
}

fn accepted(file: &str) -> Result<Accepted, String> {
    let text = read(file)?;
    check(&text).map_err(|refused| refused.told(file, &text))
}

fn disassembled(file: &str) -> Result<String, String> {
    disassemble(&read(file)?).map_err(|fault| told(file, fault))
}

fn stream(file: &str, text: Option<&str>) -> Result<Vec<u8>, String> {
    let accepted = text.map(accepted).transpose()?;
    let agreement = accepted.as_ref().map(|accepted| &accepted.assembled.agreement);
    readings(&read(file)?, agreement).map_err(|fault| format!("{}:{fault}", printable(file)))
}

fn explained(table: &str, context: Option<Context>) -> Result<Vec<u8>, String> {
    let words = explain(&read(table)?, context).map_err(|what| told(table, what))?;
    Ok(words.into_bytes())
}

fn explained_for(table: &str, text: &str) -> Result<Vec<u8>, String> {
    let assembled = accepted(text)?.assembled;
    explained(table, Some(Context { agreement: &assembled.agreement, dated: assembled.dated }))
}

fn explained_by(table: &str, record: &str) -> Result<Vec<u8>, String> {
    let agreement = decode(&read(record)?).map_err(|fault| told(record, fault))?;
    explained(table, Some(Context { agreement: &agreement, dated: false }))
}

fn told(file: &str, what: impl Display) -> String {
    format!("{}: {what}", printable(file))
}
