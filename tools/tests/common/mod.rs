//! The command, run from the repository's root, and the files that it is run on.
#![allow(dead_code)]

use std::fs;
use std::io::Write;
use std::path::{Path, PathBuf};
use std::process::{Command, Output, Stdio};

pub fn root() -> PathBuf {
    Path::new(env!("CARGO_MANIFEST_DIR")).join("..")
}

pub fn command(arguments: &[&str]) -> Command {
    let mut command = Command::new(env!("CARGO_BIN_EXE_agreement"));
    command.args(arguments).current_dir(root()).stdin(Stdio::piped()).stdout(Stdio::piped()).stderr(Stdio::piped());
    command
}

/// What the command leaves, given this on standard input.
pub fn agreement(arguments: &[&str], input: &[u8]) -> Output {
    let mut child = command(arguments).spawn().expect("the command");
    // A command that does not read its input closes it; that is no failure of the trial.
    let _ = child.stdin.take().expect("its input").write_all(input);
    child.wait_with_output().expect("its output")
}

/// What it writes; it must end with this status and complain of nothing.
pub fn written(arguments: &[&str], input: &[u8], status: i32) -> String {
    let output = agreement(arguments, input);
    assert_eq!((output.status.code(), text(&output.stderr)), (Some(status), String::new()), "{arguments:?}");
    text(&output.stdout)
}

/// What it complains of; it must end with this status and write nothing.
pub fn complaint(arguments: &[&str], input: &[u8], status: i32) -> String {
    let output = agreement(arguments, input);
    assert_eq!((output.status.code(), text(&output.stdout)), (Some(status), String::new()), "{arguments:?}");
    text(&output.stderr)
}

pub fn text(bytes: &[u8]) -> String {
    String::from_utf8(bytes.to_vec()).expect("text")
}

/// The files of a folder under the root with an ending, sorted.
pub fn files(folder: &str, ending: &str) -> Vec<PathBuf> {
    let entries = fs::read_dir(root().join(folder)).expect(folder);
    let paths = entries.map(|entry| entry.expect("an entry").path());
    let mut files: Vec<_> = paths.filter(|path| path.extension().is_some_and(|found| found == ending)).collect();
    files.sort();
    files
}

/// Every example's text and readings, as paths from the root.
pub fn examples() -> Vec<(String, String)> {
    let mut examples = Vec::new();
    for entry in fs::read_dir(root().join("examples")).expect("examples") {
        let folder = format!("examples/{}", entry.expect("an entry").file_name().to_string_lossy());
        let text = format!("{folder}/agreement.csl");
        if root().join(&text).exists() {
            let name = |file: PathBuf| format!("{folder}/{}", file.file_name().expect("a name").to_string_lossy());
            examples.extend(files(&folder, "readings").into_iter().map(|file| (text.clone(), name(file))));
        }
    }
    examples.sort();
    assert!(examples.len() > 50, "only {} examples", examples.len());
    examples
}

pub fn read(file: &str) -> Vec<u8> {
    fs::read(root().join(file)).unwrap_or_else(|error| panic!("{file}: {error}"))
}
