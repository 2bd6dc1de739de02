//! What surrounds the command: full disks, closed pipes, files of other systems and editors.

mod common;

use common::{agreement, command, complaint, read, root, text, written};
use std::fs::{self, File};
use std::path::PathBuf;
use std::process::{Command, Stdio};

const TEXT: &str = "examples/pond/agreement.csl";
const READINGS: &str = "examples/pond/season.readings";
const SIZED: &str = "examples/contractor/agreement.csl";

/// Every command that writes a result.
const COMMANDS: [&[&str]; 16] = [
    &["check", TEXT],
    &["sizes", SIZED],
    &["sizes", "--json", SIZED],
    &["assemble", TEXT],
    &["readings", "--for", TEXT, READINGS],
    &["run", TEXT, READINGS],
    &["run", "--json", TEXT, READINGS],
    &["run", "--cost", TEXT, READINGS],
    &["run", "--preview", "2026-09-30 mark", TEXT, READINGS],
    &["run", "--json", "--preview", "2026-09-30 mark", TEXT, READINGS],
    &["run", "--follow", TEXT],
    &["run", "--records", "crates/brinewatch/stdin"],
    &["timeline", TEXT, READINGS],
    &["timeline", "--html", TEXT, READINGS],
    &["test", "examples/pond"],
    &["--help"],
];

fn full() -> File {
    File::options().write(true).open("/dev/full").expect("a device without room")
}

/// A disk without room: it is said, and the status is that of a failure.
#[test]
fn no_room_for_the_result() {
    for arguments in COMMANDS {
        let output = command(arguments).stdin(Stdio::null()).stdout(full()).output().expect("the command");
        let told = text(&output.stderr);
        assert!(told.starts_with("standard output: ") && told.matches('\n').count() == 1, "{arguments:?}: {told}");
        assert_eq!(output.status.code(), Some(2), "{arguments:?}");
    }
    let refused: [&[&str]; 2] = [&["run", "--json", READINGS, READINGS], &["sizes", "--json", READINGS]];
    for arguments in refused {
        let output = command(arguments).stdin(Stdio::null()).stdout(full()).output().expect("the command");
        let told = text(&output.stderr);
        assert!(told.contains("expected `parties`") && told.contains("\nstandard output: "), "{told}");
        assert_eq!(output.status.code(), Some(2), "{arguments:?}");
    }
}

/// No room for complaints either: the status tells it.
#[test]
fn no_room_for_complaints() {
    let wrong: [(&[&str], i32); 7] = [
        (&["check", READINGS], 2),
        (&["sizes", READINGS], 2),
        (&["sizes"], 3),
        (&["run", READINGS, READINGS], 2),
        (&["run", "--follow", READINGS], 2),
        (&["timeline", "a"], 3),
        (&["print"], 3),
    ];
    for (arguments, status) in wrong {
        let output = command(arguments).stdin(Stdio::null()).stderr(full()).output().expect("the command");
        assert_eq!(output.status.code(), Some(status), "{arguments:?}");
    }
}

/// A reader that goes away ends the command with a word about it, and no more.
#[test]
fn a_reader_that_goes_away() {
    for arguments in COMMANDS {
        let (reader, writer) = std::io::pipe().expect("a pipe");
        drop(reader);
        let output = command(arguments).stdin(Stdio::null()).stdout(writer).output().expect("the command");
        assert_eq!(output.status.code(), Some(2), "{arguments:?}");
        assert!(text(&output.stderr).starts_with("standard output: Broken pipe"), "{arguments:?}");
    }
}

/// A folder of its own for one test.
fn folder(name: &str) -> PathBuf {
    let folder = std::env::temp_dir().join(format!("agreement-{name}-{}", std::process::id()));
    fs::create_dir_all(&folder).expect("a folder");
    folder
}

/// What the command writes in a folder, for files `agreement.csl` and `season.readings` there.
fn in_folder(arguments: &[&str], folder: &PathBuf) -> Vec<u8> {
    let output = Command::new(env!("CARGO_BIN_EXE_agreement")).args(arguments).current_dir(folder).output();
    let output = output.expect("the command");
    assert_eq!(text(&output.stderr), "", "{arguments:?}");
    output.stdout
}

/// Ends of lines as Windows has them, a mark before the text, no newline at the end: the same comes out.
#[test]
fn files_of_other_systems() {
    let right = root().join("examples/pond");
    let folder = folder("other");
    let plain = |file: &str| text(&fs::read(right.join(file)).expect("a file"));
    let windows = |file: &str| plain(file).replace('\n', "\r\n");
    let marked = |file: &str| format!("\u{feff}{}", plain(file));
    let unended = |file: &str| plain(file).trim_end().to_string();
    let forms: [&dyn Fn(&str) -> String; 4] = [&plain, &windows, &marked, &unended];
    for form in forms {
        for file in ["agreement.csl", "season.readings", "season.out"] {
            fs::write(folder.join(file), form(file)).expect("a file");
        }
        let files = ["agreement.csl", "season.readings"];
        for command in [&["assemble", files[0]][..], &["run", files[0], files[1]], &["timeline", files[0], files[1]]] {
            assert_eq!(in_folder(command, &folder), in_folder(command, &right), "{command:?}");
        }
        assert_eq!(text(&in_folder(&["test", "."], &folder)), "1 passed, 0 failed\n");
    }
    fs::remove_dir_all(&folder).expect("the folder");
}

/// The mark before a text does not move what is shown of its first line.
#[test]
fn a_mark_before_a_mistake() {
    let told = complaint(&["check", "-"], b"\xef\xbb\xbfpartys A", 2);
    assert!(told.starts_with("-:1:1: expected `parties`, found `partys`"), "{told}");
    assert!(told.contains("\n  1 | partys A\n    | ^^^^^^\n"), "{told}");
}

/// Carriage returns alone end no line: what stands behind them is not lost in a comment.
#[test]
fn carriage_returns_alone() {
    let what = "a carriage return inside a line: lines end with a newline, or with both";
    let lines = b"-- the first\r\n110 Salinity 240 -- too little\r160 Salinity 250\n";
    assert_eq!(complaint(&["readings", "-"], lines, 2), format!("-:2:31: {what}\n"));
    let told = complaint(&["check", "-"], b"parties A -- one\rreadings E()\nin fulfilment starting 0", 2);
    assert!(told.starts_with(&format!("-:1:17: {what}\n")), "{told}");
    let told =
        agreement(&["run", "--follow", "tools/tests/sample.csl"], b"110 mark -- a\r120 mark\n160 Salinity 250\n");
    assert_eq!((text(&told.stderr), told.status.code()), (format!("-:1:14: {what}\n"), Some(2)));
}

/// Standard input is read once.
#[test]
fn standard_input_twice() {
    let twice: [&[&str]; 4] =
        [&["run", "-", "-"], &["run", "--follow", "-"], &["timeline", "-", "-"], &["readings", "--for", "-", "-"]];
    for arguments in twice {
        let told = complaint(arguments, &read(TEXT), 3);
        assert_eq!(told, "standard input can be only one of the files\n", "{arguments:?}");
    }
}

#[test]
fn empty_files() {
    for arguments in [["check", "/dev/null"], ["sizes", "/dev/null"], ["assemble", "/dev/null"]] {
        assert!(
            complaint(&arguments, b"", 2).starts_with("/dev/null:1:1: expected `parties`, found the end of the text\n")
        );
    }
    let running = written(&["run", "tools/tests/sample.csl", "/dev/null"], b"", 0);
    assert!(running.contains("\nRUNNING, last moved at 100\n"), "{running}");
    assert_eq!(written(&["run", "--follow", "tools/tests/sample.csl"], b"", 0), running);
    assert_eq!(written(&["run", "--records", "/dev/null"], b"", 2), "0 - REFUSED 1\n");
}

/// What a file of verdicts holds is shown without what would turn or hide the rest.
#[test]
fn expected_verdicts_with_control_characters() {
    let folder = folder("verdicts");
    fs::write(folder.join("agreement.csl"), read("tools/tests/sample.csl")).expect("a file");
    fs::write(folder.join("a.readings"), "110 mark\n").expect("a file");
    fs::write(folder.join("a.out"), "0 100 LIVE 160 1\n1 110 \u{1b}[2J\n").expect("a file");
    let told = written(&["test", &folder.to_string_lossy()], b"", 1);
    fs::remove_dir_all(&folder).expect("the folder");
    assert!(told.contains("a.out:2: `1 110 \\u{1b}[2J` expected, `1 110 LIVE 160 1` came\n"), "{told:?}");
}
