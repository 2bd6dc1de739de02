//! The command: its results, its messages and its exit status.

use std::io::Write;
use std::process::{Command, Output, Stdio};

/// The exit status where an input is wrong or refused.
const REFUSED: i32 = 2;
/// The exit status where the arguments are wrong.
const MISUSED: i32 = 3;

const SAMPLE: &str = concat!(env!("CARGO_MANIFEST_DIR"), "/tests/sample.csl");

/// Runs the command with this on its standard input.
fn agreement(arguments: &[&str], input: &[u8]) -> Output {
    let mut command = Command::new(env!("CARGO_BIN_EXE_agreement"))
        .args(arguments)
        .stdin(Stdio::piped())
        .stdout(Stdio::piped())
        .stderr(Stdio::piped())
        .spawn()
        .expect("the command");
    // A command that does not read its input closes it; that is no failure of the trial.
    let _ = command.stdin.take().expect("its input").write_all(input);
    command.wait_with_output().expect("its output")
}

/// What it writes; it must end well and say nothing else.
fn written(arguments: &[&str], input: &[u8]) -> Vec<u8> {
    let output = agreement(arguments, input);
    assert_eq!((output.status.code(), text(&output.stderr)), (Some(0), String::new()), "{arguments:?}");
    output.stdout
}

/// What it complains of; it must write nothing.
fn complaint(arguments: &[&str], input: &[u8], status: i32) -> String {
    let output = agreement(arguments, input);
    assert_eq!((output.status.code(), output.stdout), (Some(status), Vec::new()), "{arguments:?}");
    text(&output.stderr)
}

fn text(bytes: &[u8]) -> String {
    String::from_utf8(bytes.to_vec()).expect("text")
}

#[test]
fn assemble_and_disassemble() {
    let record = written(&["assemble", SAMPLE], b"");
    assert_eq!(record.len(), 64);
    assert_eq!(written(&["assemble", "-"], include_bytes!("sample.csl")), record);
    let printed = written(&["disassemble", "-"], &record);
    let expected = "\
parties P0, P1
readings
  R1(v0: number)
in
  <P0> R1(v0) where !(v0 < 250) due within 60
starting 100
";
    assert_eq!(text(&printed), expected);
    assert_eq!(written(&["assemble", "-"], &printed), record);
}

#[test]
fn readings() {
    let lines = b"110 Salinity 240\n105 1 250 -- refused with 10\n160 Salinity 250\n";
    let stream = written(&["readings", "--for", SAMPLE, "-"], lines);
    assert_eq!(stream.len(), 39);
    assert_eq!(written(&["readings", "-"], b"110 1 240\n105 1 250\n160 1 250\n"), stream);
}

#[test]
fn explain() {
    let record = written(&["assemble", SAMPLE], b"");
    let mut cells = vec![0; reference::CELLS];
    assert_eq!(reference::start(&record, &mut cells).number, 0);
    let table: Vec<u8> = cells.iter().flat_map(|cell| cell.to_le_bytes()).collect();
    let words = text(&written(&["explain", "--for", SAMPLE, "-"], &table));
    assert!(
        words.starts_with("running, last reading at 100, last moved at 100\nKeeper owes Salinity(level)\n"),
        "{words}"
    );
    let words = text(&written(&["explain", "-"], &table));
    assert_eq!(
        words,
        "running, last reading at 100, last moved at 100\nan obligation at byte 17 of the agreement, since 100\n"
    );
    let file = std::env::temp_dir().join(format!("agreement-{}", std::process::id()));
    std::fs::write(&file, &record).expect("a file");
    let words = text(&written(&["explain", "--agreement", &file.to_string_lossy(), "-"], &table));
    std::fs::remove_file(&file).expect("the file");
    assert!(words.starts_with("running, last reading at 100, last moved at 100\nP0 owes R1(v0)\n"), "{words}");
}

#[test]
fn faults() {
    let told = "\
-:2:3: expected a party's name, found a number
  2 |   1
    |   ^
-: no record can be written of this text
";
    for command in ["check", "assemble"] {
        assert_eq!(complaint(&[command, "-"], b"parties\n  1", REFUSED), told);
    }
    assert_eq!(
        complaint(&["disassemble", "-"], &[5, 0, 1, 0, 0], REFUSED),
        "-: byte 4: the record ends before its parts do\n"
    );
    assert_eq!(complaint(&["readings", "-"], b"110 1\n5", REFUSED), "-:2:2: a reading is a time, a type and values\n");
    assert_eq!(complaint(&["explain", "-"], b"", REFUSED), "-: 0 bytes, where a table has 24,640\n");
    assert!(complaint(&["assemble", "no such file"], b"", REFUSED).starts_with("no such file: "));
}

const UNTYPED: &[u8] = b"parties A readings N(n: number) in <A> N(n) where n due within 5 starting 0";

/// The check says whom an accepted agreement can blame; nothing is made of a refused one.
#[test]
fn checks() {
    let accepted = text(&written(&["check", SAMPLE], b""));
    assert!(accepted.ends_with("sample.csl: accepted; 64 bytes; it can blame Keeper\n"), "{accepted}");
    let nobody = text(&written(&["check", "-"], b"parties A readings E() in fulfilment starting 0"));
    assert_eq!(nobody, "-: accepted; 20 bytes; it can blame nobody\n");
    let told = "\
-:1:51: the condition after `where` must be a truth, and `n` is a number (refusal 3)
  1 | parties A readings N(n: number) in <A> N(n) where n due within 5 starting 0
    |                                                   ^
-: refused with 3: not typed; name, literal, blame or declared party out of range; over 16 in sight
";
    for command in [&["check", "-"][..], &["assemble", "-"], &["readings", "--for", "-", SAMPLE]] {
        assert_eq!(complaint(command, UNTYPED, REFUSED), told, "{command:?}");
    }
}

/// What would turn or hide the rest of a message is spelt out, in names of files too.
#[test]
fn no_control_characters() {
    let told = complaint(&["check", "-"], b"parties \x1b[2J\x07", REFUSED);
    let expected = "\
-:1:9: `\\u{1b}` stands for nothing here
  1 | parties  [2J
    |         ^
-: no record can be written of this text
";
    assert_eq!(told, expected);
    assert_eq!(
        complaint(&["readings", "-"], b"5 1 \x1b", REFUSED),
        "-:1:5: `\\u{1b}` is no number, and names need the agreement's text (--for)\n"
    );
    let told = complaint(&["check", "no\u{1b}\nfile"], b"", REFUSED);
    assert!(told.starts_with("no\\u{1b}\\nfile: ") && told.matches('\n').count() == 1, "{told:?}");
}

#[test]
fn usage() {
    let wrong: [&[&str]; 5] =
        [&[], &["assemble"], &["assemble", "a", "b"], &["explain", "--for", "a"], &["print", "a"]];
    for arguments in wrong {
        assert!(complaint(arguments, b"", MISUSED).starts_with("usage: agreement check FILE"), "{arguments:?}");
    }
    let help = text(&written(&["--help"], b""));
    assert!(help.contains("not proved") && help.contains("`check`"));
    assert_eq!(text(&written(&["help"], b"")), help);
    let version = format!("agreement {}\n", env!("CARGO_PKG_VERSION"));
    assert_eq!(text(&written(&["--version"], b"")), version);
    for command in ["check", "sizes", "assemble", "disassemble", "readings", "explain"] {
        assert!(help.contains(&format!("agreement {command} ")), "{command}");
        assert_eq!(text(&written(&[command, "--help"], b"")), help);
        assert_eq!(text(&written(&[command, "-h"], b"")), help);
        assert_eq!(text(&written(&[command, "--version"], b"")), version);
    }
}
