//! The verdicts of a run are those of `brinewatch`, line by line.

mod common;

use common::{agreement, examples, files, read, root, text, written};
use std::fs;
use tools::readings::numbered;
use tools::run::records::lines;
use tools::source::Source;
use tools::story::Story;

#[test]
fn of_every_stream() {
    let streams = files("streams", "in");
    assert!(streams.len() >= 200, "only {} streams", streams.len());
    for stream in streams {
        let expected = fs::read_to_string(stream.with_extension("out")).expect("what must come");
        assert_eq!(lines(&fs::read(&stream).expect("a stream")), expected, "{}", stream.display());
    }
}

#[test]
fn of_every_example() {
    for (agreement, readings) in examples() {
        let source = Source::read(&agreement, &read(&agreement)).unwrap_or_else(|fault| panic!("{agreement}:{fault}"));
        let readings_read = numbered(&read(&readings), Some(&source.assembled.agreement)).expect("readings");
        let (mut story, start) = Story::start(&source).expect("an agreement that can be started");
        let steps = readings_read.iter().map(|(line, reading)| story.reading(*line, reading).step);
        let lines: String = std::iter::once(start.step).chain(steps).map(|step| format!("{step}\n")).collect();
        assert_eq!(lines, text(&read(&readings.replace(".readings", ".out"))), "{readings}");
    }
}

#[test]
fn by_the_command() {
    let sample = read("crates/brinewatch/stdin");
    let expected = "0 100 LIVE 160 1\n1 110 LIVE 160 1\n2 105 REFUSED 10\n3 160 DONE\n";
    assert_eq!(written(&["run", "--records", "-"], &sample, 0), expected);
    assert_eq!(written(&["run", "--records", "crates/brinewatch/stdin"], b"", 0), expected);
    assert_eq!(written(&["run", "--records", "-"], b"", 2), "0 - REFUSED 1\n");
    let mut cut = sample[..64].to_vec();
    cut.extend([9, 0, 64, 0, 161, 0, 0, 0, 0, 13]);
    assert_eq!(written(&["run", "--records", "-"], &cut, 1), "0 100 LIVE 160 1\n1 161 BREACH 160 1\n2 - REFUSED 8\n");
}

#[test]
fn of_the_folders() {
    let folders: Vec<String> = examples().into_iter().map(|(text, _)| text.replace("/agreement.csl", "")).collect();
    let mut arguments: Vec<&str> = folders.iter().map(String::as_str).collect();
    arguments.dedup();
    arguments.insert(0, "test");
    let count = examples().len();
    assert_eq!(written(&arguments, b"", 0), format!("{count} passed, 0 failed\n"));
}

#[test]
fn a_folder_that_is_wrong() {
    let folder = std::env::temp_dir().join(format!("agreement-test-{}", std::process::id()));
    fs::create_dir_all(&folder).expect("a folder");
    let put = |name: &str, content: &str| fs::write(folder.join(name), content).expect("a file");
    let name = folder.to_string_lossy().into_owned();
    let tested = || {
        let output = agreement(&["test", &name], b"");
        (output.status.code(), text(&output.stdout).replace(&name, "F"))
    };
    let missing = "FAILED: F/agreement.csl: No such file or directory (os error 2)\n0 passed, 1 failed\n";
    assert_eq!(tested(), (Some(1), missing.to_string()));
    put("agreement.csl", include_str!("sample.csl"));
    assert_eq!(tested(), (Some(1), "FAILED: F: no readings\n0 passed, 1 failed\n".to_string()));
    put("a.readings", "161 mark\n");
    put("a.out", "0 100 LIVE 160 1\n1 161 BREACH 160 1\n");
    assert_eq!(tested(), (Some(0), "1 passed, 0 failed\n".to_string()));
    put("a.out", "0 100 LIVE 160 1\n1 161 BREACH 161 1\n");
    put("b.out", "");
    let wrong = "FAILED: F/a.out:2: `1 161 BREACH 161 1` expected, `1 161 BREACH 160 1` came\n\
                 FAILED: F/b.out: no readings of that name\n0 passed, 2 failed\n";
    assert_eq!(tested(), (Some(1), wrong.to_string()));
    fs::remove_dir_all(&folder).expect("the folder");
    assert!(root().join("examples").exists());
}
