//! Runs the program `watch` on an input.

use std::io::Write;
use std::process::{Command, Stdio};

/// What the program writes. It must end well.
pub fn watch(input: &[u8]) -> String {
    let mut program = Command::new(env!("CARGO_BIN_EXE_watch"))
        .stdin(Stdio::piped())
        .stdout(Stdio::piped())
        .spawn()
        .expect("the program");
    // A program that ends early closes its input; that is no failure of the trial.
    let _ = program.stdin.take().expect("its input").write_all(input);
    let output = program.wait_with_output().expect("its output");
    assert!(output.status.success());
    String::from_utf8(output.stdout).expect("text")
}
