//! The streams of this repository, byte for byte.

#[path = "common/program.rs"]
mod program;

use program::watch;
use std::path::PathBuf;

#[test]
fn streams() {
    let folder = PathBuf::from(env!("CARGO_MANIFEST_DIR")).join("../streams");
    let mut inputs: Vec<PathBuf> = std::fs::read_dir(folder)
        .expect("the folder streams")
        .map(|entry| entry.expect("an entry").path())
        .filter(|path| path.extension().is_some_and(|extension| extension == "in"))
        .collect();
    inputs.sort();
    for input in &inputs {
        let given = std::fs::read(input).expect("an input");
        let expected = std::fs::read_to_string(input.with_extension("out")).expect("an output");
        let written = watch(&given);
        assert!(written == expected, "{}: wrote\n{written}and must write\n{expected}", input.display());
    }
    println!("{} streams agree", inputs.len());
    assert_eq!(inputs.len(), 200);
}
