//! The streams of `brinewatch`, by the program over this crate.

#[path = "common/program.rs"]
mod program;

use program::watch;
use std::fs;
use std::path::{Path, PathBuf};

fn root() -> PathBuf {
    Path::new(env!("CARGO_MANIFEST_DIR")).join("../..")
}

#[test]
fn the_samples_four_lines() {
    let input = fs::read(root().join("crates/brinewatch/stdin")).unwrap();
    assert_eq!(watch(&input), "0 100 LIVE 160 1\n1 110 LIVE 160 1\n2 105 REFUSED 10\n3 160 DONE\n");
}

#[test]
fn every_stream() {
    let mut compared = 0;
    for entry in fs::read_dir(root().join("streams")).unwrap() {
        let path = entry.unwrap().path();
        if path.extension().is_some_and(|extension| extension == "in") {
            let expected = fs::read_to_string(path.with_extension("out")).unwrap();
            assert_eq!(watch(&fs::read(&path).unwrap()), expected, "{}", path.display());
            compared += 1;
        }
    }
    assert!(compared >= 200, "only {compared} streams");
}
