//! Gives generated inputs to another `brinewatch` and to this package's `watch`, and compares what they write:
//! `compare OTHER FIRST COUNT`. Prints how often each word and number was written; the smallest differing input, if any.

use std::collections::BTreeMap;
use std::env;
use std::io::Write;
use std::path::{Path, PathBuf};
use std::process::{exit, Command, Stdio};

fn written(program: &Path, input: &[u8]) -> Vec<u8> {
    let mut child =
        Command::new(program).stdin(Stdio::piped()).stdout(Stdio::piped()).spawn().expect("the program starts");
    let mut stdin = child.stdin.take().expect("its input");
    let bytes = input.to_vec();
    // a program may end before it has read all of its input
    let feed = std::thread::spawn(move || drop(stdin.write_all(&bytes)));
    let output = child.wait_with_output().expect("the program ends").stdout;
    feed.join().expect("the input was given");
    output
}

/// The word of a line, with the number of a refusal.
fn word(line: &str) -> String {
    let fields: Vec<&str> = line.split(' ').collect();
    match fields.get(2) {
        Some(&"REFUSED") => fields[2..].join(" "),
        Some(word) => word.to_string(),
        None => "nothing".to_string(),
    }
}

fn main() {
    let arguments: Vec<String> = env::args().collect();
    let [_, other, first, count] = arguments.as_slice() else {
        eprintln!("usage: compare OTHER FIRST COUNT");
        exit(2);
    };
    let first: u64 = first.parse().expect("FIRST is a number");
    let count: u64 = count.parse().expect("COUNT is a number");
    let other = PathBuf::from(other);
    let own = env::current_exe().expect("this program's path").with_file_name("watch");
    let mut words: BTreeMap<String, usize> = BTreeMap::new();
    let mut worst: Option<(u64, Vec<u8>)> = None;
    for seed in first..first + count {
        let input = reference::generate::input(seed);
        let mine = written(&own, &input);
        for line in String::from_utf8_lossy(&mine).lines() {
            *words.entry(word(line)).or_default() += 1;
        }
        let shorter = worst.as_ref().map_or(true, |(_, w)| input.len() < w.len());
        if shorter && written(&other, &input) != mine {
            worst = Some((seed, input));
        }
    }
    for (word, n) in &words {
        println!("{n} {word}");
    }
    if let Some((seed, input)) = worst {
        println!("seed {seed} differs, {} bytes: {input:02x?}", input.len());
        exit(1);
    }
    println!("{count} inputs, no difference");
}
