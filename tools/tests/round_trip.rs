//! Records to text and back, and texts to records, to text and back.

#[path = "common/sized.rs"]
mod sized;

use reference::check;
use reference::generate::{agreements, damage, random::Random};
use sized::declaring;
use std::path::{Path, PathBuf};
use tools::{assemble, disassemble};

fn assembled(text: &str) -> Vec<u8> {
    match assemble(text.as_bytes()) {
        Ok(assembled) => assembled.bytes,
        Err(fault) => panic!("{fault}\n{text}"),
    }
}

fn disassembled(bytes: &[u8]) -> String {
    disassemble(bytes).unwrap_or_else(|fault| panic!("{fault}: {bytes:02x?}"))
}

fn round_trip(bytes: &[u8]) {
    let text = disassembled(bytes);
    assert!(assembled(&text) == bytes, "{text}");
}

#[test]
fn accepted_agreements_come_back() {
    let mut random = Random::new(1);
    for _ in 0..3_000 {
        let bytes = agreements::agreement(&mut random);
        assert_eq!(check(&bytes).number, 0);
        round_trip(&bytes);
    }
}

/// Generated agreements with any units: the text has them again, and the record is as long as without, but for a byte
/// for each template.
#[test]
fn units_come_back() {
    let mut random = Random::new(3);
    let mut templates = 0;
    for _ in 0..3_000 {
        let text = declaring(&disassembled(&agreements::agreement(&mut random)), || None);
        let mut units = Vec::new();
        let sized = declaring(&text, || {
            units.push(random.below(129));
            units.last().copied()
        });
        let bytes = assembled(&sized);
        assert_eq!(disassembled(&bytes), sized);
        assert_eq!(bytes.len(), assembled(&text).len() + units.len());
        templates += units.len();
    }
    assert!(templates > 3_000, "{templates}");
}

/// Damaged agreements are told from others without a panic; what can be printed comes back, and
/// what check accepts can be printed.
#[test]
fn damaged_agreements() {
    let mut random = Random::new(2);
    let (mut printed, mut refused) = (0, 0);
    for _ in 0..4_000 {
        let bytes = agreements::agreement(&mut random);
        let damage = random.pick(&damage::Damage::ALL);
        let Some(damaged) = damage.of(&mut random, &bytes) else { continue };
        match disassemble(&damaged) {
            Ok(_) => {
                round_trip(&damaged);
                printed += 1;
            }
            Err(fault) => {
                assert!(fault.at <= damaged.len(), "{fault}");
                assert_ne!(check(&damaged).number, 0, "{fault}");
                refused += 1;
            }
        }
    }
    assert!(printed > 200 && refused > 1_000, "{printed} printed, {refused} refused");
}

#[test]
fn any_bytes() {
    let mut random = Random::new(3);
    for _ in 0..5_000 {
        let bytes: Vec<u8> = (0..random.below(200)).map(|_| random.draw() as u8).collect();
        assert!(disassemble(&bytes).is_err());
    }
}

/// A text of a clause over many lines: every layout there is.
#[test]
fn layout() {
    let text = "\
parties P0, P1
readings
  R1(v0: number, v1: party)
  R2()
letrec
  T0(v0: number, v1: number)<p0> declares P1 =
    <p0> R1(v2, v3)
      where v2 = 1000000000
        && v3 = P1
        && v2 < v0 + 1000000
        && v2 < v1 - 1000000
        && !(v2 < v0 * 2)
        && !(v2 < v1 / 2)
      due after v0 within 1440 remaining v4
    then
      T0(
        v0 + v1 + v2 + v4 + 1000000 + 1000000 + 1000000,
        v0 - (v1 - (v2 - (v4 - 1000000))) - 1000000 - 1000000
      )<p0>
  T1() =
    if R2() due immediately then (if R2() due within 5) else fulfilment and fulfilment
in
  if 1000000000 < 1000000000 + 1000000000 + 1000000000 + 1000000000
    && 1000000000 < 1000000000
    && !(1 = -1)
  then (
    if R1(v0, v1) where v1 = P0 && !(v0 < 250) && v0 < 1000 due within 1000 then T0(100000, 200)<P0>
  )
  else
    <P0> R2() due within 60 and T0(10000000, 20000000)<P1> and (T0(3000, 4000)<P0> or T1())
    and
    (
      <P1> R2() due after -5 within 60 then <P0> R2() due within 60 or T0(100000, 20000000)<P0>
    )
starting 4294967295
";
    let bytes = assembled(text);
    assert_eq!(disassembled(&bytes), text);
}

/// Every text of the examples, and those here.
#[test]
fn example_texts() {
    let root = Path::new(env!("CARGO_MANIFEST_DIR"));
    let mut texts = Vec::new();
    find(&root.join("tests"), &mut texts);
    find(&root.join("../examples"), &mut texts);
    for path in &texts {
        let text = std::fs::read_to_string(path).expect("a text");
        let bytes = assemble(text.as_bytes()).unwrap_or_else(|fault| panic!("{}:{fault}", path.display())).bytes;
        assert_eq!(check(&bytes).number, 0, "{}", path.display());
        round_trip(&bytes);
    }
    assert!(texts.contains(&root.join("tests/sample.csl")));
}

/// The texts in a directory and in those below it.
fn find(directory: &Path, texts: &mut Vec<PathBuf>) {
    let Ok(entries) = std::fs::read_dir(directory) else { return };
    for path in entries.map(|entry| entry.expect("an entry").path()) {
        if path.is_dir() {
            find(&path, texts);
        } else if path.extension().is_some_and(|extension| extension == "csl") {
            texts.push(path);
        }
    }
}
