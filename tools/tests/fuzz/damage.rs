//! Damages to bytes, be they a text or a record.

use super::random::Random;

/// Words of the language, ends of ranges, and characters that are seldom met.
const WORDS: [&str; 42] = [
    " parties ",
    " readings ",
    " letrec ",
    " in ",
    " starting ",
    " declares ",
    " sized ",
    " sized 3 ",
    " fulfilment ",
    " if ",
    " then ",
    " else ",
    " and ",
    " or ",
    " where ",
    " due ",
    " immediately ",
    " after ",
    " within ",
    " remaining ",
    " true ",
    " false ",
    "1000000001",
    "99999999999999999999",
    "4294967296",
    "-1",
    "1Y",
    "2026-06-01T06:00:30Z",
    "2026-06-01 06:00",
    "(",
    ")",
    "<",
    ">=",
    "!",
    "--",
    "_",
    "\u{2264}",
    "\u{27e8}",
    "\u{1b}[2J",
    "\u{202e}",
    "\u{0}",
    "\n",
];

/// The same with a few damages.
pub fn damaged(random: &mut Random, input: &[u8], other: &[u8]) -> Vec<u8> {
    let mut bytes = input.to_vec();
    for _ in 0..1 + random.below(4) {
        once(random, &mut bytes, other);
    }
    bytes
}

/// Words and bytes in no order, after the beginning of a text or not.
pub fn jumbled(random: &mut Random) -> Vec<u8> {
    let mut bytes = Vec::new();
    if random.below(2) == 0 {
        bytes.extend(b"parties A, B readings N(n: number) E() letrec f(n: number)<p> = fulfilment in ");
    }
    for _ in 0..random.below(60) {
        match random.below(4) {
            0 => bytes.extend(random.pick(&["A", "N", "E()", "f(1)<A>", "<B> N(n)", "n", "7", " "]).as_bytes()),
            1 => bytes.push(random.draw() as u8),
            _ => bytes.extend(random.pick(&WORDS).as_bytes()),
        }
    }
    bytes
}

fn once(random: &mut Random, bytes: &mut Vec<u8>, other: &[u8]) {
    let at = random.below(bytes.len());
    let end = (at + random.below(40)).min(bytes.len());
    match random.below(9) {
        0 => drop(bytes.drain(at..end)),
        1 => insert(bytes, at, random.pick(&WORDS).as_bytes()),
        2 => insert(bytes, at, &[random.draw() as u8]),
        3 => insert(bytes, at, &part(random, other)),
        4 => {
            let copied = bytes[at..end].to_vec();
            insert(bytes, random.below(bytes.len()), &copied);
        }
        5 => {
            let repeated = bytes[at..end].repeat(1 + random.below(300));
            insert(bytes, at, &repeated);
        }
        6 => bytes.truncate(at),
        _ if bytes.is_empty() => {}
        7 => bytes[at] ^= 1 << random.below(8),
        _ => bytes[at] = *random.pick(&[0, 1, 2, 16, 17, 22, 24, 33, 127, 128, 131, 254, 255]),
    }
}

fn insert(bytes: &mut Vec<u8>, at: usize, more: &[u8]) {
    bytes.splice(at..at, more.iter().copied());
}

/// A piece of something else.
fn part(random: &mut Random, other: &[u8]) -> Vec<u8> {
    let at = random.below(other.len());
    let end = (at + random.below(200)).min(other.len());
    other[at..end].to_vec()
}
