//! Damaged texts, records, tables and readings, and runs and pictures of them: every one ends in an answer or a
//! message, never in a panic, and what is explained never differs from the proved check.
//!
//! `FUZZ_SECONDS=300 FUZZ_SEED=7 cargo test --release --test fuzz -- --nocapture` runs for so long from another seed.

mod corpus;
mod damage;
#[path = "../common/json.rs"]
mod json;
mod random;
mod runs;
mod trials;
#[path = "../common/xml.rs"]
mod xml;

use corpus::Corpus;
use random::Random;
use std::panic::catch_unwind;
use std::time::{Duration, Instant};
use trials::TRIALS;

/// How long it runs where nothing else is said.
const SECONDS: u64 = 3;

/// The rounds that are made however long they take.
const ROUNDS: usize = 500;

/// Nothing takes longer than this, even on a busy machine.
const LONGEST: Duration = Duration::from_secs(30);

fn setting(name: &str, otherwise: u64) -> u64 {
    std::env::var(name).ok().and_then(|value| value.parse().ok()).unwrap_or(otherwise)
}

#[test]
fn no_input_makes_it_panic() {
    let corpus = Corpus::read();
    let mut seed = setting("FUZZ_SEED", 1);
    let end = Instant::now() + Duration::from_secs(setting("FUZZ_SECONDS", SECONDS));
    let mut tried = [([0_usize; 2], Duration::ZERO); TRIALS.len()];
    for round in 0.. {
        if round >= ROUNDS && Instant::now() >= end {
            break;
        }
        for (n, ((name, trial), (tried, longest))) in (1..).zip(TRIALS.iter().zip(&mut tried)) {
            let begin = Instant::now();
            // Each trial has inputs of its own.
            match catch_unwind(|| trial(&mut Random::new(seed.wrapping_mul(2 * n + 1)), &corpus)) {
                Ok(answered) => tried[usize::from(answered)] += 1,
                Err(_) => panic!("{name}: FUZZ_SEED={seed} shows it again"),
            }
            *longest = begin.elapsed().max(*longest);
            assert!(*longest < LONGEST, "{name}: FUZZ_SEED={seed} takes {longest:?}");
        }
        seed = Random::new(seed).next_seed();
    }
    for ((name, _), ([faults, answers], longest)) in TRIALS.iter().zip(tried) {
        println!("{name}: {answers} answered, {faults} with a message, the longest in {longest:.1?}");
        assert!(answers > 0 && faults > 0, "{name}: {answers} answered, {faults} with a message");
    }
}
