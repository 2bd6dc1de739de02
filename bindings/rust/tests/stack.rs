//! The stack: the worst call that we could build runs in what the header states, and too small a stack is noticed.

use givuntha::{check, record, Table, STACK};
use reference::build::{
    agreement, and, fulfilled, if_clause, instance, not, reading_type, simple, template, truth, Wait,
};
use std::process::Command;
use std::thread;

const LONG: i32 = 1_000_000;

fn instance_of(template: u8) -> Vec<u8> {
    instance(template, &[], &[])
}

fn wait_for(reading: u8, within: i32, then: Vec<u8>) -> Wait {
    Wait { reading, then, ..simple(within) }
}

/// A truth under so many `not`s.
fn nots(count: usize) -> Vec<u8> {
    (0..count).fold(truth(1), |inner, _| not(&inner))
}

/// The template's body: so many `and`s within one another, then the template before it.
fn joined(n: u8, joins: usize) -> Vec<u8> {
    (0..joins).fold(instance_of(n - 1), |inner, _| and(&fulfilled(), &inner))
}

/// 20 choices within one another, each late as soon as it is activated, then the clause.
fn late(clause: Vec<u8>) -> Vec<u8> {
    (0..20).fold(clause, |inner, _| wait_for(2, -1, fulfilled()).choice(&inner))
}

/// 32 templates, each unfolding to the one before. From 31 to 20, choices that are all late; at their end a reading of
/// type 1 is taken, and from 19 to 1, `and`s; at their end the deepest expression.
fn chain() -> Vec<Vec<u8>> {
    let last = if_clause(&nots(20), &wait_for(1, 1000, fulfilled()).obligation(0), &fulfilled());
    let mut bodies = vec![last, instance_of(0)];
    bodies.extend((2..20).map(|n| joined(n, if n < 10 { 7 } else { 6 })));
    bodies.push(late(wait_for(1, 1000, instance_of(19)).obligation(0)));
    bodies.extend((21..32).map(|n| late(instance_of(n - 1))));
    bodies.iter().map(|body| template(&[], 0, 1, body)).collect()
}

/// 64 obligations; the last of them leads to a choice whose else is the chain.
fn worst() -> Vec<u8> {
    let choice = wait_for(2, 0, fulfilled()).choice(&instance_of(31));
    let last = wait_for(2, LONG, choice).obligation(0);
    let others = waiting(63);
    agreement(100, 1, &vec![reading_type(&[]); 3], &chain(), &and(&others, &last))
}

/// So many obligations joined in balance.
fn waiting(count: usize) -> Vec<u8> {
    match count {
        1 => wait_for(3, LONG, fulfilled()).obligation(0),
        _ => and(&waiting(count / 2), &waiting(count - count / 2)),
    }
}

/// All entries on the worst agreement, each reading with its preview before it. The second reading walks 127 units,
/// follows the chain as the choice's else, and activates the rest of it as the `then` at its end: its preview runs in a
/// stack of 357,248 bytes.
fn run_worst() {
    let agreement = worst();
    check(&agreement).unwrap();
    let (mut table, _) = Table::start(&agreement).unwrap();
    for given in [record::reading(101, 2, &[]), record::reading(102, 1, &[])] {
        table.preview(&agreement, &given).unwrap();
        table.reading(&agreement, &given).unwrap();
        assert_eq!(table.cells()[4], 127);
    }
}

fn in_a_stack_of(bytes: usize) {
    thread::Builder::new().stack_size(bytes).spawn(run_worst).unwrap().join().unwrap();
}

#[test]
fn the_worst_call_runs_in_the_stated_stack() {
    in_a_stack_of(STACK);
}

/// Run by the test below, in a process of its own, which it ends.
#[test]
#[ignore = "overflows its stack"]
fn overflow() {
    let bytes = std::env::var("STACK").expect("a size").parse().expect("a number");
    in_a_stack_of(bytes);
}

#[cfg(target_os = "linux")]
#[test]
fn too_small_a_stack_stops_the_program() {
    for bytes in [16_384, 32_768, 49_152, 65_536, 131_072, 262_144, 344_064] {
        let output = Command::new(std::env::current_exe().unwrap())
            .args(["--exact", "overflow", "--ignored", "--nocapture"])
            .env("STACK", bytes.to_string())
            .output()
            .unwrap();
        assert!(!output.status.success(), "{bytes}");
        let told = String::from_utf8_lossy(&output.stderr);
        assert!(told.contains("overflowed its stack"), "{bytes}: {told}");
    }
}
