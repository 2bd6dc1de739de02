//! Valid agreements of which one reading activates much: for the figure of paper 02, No. 9.

use super::agreements::{crowd, start};
use super::random::Random;
use crate::agreement::{Operator, Type};
use crate::build::{self, Wait};

/// Clauses of every kind within each other, in thens and in elses, with windows that a reading soon meets or misses.
/// All is party 0's, so that any two clauses may stand at an `or`.
pub fn eventful(random: &mut Random) -> Vec<u8> {
    // A clause has at most two parts, and the innermost a width of at most 4. So 4 levels have at most 79, and nothing
    // is too wide.
    let (levels, count) = random.pick(&[(5, 1), (4, 1), (4, 2), (3, 3)]);
    let main = crowd(random, count, &mut |random| match random.chance(20) {
        true => dropping(random),
        false => wait(random, 0, levels),
    });
    let owed = soon(random).obligation(0);
    let body = build::if_clause(&condition(random, 0), &build::fulfilled(), &owed);
    let readings = [build::reading_type(&[Type::Number]), build::reading_type(&[])];
    build::agreement(start(random), 1, &readings, &[build::template(&[], 0, 1, &body)], &main)
}

/// Any clause with so many values in sight, all of them numbers, and so many levels within it at most.
fn clause(random: &mut Random, in_sight: u8, levels: usize) -> Vec<u8> {
    if levels == 0 {
        return innermost(random);
    }
    let part = |random: &mut Random| clause(random, in_sight, levels - 1);
    match random.below(16) {
        0 | 1 => build::fulfilled(),
        2 | 3 => {
            let (left, right) = (part(random), part(random));
            build::if_clause(&condition(random, in_sight), &left, &right)
        }
        4..=6 => build::and(&part(random), &part(random)),
        7..=9 => build::or(&part(random), &part(random)),
        10 => build::instance(0, &[], &[]),
        _ => wait(random, in_sight, levels),
    }
}

fn innermost(random: &mut Random) -> Vec<u8> {
    match random.below(6) {
        0 | 1 => build::fulfilled(),
        2 | 3 => soon(random).obligation(0),
        4 => build::instance(0, &[], &[]),
        _ => doomed(),
    }
}

/// It is late at once, and so is its else: a breach that activates a clause.
fn doomed() -> Vec<u8> {
    build::simple(-1).choice(&build::simple(-1).obligation(0))
}

/// A choice that is late at once. Its else is two waits joined; a reading of type 1 makes clauses of both, and one of
/// them is often dropped.
fn dropping(random: &mut Random) -> Vec<u8> {
    let owed = build::simple(300).obligation(0);
    let goes_on = Wait { then: owed.clone(), ..build::simple(300) }.obligation(0);
    let sides = [owed, goes_on, doomed()];
    let [left, right] = [random.below(3), random.below(3)].map(|side| &sides[side]);
    let joined = if random.chance(30) { build::and(left, right) } else { build::or(left, right) };
    build::simple(-1).choice(&joined)
}

/// An obligation or a choice with clauses within it.
fn wait(random: &mut Random, in_sight: u8, levels: usize) -> Vec<u8> {
    if levels == 0 {
        return innermost(random);
    }
    let wait = soon(random);
    // A reading of type 1 binds a number; the remaining time comes after it.
    let bound = if wait.reading == 1 { 2 } else { 1 };
    let wait = Wait { then: clause(random, in_sight + bound, levels - 1), ..wait };
    if random.chance(65) {
        wait.choice(&otherwise(random, in_sight, levels - 1))
    } else {
        wait.obligation(0)
    }
}

/// An else: any clause, often two waits joined, which both follow the reading.
fn otherwise(random: &mut Random, in_sight: u8, levels: usize) -> Vec<u8> {
    if levels == 0 || random.chance(40) {
        return clause(random, in_sight, levels);
    }
    let (left, right) = (wait(random, in_sight, levels - 1), wait(random, in_sight, levels - 1));
    if random.chance(40) {
        build::and(&left, &right)
    } else {
        build::or(&left, &right)
    }
}

/// Waits for a reading now or soon, for a while or not at all, then is fulfilled.
fn soon(random: &mut Random) -> Wait {
    let (after, within) = (random.pick(&[0, 0, 0, 0, 3, -3]), random.pick(&[-1, -1, 0, 2, 20, 60, 300]));
    Wait { reading: random.pick(&[1, 1, 1, 2]), after: build::number(after), ..build::simple(within) }
}

fn condition(random: &mut Random, in_sight: u8) -> Vec<u8> {
    if in_sight == 0 || random.chance(40) {
        return build::truth(random.below(2) as u8);
    }
    let name = random.below(usize::from(in_sight)) as u8;
    build::binary(Operator::Less, &build::value(name), &build::number(random.pick(&[0, 10, 250])))
}

/// Obligations that become choices which no reading fits; these are late soon. Their elses are many obligations with
/// wide thens, and one reading may cost thousands. Where the thens wait it needs too many units.
pub fn costly(random: &mut Random) -> Vec<u8> {
    let (units, owing, leaves, leaf) = match random.below(6) {
        0 => (1, 48, 100, build::fulfilled()),
        1 => (7, 16, 60, build::fulfilled()),
        2 | 3 => (7, 48, 100, build::fulfilled()),
        _ => (2, 16, 60, build::simple(300).obligation(0)),
    };
    let wide = crowd(random, leaves, &mut |_| leaf.clone());
    let owed = Wait { then: build::instance(0, &[], &[]), ..build::simple(300) }.obligation(0);
    let never = Wait { condition: build::truth(0), ..build::simple(random.pick(&[-1, -1, 0, 5])) };
    let late = never.choice(&crowd(random, owing, &mut |_| owed.clone()));
    let first = Wait { then: build::instance(1, &[], &[]), ..build::simple(300) }.obligation(0);
    let main = crowd(random, units, &mut |_| first.clone());
    let templates = [wide, late].map(|body| build::template(&[], 0, 1, &body));
    build::agreement(random.pick(&[0, 100, 5_000_000]), 1, &[build::reading_type(&[])], &templates, &main)
}
