//! Readings that hit windows, and damaged ones.

use super::random::Random;
use crate::agreement::{Agreement, Expression, Late, Type};
use crate::build;
use crate::rules::{evaluate, Outcome, Residue, Waiting, Window};
use crate::table::State;

/// A reading for what a table holds: often one that some waiting unit wants, near its window.
pub fn reading(random: &mut Random, agreement: &Agreement, state: &State) -> Vec<u8> {
    let special = match random.below(20) {
        0 | 1 => Some(idle(random, agreement, state)),
        2..=5 => too_soon(random, agreement, state),
        6 => again(random, agreement, state),
        7 | 8 => overdue(random, agreement, state),
        _ => None,
    };
    let bytes = match (special, target(random, state)) {
        (Some(special), _) => special,
        (None, Some(waiting)) if random.chance(80) => aimed(random, agreement, state, waiting),
        _ => any(random, agreement, state),
    };
    if random.chance(10) {
        damaged(random, agreement, bytes)
    } else {
        bytes
    }
}

/// Some waiting unit of a running state, often the one that is late first.
fn target<'s, 'a>(random: &mut Random, state: &'s State<'a>) -> Option<&'s Waiting<'a>> {
    let units = waiting_units(state);
    if random.chance(60) {
        units.into_iter().min_by_key(|unit| unit.window().last)
    } else {
        random.any(&units)
    }
}

fn waiting_units<'s, 'a>(state: &'s State<'a>) -> Vec<&'s Waiting<'a>> {
    let mut units = Vec::new();
    if let Outcome::Running(residue) = &state.outcome {
        collect(residue, &mut units);
    }
    units
}

/// All waiting units of a residue.
pub fn collect<'s, 'a>(residue: &'s Residue<'a>, units: &mut Vec<&'s Waiting<'a>>) {
    match residue {
        Residue::Waiting(waiting) => units.push(waiting),
        Residue::And(left, right) | Residue::Or(left, right) => {
            collect(left, units);
            collect(right, units);
        }
    }
}

/// A reading for one waiting unit.
fn aimed(random: &mut Random, agreement: &Agreement, state: &State, waiting: &Waiting) -> Vec<u8> {
    let time = near_window(random, state.last, waiting.window());
    if random.chance(15) {
        return build::reading(time, 0, &[]);
    }
    let wanted = waiting.wait.reading;
    let kind = if random.chance(92) { wanted } else { 1 + random.below(agreement.readings.len()) as u8 };
    if kind == wanted && random.chance(75) {
        return build::reading(time, kind, &fitting(random, agreement, waiting));
    }
    build::reading(time, kind, &values(random, agreement, kind, Some(waiting)))
}

/// A reading wanted by a unit that was activated at the last reading time, at that time once more.
pub fn again(random: &mut Random, agreement: &Agreement, state: &State) -> Option<Vec<u8>> {
    let mut young = waiting_units(state);
    young.retain(|unit| unit.activated == state.last);
    let waiting = random.any(&young)?;
    Some(build::reading(state.last as u32, waiting.wait.reading, &fitting(random, agreement, waiting)))
}

/// A reading wanted by a unit whose window is still to open, if there is one: before its first minute, and before any
/// unit is late if it may be. Now and then at its first minute, before the last reading, a mark, of another type, or
/// with a false condition.
fn too_soon(random: &mut Random, agreement: &Agreement, state: &State) -> Option<Vec<u8>> {
    let mut closed = waiting_units(state);
    closed.retain(|unit| unit.window().first > state.last);
    let waiting = random.any(&closed)?;
    let first = waiting.window().first;
    let before_late = first_late(state).map_or(first - 1, |late| late.min(first - 1)).max(state.last);
    let time = match random.below(12) {
        0 => first,
        1 => state.last - random.between(1, 20),
        2 | 3 => first - 1,
        4 | 5 => state.last,
        6 => before_late,
        _ => random.between(state.last, before_late.min(state.last + 20)),
    };
    let time = time.clamp(0, i64::from(u32::MAX)) as u32;
    let wanted = waiting.wait.reading;
    let kind = match random.below(20) {
        0 => 0,
        1 | 2 => 1 + random.below(agreement.readings.len()) as u8,
        _ => wanted,
    };
    if kind != wanted {
        return Some(build::reading(time, kind, &values(random, agreement, kind, None)));
    }
    let truth = random.chance(85);
    Some(build::reading(time, kind, &values_for(random, agreement, waiting, truth)))
}

/// A reading after the last minute of some choice, if there is one, often so soon that its else may take it.
fn overdue(random: &mut Random, agreement: &Agreement, state: &State) -> Option<Vec<u8>> {
    let mut choices = waiting_units(state);
    choices.retain(|unit| matches!(unit.wait.late, Late::Else(_)));
    let choice = random.any(&choices)?;
    let late = choice.window().last + random.pick(&[1, 1, 1, 2, 5, 30, 100]);
    let time = late.max(state.last).clamp(0, i64::from(u32::MAX)) as u32;
    let any = random.below(agreement.readings.len() + 1) as u8;
    let kind = if random.chance(50) { choice.wait.reading } else { any };
    Some(build::reading(time, kind, &values(random, agreement, kind, None)))
}

/// The last minute of the unit that is late first.
fn first_late(state: &State) -> Option<i64> {
    waiting_units(state).into_iter().map(|unit| unit.window().last).min()
}

/// Values of the type that a unit wants, such that its condition holds if they are found soon.
fn fitting(random: &mut Random, agreement: &Agreement, waiting: &Waiting) -> Vec<i32> {
    values_for(random, agreement, waiting, true)
}

/// Values of the type that a unit wants, such that its condition is true or false as asked if they are found soon.
fn values_for(random: &mut Random, agreement: &Agreement, waiting: &Waiting, truth: bool) -> Vec<i32> {
    let mut values = self::values(random, agreement, waiting.wait.reading, Some(waiting));
    for _ in 0..8 {
        if holds(waiting, &values) == truth {
            break;
        }
        values = self::values(random, agreement, waiting.wait.reading, Some(waiting));
    }
    values
}

fn holds(waiting: &Waiting, values: &[i32]) -> bool {
    let values: Vec<i64> = values.iter().map(|value| i64::from(*value)).collect();
    evaluate(&waiting.wait.condition, &waiting.scope.with(&values)) == 1
}

/// A time in the window as soon as may be, or near its first or last minute; seldom one before the
/// last reading.
fn near_window(random: &mut Random, last_reading: i64, Window { first, last }: Window) -> u32 {
    let middle = if first < last { random.between(first, last) } else { first };
    let time = match random.below(20) {
        0..=9 => first.max(last_reading) + random.pick(&[0, 0, 1, 3]),
        10..=12 => first + random.pick(&[-1, 0, 1]),
        13..=16 => last + random.pick(&[-1, 0, 0, 1]),
        17 => middle,
        18 => last_reading + random.between(0, 5),
        _ => last + random.between(2, 300),
    };
    let time = if time < last_reading && random.chance(95) { last_reading } else { time };
    time.clamp(0, i64::from(u32::MAX)) as u32
}

/// A mark, or a reading of a type that no unit wants, before any unit is late if it may be: it alters nothing then.
fn idle(random: &mut Random, agreement: &Agreement, state: &State) -> Vec<u8> {
    let units = waiting_units(state);
    let soon = (state.last + 50).min(i64::from(u32::MAX));
    let late = first_late(state).unwrap_or(soon);
    let time = random.time(state.last, late.clamp(state.last, soon)) as u32;
    let unwanted = (0..=agreement.readings.len() as u8).filter(|kind| units.iter().all(|u| u.wait.reading != *kind));
    let kind = random.pick(&unwanted.collect::<Vec<_>>());
    build::reading(time, kind, &values(random, agreement, kind, None))
}

/// Any reading or mark a little later.
fn any(random: &mut Random, agreement: &Agreement, state: &State) -> Vec<u8> {
    let step = random.pick(&[0, 0, 1, 5, 60, 100_000, -1, -20]);
    let time = (state.last + step).clamp(0, i64::from(u32::MAX)) as u32;
    let kind = random.below(agreement.readings.len() + 1) as u8;
    let values = values(random, agreement, kind, None);
    build::reading(time, kind, &values)
}

/// Values that fit a reading type, near what a unit's condition compares with.
fn values(random: &mut Random, agreement: &Agreement, kind: u8, waiting: Option<&Waiting>) -> Vec<i32> {
    let Some(index) = usize::from(kind).checked_sub(1) else { return Vec::new() };
    let mut thresholds = Thresholds::default();
    if let Some(waiting) = waiting {
        thresholds.find(&waiting.wait.condition);
        thresholds.numbers.extend(waiting.scope.values[..waiting.scope.count].iter().map(|value| *value as i32));
    }
    let types = &agreement.readings[index];
    types.iter().map(|value_type| value(random, *value_type, agreement.parties, &thresholds)).collect()
}

fn value(random: &mut Random, value_type: Type, parties: u8, thresholds: &Thresholds) -> i32 {
    match value_type {
        Type::Number => match random.any(&thresholds.numbers) {
            Some(number) if random.chance(70) => {
                (number + random.pick(&[-1, 0, 0, 1])).clamp(-1_000_000_000, 1_000_000_000)
            }
            _ => random.number(),
        },
        Type::Truth => random.below(2) as i32,
        Type::Party => match random.any(&thresholds.parties) {
            Some(party) if random.chance(60) => i32::from(party),
            _ => random.below(usize::from(parties)) as i32,
        },
    }
}

/// The literals of a condition.
#[derive(Default)]
struct Thresholds {
    numbers: Vec<i32>,
    parties: Vec<u8>,
}

impl Thresholds {
    fn find(&mut self, expression: &Expression) {
        match expression {
            Expression::Number(number) => self.numbers.push(*number),
            Expression::Party(party) => self.parties.push(*party),
            Expression::Truth(_) | Expression::Value(_) => {}
            Expression::Not(operand) => self.find(operand),
            Expression::Binary(_, left, right) => {
                self.find(left);
                self.find(right);
            }
        }
    }
}

/// A reading with something wrong about it.
pub fn damaged(random: &mut Random, agreement: &Agreement, mut bytes: Vec<u8>) -> Vec<u8> {
    match random.below(10) {
        0 => bytes.truncate(random.below(bytes.len())),
        1 => bytes.push(random.draw() as u8),
        2 => bytes[random.below(4)] ^= 1 << random.below(8),
        3 => return build::record(64, &[&bytes[4..], &[0]]),
        4 => return build::record(64, &[&bytes[4..9], &[0; 20]]),
        5 => bytes[8] = agreement.readings.len() as u8 + 1,
        6 => bytes[8] = random.draw() as u8,
        7 => return build::record(64, &[&bytes[4..], &[0; 4]]),
        8 if bytes.len() > 9 => return build::record(64, &[&bytes[4..bytes.len() - 4]]),
        _ if bytes.len() > 9 => {
            let wrong: [i32; 6] = [2, -1, 1_000_000_001, -1_000_000_001, i32::from(agreement.parties), i32::MIN];
            let at = 9 + 4 * random.below((bytes.len() - 9) / 4);
            bytes[at..at + 4].copy_from_slice(&random.pick(&wrong).to_le_bytes());
        }
        _ => return build::record(63, &[&bytes[4..]]),
    }
    bytes
}
