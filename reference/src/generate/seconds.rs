//! The second tables of previews, before the outcome is written into them: zeros, tables, anything, and now and then
//! one of wrong length.

use super::random::Random;
use crate::entries;
use crate::table::{CELLS, HEAD};
use std::collections::VecDeque;

/// Tables of runs seen lately, of one agreement or another.
#[derive(Default)]
pub struct Seen(VecDeque<Vec<i64>>);

/// So many are kept: those of this agreement and of a few before it.
const KEPT: usize = 6;

impl Seen {
    pub fn keep(&mut self, table: &[i64]) {
        self.0.push_back(table.to_vec());
        if self.0.len() > KEPT {
            self.0.pop_front();
        }
    }

    /// A second table for a preview.
    pub fn second(&self, random: &mut Random, agreement: &[u8], table: &[i64], reading: &[u8]) -> Vec<i64> {
        let contents = match random.below(12) {
            0 | 1 => vec![0; CELLS],
            2 => of_right_length(table),
            3 => outcome(agreement, table, reading),
            4 => with_other_cells(random, outcome(agreement, table, reading)),
            5 => vec![i64::from(random.number()); CELLS],
            6 => (0..CELLS).map(|_| random.draw() as i64).collect(),
            _ if self.0.is_empty() => vec![0; CELLS],
            _ => self.0[random.below(self.0.len())].clone(),
        };
        if random.chance(15) {
            of_wrong_length(random, contents)
        } else {
            contents
        }
    }
}

/// What the preview would write, or the first table where it is refused.
fn outcome(agreement: &[u8], table: &[i64], reading: &[u8]) -> Vec<i64> {
    let mut copy = table.to_vec();
    entries::reading(agreement, &mut copy, reading);
    of_right_length(&copy)
}

fn of_right_length(table: &[i64]) -> Vec<i64> {
    let mut contents = table.to_vec();
    contents.resize(CELLS, 0);
    contents
}

/// A few cells hold something else, often those of the head.
fn with_other_cells(random: &mut Random, mut table: Vec<i64>) -> Vec<i64> {
    for _ in 0..random.pick(&[1, 1, 3, 20]) {
        let up_to = random.pick(&[HEAD, CELLS]);
        table[random.below(up_to)] = random.draw() as i64;
    }
    table
}

/// The same cut short, or with more cells after it.
pub fn of_wrong_length(random: &mut Random, mut contents: Vec<i64>) -> Vec<i64> {
    let length = random.pick(&[0, 1, HEAD, CELLS - 1, CELLS - 1, CELLS + 1, CELLS + 1, 2 * CELLS]);
    contents.resize(length, random.pick(&[0, 7]));
    contents
}
