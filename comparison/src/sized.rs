//! Calls for the agreements of [`crate::plans`]: runs of those that are accepted, every entry of the others.

use crate::plans::{planned, Plan, Planned};
use crate::size::Parts;
use reference::build;
use reference::check::{accept, Accepted};
use reference::generate::random::Random;
use reference::generate::{readings, tables, Aim, Call, Entry};
use reference::table::{self, AND, CELLS, HEAD, RUNNING, SORT, STATE, UNIT, USED};
use reference::{agreement, entries};
use std::collections::VecDeque;
use std::rc::Rc;

/// What a call was made for.
pub struct Made {
    pub plan: Plan,
    /// Whether the sizes fit, but for a damage or a fault of a lower number; None of an agreement of mixed kinds.
    pub fits: Option<bool>,
    /// The number that the call would have if sizes were not judged, where 15 is expected.
    pub otherwise: Option<u32>,
}

/// Calls without end, agreement by agreement.
pub struct Calls {
    random: Random,
    ready: VecDeque<(Call, Made)>,
}

/// The calls of a seed.
pub fn calls(seed: u64) -> Calls {
    Calls { random: Random::new(seed), ready: VecDeque::new() }
}

impl Iterator for Calls {
    type Item = (Call, Made);

    fn next(&mut self) -> Option<(Call, Made)> {
        while self.ready.is_empty() {
            let planned = planned(&mut self.random);
            Batch::new(&mut self.random, &planned, &mut self.ready).all();
        }
        self.ready.pop_front()
    }
}

/// The calls for one agreement in the making.
struct Batch<'r> {
    random: &'r mut Random,
    plan: Plan,
    parts: &'r Parts,
    bytes: Rc<[u8]>,
    fits: Option<bool>,
    ready: &'r mut VecDeque<(Call, Made)>,
}

impl<'r> Batch<'r> {
    fn new(random: &'r mut Random, planned: &'r Planned, ready: &'r mut VecDeque<(Call, Made)>) -> Batch<'r> {
        let fits = planned.parts.size().map(|size| size.fits());
        let Planned { plan, parts, bytes } = planned;
        Batch { random, plan: *plan, parts, bytes: bytes.as_slice().into(), fits, ready }
    }

    fn add(&mut self, aim: Aim, entry: Entry, otherwise: Option<u32>) {
        let call = Call { agreement: self.bytes.clone(), entry, aim };
        let Batch { plan, fits, .. } = *self;
        self.ready.push_back((call, Made { plan, fits, otherwise }));
    }

    fn all(&mut self) {
        let whole = self.plan.number().is_none() && !matches!(self.plan, Plan::Damaged(_));
        if whole && self.fits == Some(true) {
            let bytes = self.bytes.clone();
            let agreement = agreement::parse(&bytes).expect("an agreement that can be parsed");
            if let Ok(accepted) = accept(&agreement) {
                self.add(Aim::Run, Entry::Check, None);
                return self.run(&accepted);
            }
        }
        self.add(self.plan.aim(), Entry::Check, None);
        if whole && self.fits == Some(false) {
            self.too_small();
        } else {
            self.refused();
        }
    }

    /// Every other entry for an agreement that is refused, whatever else is lent.
    fn refused(&mut self) {
        let (table, second) = (self.any_table(), self.any_table());
        let reading = build::reading(100, 0, &[]);
        let aim = self.plan.aim();
        self.add(aim, Entry::Start { table: table.clone() }, None);
        self.add(aim, Entry::Reading { table: table.clone(), reading: reading.clone() }, None);
        self.add(aim, Entry::Preview { table, reading, second }, None);
    }

    /// Every other entry for an agreement whose sizes do not fit, also where a higher number would refuse, and where
    /// the same agreement with units enough, which has the same places, would be accepted.
    fn too_small(&mut self) {
        let (aim, table) = (self.plan.aim(), self.any_table());
        let otherwise = entries::start(&self.parts.of_kind_three().bytes(), &mut table.clone()).number;
        self.add(aim, Entry::Start { table }, Some(otherwise));
        let Some(enough) = self.parts.with_enough() else { return self.refused() };
        let bytes = enough.bytes();
        let agreement = agreement::parse(&bytes).expect("an agreement that can be parsed");
        let Ok(accepted) = accept(&agreement) else { return self.refused() };
        let mut table = vec![0; CELLS];
        entries::start(&bytes, &mut table);
        for _ in 0..4 {
            let lent = if self.random.chance(70) { table.clone() } else { self.any_table() };
            let reading = self.reading_for(&accepted, &lent);
            let second = self.any_table();
            let otherwise = entries::preview(&bytes, &lent, &reading, &mut second.clone()).number;
            let preview = Entry::Preview { table: lent.clone(), reading: reading.clone(), second };
            self.add(aim, preview, Some(otherwise));
            let otherwise = entries::reading(&bytes, &mut lent.clone(), &reading).number;
            self.add(aim, Entry::Reading { table: lent, reading: reading.clone() }, Some(otherwise));
            entries::reading(&bytes, &mut table, &reading);
        }
    }

    /// A run with its readings, most of them with a preview before.
    fn run(&mut self, accepted: &Accepted) {
        let dirt = self.any_table();
        self.add(aim_of(&dirt), Entry::Start { table: dirt.clone() }, None);
        if dirt.len() != CELLS {
            self.reading(Aim::TableLength, &dirt, build::reading(100, 0, &[]));
        }
        let mut table = vec![0; CELLS];
        entries::start(&self.bytes, &mut table);
        let mut left = self.random.pick(&[4, 8, 16, 30]);
        while left > 0 {
            let reading = self.reading_for(accepted, &table);
            self.reading(Aim::Run, &table, reading.clone());
            entries::reading(&self.bytes, &mut table, &reading);
            if self.random.chance(30) {
                self.off_the_run(accepted, &table);
            }
            // What is decided stays so.
            left = if table[STATE] == RUNNING { left - 1 } else { left.min(3) - 1 };
        }
    }

    /// Readings of tables that the run does not reach.
    fn off_the_run(&mut self, accepted: &Accepted, table: &[i64]) {
        let crowded = crowded(self.random, table);
        let other = if self.random.chance(50) { crowded } else { tables::made(self.random, accepted) };
        if let Some(other) = other {
            let reading = self.reading_for(accepted, &other);
            self.reading(Aim::Made, &other, reading);
            self.damaged_table(accepted, &other);
        }
        self.damaged_table(accepted, table);
    }

    /// A reading, with its preview before it more often than not.
    fn reading(&mut self, aim: Aim, table: &[i64], reading: Vec<u8>) {
        if self.random.chance(60) {
            let second = self.any_table();
            let aim = if second.len() == CELLS { aim } else { Aim::TableLength };
            self.add(aim, Entry::Preview { table: table.to_vec(), reading: reading.clone(), second }, None);
        }
        self.add(aim, Entry::Reading { table: table.to_vec(), reading }, None);
    }

    /// A table with something wrong about it, or another content, tried by a reading.
    fn damaged_table(&mut self, accepted: &Accepted, table: &[i64]) {
        let from: &[_] = if self.random.chance(70) { &tables::Damage::CAUSES } else { &tables::Damage::CHANGES };
        let damage = self.random.pick(from);
        let Some(damaged) = damage.of(self.random, accepted, table) else { return };
        let reading = self.reading_for(accepted, &damaged);
        self.reading(Aim::Table(damage), &damaged, reading);
    }

    /// A reading for a table, be it well typed or not.
    fn reading_for(&mut self, accepted: &Accepted, table: &[i64]) -> Vec<u8> {
        match table::read(accepted, table) {
            Ok(state) => readings::reading(self.random, accepted.agreement, &state),
            Err(_) => build::reading(100, 0, &[]),
        }
    }

    /// Zeros or something else, now and then of wrong length.
    fn any_table(&mut self) -> Vec<i64> {
        let length = self.random.pick(&[CELLS, CELLS, CELLS, CELLS, CELLS, CELLS, 0, CELLS - 1, CELLS + 1]);
        vec![self.random.pick(&[0, 0, 7, i64::MIN]); length]
    }
}

fn aim_of(table: &[i64]) -> Aim {
    if table.len() == CELLS {
        Aim::Run
    } else {
        Aim::TableLength
    }
}

/// A table of 64 copies of some waiting unit of a running one, joined by `and`.
fn crowded(random: &mut Random, table: &[i64]) -> Option<Vec<i64>> {
    let units = (0..table[USED] as usize).map(|unit| HEAD + unit * UNIT);
    let waiting: Vec<usize> = units.filter(|unit| table[unit + SORT] < AND).collect();
    let unit = random.any(&waiting)?;
    let mut join = [0; UNIT];
    join[SORT] = AND;
    let copy = &table[unit..unit + UNIT];
    let mut crowded = table[..HEAD].to_vec();
    (0..63).for_each(|_| crowded.extend(join.iter().chain(copy)));
    crowded.extend(copy);
    crowded[USED] = 127;
    crowded.resize(CELLS, 0);
    Some(crowded)
}
