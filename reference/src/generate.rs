//! Seeded trial material: agreements, damaged agreements, readings, damaged tables, and whole
//! calls of the entries made of them. The same seed gives the same material.

pub mod agreements;
pub mod damage;
mod eventful;
pub mod random;
pub mod readings;
pub mod records;
mod seconds;
pub mod sized;
pub mod tables;

use crate::agreement;
use crate::check::{accept, Accepted};
use crate::table::{self, CELLS, RUNNING, STATE};
use crate::{entries, Checked, Forecast, Started, Taken};
use random::Random;
use seconds::Seen;
use std::collections::VecDeque;
use std::rc::Rc;

/// One call of an entry.
#[derive(Clone, Debug)]
pub struct Call {
    pub agreement: Rc<[u8]>,
    pub entry: Entry,
    pub aim: Aim,
}

/// Which entry, and what it is given beside the agreement.
#[derive(Clone, Debug)]
pub enum Entry {
    Check,
    Start { table: Vec<i64> },
    Reading { table: Vec<i64>, reading: Vec<u8> },
    Preview { table: Vec<i64>, reading: Vec<u8>, second: Vec<i64> },
}

/// What a call was made for.
#[derive(Clone, Copy, Debug, PartialEq, Eq)]
pub enum Aim {
    /// Nothing is damaged, but perhaps the reading.
    Run,
    /// A table made without a run, or with another time in cell 5 than its run gave it.
    Made,
    Agreement(damage::Damage),
    Table(tables::Damage),
    /// A table of wrong length; of a preview the first, the second or both.
    TableLength,
}

/// What an entry answers, and the table that it leaves: of a preview the second, for "the first table is only read".
#[derive(Clone, Debug, PartialEq, Eq)]
pub enum Answer {
    Check(Checked),
    Start { number: u32, forecast: Forecast, table: Vec<i64> },
    Reading { number: u32, early: u32, cost: u64, forecast: Forecast, table: Vec<i64> },
    Preview { number: u32, early: u32, cost: u64, forecast: Forecast, second: Vec<i64> },
}

impl Answer {
    pub fn number(&self) -> u32 {
        match self {
            Answer::Check(checked) => checked.number,
            Answer::Start { number, .. } | Answer::Reading { number, .. } | Answer::Preview { number, .. } => *number,
        }
    }
}

impl Call {
    /// What this monitor answers.
    pub fn answer(&self) -> Answer {
        match &self.entry {
            Entry::Check => Answer::Check(entries::check(&self.agreement)),
            Entry::Start { table } => {
                let mut table = table.clone();
                let Started { number, forecast } = entries::start(&self.agreement, &mut table);
                Answer::Start { number, forecast, table }
            }
            Entry::Reading { table, reading } => {
                let mut table = table.clone();
                let Taken { number, early, cost, forecast } = entries::reading(&self.agreement, &mut table, reading);
                Answer::Reading { number, early, cost, forecast, table }
            }
            Entry::Preview { table, reading, second } => {
                let mut second = second.clone();
                let taken = entries::preview(&self.agreement, table, reading, &mut second);
                let Taken { number, early, cost, forecast } = taken;
                Answer::Preview { number, early, cost, forecast, second }
            }
        }
    }
}

/// Calls without end, agreement by agreement.
pub struct Calls {
    random: Random,
    ready: VecDeque<Call>,
    seen: Seen,
}

/// The calls of a seed.
pub fn calls(seed: u64) -> Calls {
    Calls { random: Random::new(seed), ready: VecDeque::new(), seen: Seen::default() }
}

impl Iterator for Calls {
    type Item = Call;

    fn next(&mut self) -> Option<Call> {
        while self.ready.is_empty() {
            self.batch();
        }
        self.ready.pop_front()
    }
}

impl Calls {
    /// The calls for one agreement.
    fn batch(&mut self) {
        if self.random.chance(12) {
            return self.of_sizes();
        }
        let bytes = agreements::agreement(&mut self.random);
        if self.random.chance(45) {
            return self.damaged_agreement(&bytes);
        }
        let shared: Rc<[u8]> = bytes.as_slice().into();
        let mut batch = self.batch_for(shared);
        batch.add(Aim::Run, Entry::Check);
        let Ok(agreement) = agreement::parse(&bytes) else { return };
        if let Ok(accepted) = accept(&agreement) {
            batch.run(&accepted);
        }
    }

    /// The calls for an agreement, none of them made yet.
    fn batch_for(&mut self, bytes: Rc<[u8]>) -> Batch<'_> {
        Batch { random: &mut self.random, bytes, ready: &mut self.ready, seen: &mut self.seen }
    }

    fn damaged_agreement(&mut self, bytes: &[u8]) {
        let damage = self.random.pick(&damage::Damage::ALL);
        self.damaged_by(damage, bytes);
    }

    /// The calls for a sized agreement that is refused, mostly because of its needs, its units or its kinds.
    fn of_sizes(&mut self) {
        if self.random.chance(30) {
            let bytes = sized::at_its_limits(&mut self.random);
            let damage = self.random.pick(&damage::Damage::OF_SIZES);
            return self.damaged_by(damage, &bytes);
        }
        let bytes = sized::beyond_a_limit(&mut self.random);
        if self.random.chance(40) {
            return self.damaged_agreement(&bytes);
        }
        self.batch_for(bytes.into()).all_entries(Aim::Agreement(damage::Damage::NeedsMore));
    }

    fn damaged_by(&mut self, damage: damage::Damage, bytes: &[u8]) {
        let Some(damaged) = damage.of(&mut self.random, bytes) else { return };
        let mut batch = self.batch_for(damaged.into());
        batch.all_entries(Aim::Agreement(damage));
    }
}

/// The calls for one agreement in the making.
struct Batch<'r> {
    random: &'r mut Random,
    bytes: Rc<[u8]>,
    ready: &'r mut VecDeque<Call>,
    seen: &'r mut Seen,
}

impl Batch<'_> {
    fn add(&mut self, aim: Aim, entry: Entry) {
        self.ready.push_back(Call { agreement: self.bytes.clone(), entry, aim });
    }

    /// A reading, now and then with its preview before it.
    fn reading(&mut self, aim: Aim, table: &[i64], reading: Vec<u8>) {
        if self.random.chance(30) {
            let second = self.seen.second(self.random, &self.bytes, table, &reading);
            self.preview(aim, table, &reading, second);
        }
        self.add(aim, Entry::Reading { table: table.to_vec(), reading });
    }

    /// A preview. Where the second's length is wrong the number is 6, but for 1 to 5 and 15.
    fn preview(&mut self, aim: Aim, table: &[i64], reading: &[u8], second: Vec<i64>) {
        let aim = match aim {
            Aim::Agreement(_) => aim,
            _ if second.len() == CELLS => aim,
            _ => Aim::TableLength,
        };
        self.add(aim, Entry::Preview { table: table.to_vec(), reading: reading.to_vec(), second });
    }

    /// Every entry, with a table that may be anything.
    fn all_entries(&mut self, aim: Aim) {
        let mut table = vec![0; self.random.pick(&[CELLS, CELLS, CELLS, CELLS - 1])];
        entries::start(&self.bytes, &mut table);
        self.add(aim, Entry::Check);
        self.add(aim, Entry::Start { table: table.clone() });
        let reading = crate::build::reading(100, 0, &[]);
        let second = seconds::of_wrong_length(self.random, table.clone());
        self.preview(aim, &table, &reading, second);
        self.reading(aim, &table, reading);
    }

    /// A run with its readings, and damaged tables on the way.
    fn run(&mut self, accepted: &Accepted) {
        let dirt = i64::from(self.random.number());
        let mut table = vec![dirt; CELLS];
        self.add(Aim::Run, Entry::Start { table: table.clone() });
        if self.random.chance(30) {
            self.wrong_length();
        }
        if entries::start(&self.bytes, &mut table).number != 0 {
            return;
        }
        self.seen.keep(&table);
        let mut left = self.random.pick(&[3, 8, 16, 30]);
        while left > 0 {
            self.step(accepted, &mut table);
            self.another_time(accepted, &table);
            self.damages(accepted, &table);
            // What is decided stays so: a few more readings will do.
            left = if table[STATE] == RUNNING { left - 1 } else { left.min(4) - 1 };
        }
        self.seen.keep(&table);
        for _ in 0..4 {
            self.made(accepted);
        }
    }

    /// One reading.
    fn step(&mut self, accepted: &Accepted, table: &mut [i64]) {
        let reading = self.reading_for(accepted, table);
        self.reading(Aim::Run, table, reading.clone());
        entries::reading(&self.bytes, table, &reading);
    }

    /// A reading on the table of a run with another time in cell 5. In a run no unit is activated after that time, so
    /// that no reading shows whether a unit replaced by its equal has altered.
    fn another_time(&mut self, accepted: &Accepted, table: &[i64]) {
        let Some(other) = tables::Damage::OtherMoved.of(self.random, accepted, table) else { return };
        let state = table::read(accepted, &other).expect("a well-typed table");
        let reading = match readings::again(self.random, accepted.agreement, &state) {
            Some(reading) if self.random.chance(80) => reading,
            _ if self.random.chance(20) => self.reading_for(accepted, &other),
            _ => return,
        };
        self.reading(Aim::Made, &other, reading);
    }

    fn wrong_length(&mut self) {
        let table = vec![0; self.random.pick(&[0, 8, CELLS - 1, CELLS + 1])];
        let reading = crate::build::reading(100, 0, &[]);
        self.add(Aim::TableLength, Entry::Start { table: table.clone() });
        self.reading(Aim::TableLength, &table, reading.clone());
        let second = seconds::of_wrong_length(self.random, table.clone());
        self.preview(Aim::TableLength, &table, &reading, second);
    }

    /// A few damages to a table, each tried by a reading.
    fn damages(&mut self, accepted: &Accepted, table: &[i64]) {
        for _ in 0..2 {
            let causes = self.random.chance(70);
            let from: &[_] = if causes { &tables::Damage::CAUSES } else { &tables::Damage::CHANGES };
            let damage = self.random.pick(from);
            let damaged = (0..6).find_map(|_| damage.of(self.random, accepted, table));
            if let Some(damaged) = damaged {
                let reading = self.reading_for(accepted, &damaged);
                self.reading(Aim::Table(damage), &damaged, reading);
            }
        }
    }

    /// A reading for a table, be it well typed or not.
    fn reading_for(&mut self, accepted: &Accepted, table: &[i64]) -> Vec<u8> {
        match table::read(accepted, table) {
            Ok(state) => readings::reading(self.random, accepted.agreement, &state),
            Err(_) => {
                let last = table[table::LAST].clamp(0, i64::from(u32::MAX)) as u32;
                crate::build::reading(last.saturating_add(self.random.pick(&[0, 0, 30, 500])), 0, &[])
            }
        }
    }

    /// A table made without a run, with a reading and damages.
    fn made(&mut self, accepted: &Accepted) {
        let Some(table) = tables::made(self.random, accepted) else { return };
        let reading = self.reading_for(accepted, &table);
        self.reading(Aim::Made, &table, reading);
        self.damages(accepted, &table);
    }
}

/// A whole input of the program: an agreement and a stream of readings, now and then damaged or
/// cut short.
pub fn input(seed: u64) -> Vec<u8> {
    let mut random = Random::new(seed);
    let mut bytes = agreements::agreement(&mut random);
    if random.chance(10) {
        let damage = random.pick(&damage::Damage::ALL);
        bytes = damage.of(&mut random, &bytes).unwrap_or(bytes);
    }
    let mut stream = bytes.clone();
    let mut table = vec![0; CELLS];
    if entries::start(&bytes, &mut table).number == 0 {
        let agreement = agreement::parse(&bytes).expect("a started agreement");
        let accepted = accept(&agreement).expect("a started agreement");
        for _ in 0..random.below(40) {
            let state = table::read(&accepted, &table).expect("a well-typed table");
            let reading = readings::reading(&mut random, &agreement, &state);
            entries::reading(&bytes, &mut table, &reading);
            stream.extend(reading);
        }
    }
    if random.chance(10) {
        stream.truncate(stream.len() - random.below(stream.len().min(12)));
    }
    stream
}
