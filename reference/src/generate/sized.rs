//! Sized agreements (paper 02, No. 7): "An agreement whose templates are all of kind 4, and which has at least one, is
//! sized." They are made of others by the least units that do, or with needs at their limits.

use super::agreements::{crowd, start, LONGEST};
use super::random::Random;
use super::records::word;
use crate::agreement::{self, Agreement, MOST_UNITS};
use crate::build::{self, record, Wait};
use crate::check;

/// The place of the first reading type.
const READINGS: usize = 11;
/// The length and the kind that every record begins with.
const HEAD: usize = 4;

/// The kinds of templates.
const WITHOUT_UNITS: u16 = 3;
pub const WITH_UNITS: u16 = 4;

/// The templates of what may be an agreement, and what stands before and after them.
pub struct Templates<'t> {
    before: &'t [u8],
    pub records: Vec<Template<'t>>,
    /// The main clause.
    pub after: &'t [u8],
}

/// The record of a template.
#[derive(Clone, Copy)]
pub struct Template<'t>(&'t [u8]);

impl<'t> Templates<'t> {
    /// None if it is not of kind 1, or its records do not lead to as many templates as it counts.
    pub fn of(bytes: &'t [u8]) -> Option<Templates<'t>> {
        let (readings, templates) = (*bytes.get(9)?, *bytes.get(10)?);
        if word(bytes, 2) != 1 {
            return None;
        }
        let mut at = READINGS;
        for _ in 0..readings {
            at += record_at(bytes, at)?.len();
        }
        let first = at;
        let mut records = Vec::new();
        for _ in 0..templates {
            let record = record_at(bytes, at)?;
            at += record.len();
            records.push(Template::of(record)?);
        }
        Some(Templates { before: &bytes[HEAD..first], records, after: &bytes[at..] })
    }

    /// The same agreement with another record for one of its templates.
    pub fn with_one(&self, index: usize, record: Vec<u8>) -> Vec<u8> {
        let mut records: Vec<_> = self.records.iter().map(|template| template.0.to_vec()).collect();
        records[index] = record;
        self.exchanged(&records)
    }

    /// The same agreement with other records for its templates.
    pub fn exchanged(&self, records: &[Vec<u8>]) -> Vec<u8> {
        record(1, &[self.before, &records.concat(), self.after])
    }
}

/// The record at a place, if it is as long as its length says.
fn record_at(bytes: &[u8], at: usize) -> Option<&[u8]> {
    let head = bytes.get(at..at + HEAD)?;
    bytes.get(at..at + usize::from(word(head, 0)).max(HEAD))
}

impl<'t> Template<'t> {
    /// None if it is not of kind 3 or 4, or too short.
    fn of(record: &'t [u8]) -> Option<Template<'t>> {
        let template = Template(record);
        let known = [WITHOUT_UNITS, WITH_UNITS].contains(&template.kind());
        (known && record.len() > HEAD && record.len() > template.units_at()).then_some(template)
    }

    pub fn kind(&self) -> u16 {
        word(self.0, 2)
    }

    /// After value count, types, party parameter count and two bytes of declared parties.
    fn units_at(&self) -> usize {
        HEAD + 1 + usize::from(self.0[HEAD]) + 1 + 2
    }

    /// The units that it declares.
    pub fn units(&self) -> Option<u8> {
        (self.kind() == WITH_UNITS).then(|| self.0[self.units_at()])
    }

    pub fn body(&self) -> &'t [u8] {
        &self.0[self.units_at() + usize::from(self.kind() == WITH_UNITS)..]
    }

    /// The same as a template of kind 4 with these units.
    pub fn with_units(&self, units: u8) -> Vec<u8> {
        record(WITH_UNITS, &[&self.0[HEAD..self.units_at()], &[units], self.body()])
    }

    /// The same as a template of kind 3.
    pub fn without_units(&self) -> Vec<u8> {
        record(WITHOUT_UNITS, &[&self.0[HEAD..self.units_at()], self.body()])
    }
}

/// An accepted agreement with its templates of kind 4, if it then is accepted too.
pub fn sized(bytes: &[u8]) -> Option<Vec<u8>> {
    let agreement = agreement::parse(bytes).expect("an accepted agreement");
    let units = least_units(&agreement)?;
    let templates = Templates::of(bytes).expect("an accepted agreement");
    let records: Vec<_> =
        templates.records.iter().zip(units).map(|(template, units)| template.with_units(units)).collect();
    let sized = templates.exchanged(&records);
    (!records.is_empty() && sized.len() <= LONGEST).then_some(sized)
}

/// The least units of the templates that no need is above, if there are any: bodies may name each other in a `then`.
pub fn least_units(agreement: &Agreement) -> Option<Vec<u8>> {
    let possible =
        |clause, units: &[u8]| u8::try_from(check::need(clause, units)).ok().filter(|need| *need <= MOST_UNITS);
    let mut units = vec![0; agreement.templates.len()];
    loop {
        let needs = agreement.templates.iter().map(|template| possible(&template.body, &units));
        let needs = needs.collect::<Option<Vec<u8>>>()?;
        if needs == units {
            break;
        }
        units = needs;
    }
    possible(&agreement.main, &units).map(|_| units)
}

/// A sized agreement whose templates declare what their bodies need, now and then more. The main clause often needs
/// 128.
pub fn at_its_limits(random: &mut Random) -> Vec<u8> {
    if random.chance(25) {
        swelling(random)
    } else {
        tight(random, false)
    }
}

/// One in which the need of a body or of the main clause is one above its limit.
pub fn beyond_a_limit(random: &mut Random) -> Vec<u8> {
    tight(random, true)
}

fn tight(random: &mut Random, beyond: bool) -> Vec<u8> {
    loop {
        let tight = Tight::new(random);
        let above = beyond.then(|| tight.random.below(tight.units.len() + 1));
        let bytes = tight.agreement(above);
        if bytes.len() <= LONGEST {
            return bytes;
        }
    }
}

/// A wait that a reading makes many units of, which want another type. Several such waits, in a table that no run
/// left, become too many units.
fn swelling(random: &mut Random) -> Vec<u8> {
    let (within, count) = (random.pick(&[0, 60, 300]), random.pick(&[2, 3, 20, 63, 64, 64]));
    let many = crowd(random, count, &mut |_| build::instance(1, &[], &[]));
    let owed = Wait { then: many, ..build::simple(within) }.obligation(0);
    let left = Wait { reading: 2, ..build::simple(within) }.obligation(0);
    let templates =
        [(2 * count - 1, owed), (1, left)].map(|(units, body)| build::sized_template(&[], 0, 1, units as u8, &body));
    let readings = [build::reading_type(&[]), build::reading_type(&[])];
    build::agreement(start(random), 1, &readings, &templates, &build::instance(0, &[], &[]))
}

/// Where a clause is to stand, and what it is to need.
#[derive(Clone, Copy)]
struct Spot {
    need: u8,
    /// Instances name templates below this.
    below: usize,
    /// So many clauses may lie around one that is plain.
    levels: usize,
}

/// Makes clauses of given needs, all of them party 0's.
struct Tight<'r> {
    random: &'r mut Random,
    /// What the templates declare.
    units: Vec<u8>,
}

impl<'r> Tight<'r> {
    fn new(random: &'r mut Random) -> Tight<'r> {
        let count = random.pick(&[1, 1, 2, 3, 4, 4]);
        let units = (0..count).map(|_| random.pick(&[0, 0, 1, 1, 1, 2, 3, 5, 20, 64, 127, 128])).collect();
        Tight { random, units }
    }

    /// The need of one template's body, or of the main clause as if it came after them, may be one above its limit.
    fn agreement(mut self, above: Option<usize>) -> Vec<u8> {
        let count = self.units.len();
        let templates: Vec<_> = (0..count).map(|n| self.template(n, above == Some(n))).collect();
        let need = match above == Some(count) {
            true => MOST_UNITS + 1,
            false => self.random.pick(&[0, 1, 2, 7, 63, 127, 127, 128, 128, 128]),
        };
        let main = self.clause(Spot { need, below: count, levels: 3 });
        let readings = [build::reading_type(&[]), build::reading_type(&[])];
        build::agreement(start(self.random), 1, &readings, &templates, &main)
    }

    fn template(&mut self, n: usize, above: bool) -> Vec<u8> {
        let units = self.units[n];
        let need = match above {
            true => units + 1,
            false if self.random.chance(90) => units,
            false => self.random.below(usize::from(units) + 1) as u8,
        };
        let body = self.clause(Spot { need, below: n, levels: 3 });
        build::sized_template(&[], 0, 1, units, &body)
    }

    fn clause(&mut self, spot: Spot) -> Vec<u8> {
        if spot.levels == 0 {
            return self.plain(spot.need);
        }
        let inner = Spot { levels: spot.levels - 1, ..spot };
        match self.random.below(9) {
            0 if spot.need > 0 => self.wait(inner).obligation(0),
            1 if spot.need > 0 => self.wait(inner).choice(&self.small(spot.need)),
            2 if spot.need > 0 => {
                let then = self.small(spot.need);
                self.wait_then(then).choice(&self.clause(inner))
            }
            3 => {
                let (side, other) = (self.clause(inner), self.other_side(spot.need));
                let (left, right) = if self.random.chance(50) { (side, other) } else { (other, side) };
                build::if_clause(&build::truth(self.random.below(2) as u8), &left, &right)
            }
            4 | 5 if spot.need > 0 => {
                let need = self.random.below(usize::from(spot.need)) as u8;
                let (left, right) = (self.clause(Spot { need, ..inner }), self.plain(spot.need - 1 - need));
                self.join(&left, &right)
            }
            _ => self.instance(spot),
        }
    }

    /// Its `then` decides the need, but where that is 1. There every template may be named.
    fn wait(&mut self, inner: Spot) -> Wait {
        let need = if inner.need == 1 { self.random.below(2) as u8 } else { inner.need };
        let then = self.clause(Spot { need, below: self.units.len(), ..inner });
        self.wait_then(then)
    }

    fn wait_then(&mut self, then: Vec<u8>) -> Wait {
        Wait { reading: self.random.pick(&[1, 1, 2]), then, ..build::simple(self.random.pick(&[0, 30, 300])) }
    }

    /// An instance of some template that declares what is needed, if there is one.
    fn instance(&mut self, spot: Spot) -> Vec<u8> {
        let fitting: Vec<_> = (0..spot.below).filter(|n| self.units[*n] == spot.need).collect();
        match self.random.any(&fitting) {
            Some(template) => build::instance(template as u8, &[], &[]),
            None => self.plain(spot.need),
        }
    }

    /// A clause that needs no more than this, now and then as much. It is not wide.
    fn other_side(&mut self, need: u8) -> Vec<u8> {
        if need == 0 || self.random.chance(65) {
            return self.small(need);
        }
        let then = self.plain(need);
        self.wait_then(then).obligation(0)
    }

    /// A plain clause that needs no more than this, and little.
    fn small(&mut self, most: u8) -> Vec<u8> {
        let need = self.random.below(usize::from(most.min(5)) + 1) as u8;
        self.plain(need)
    }

    /// Waits that need 1 and fulfilled, joined in balance.
    fn plain(&mut self, need: u8) -> Vec<u8> {
        match need {
            0 => build::fulfilled(),
            1 if self.random.chance(25) => self.wait_then(build::fulfilled()).choice(&build::fulfilled()),
            1 => self.wait_then(build::fulfilled()).obligation(0),
            _ => {
                let half = (need - 1) / 2;
                let (left, right) = (self.plain(half), self.plain(need - 1 - half));
                self.join(&left, &right)
            }
        }
    }

    fn join(&mut self, left: &[u8], right: &[u8]) -> Vec<u8> {
        if self.random.chance(70) {
            build::and(left, right)
        } else {
            build::or(left, right)
        }
    }
}
