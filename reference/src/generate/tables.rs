//! Tables that no run need reach, and damaged ones.

use super::random::Random;
use crate::agreement::Type;
use crate::check::{Accepted, Site};
use crate::rules::{Breach, Outcome, Residue, Scope, Waiting};
use crate::table::*;

/// What a damage aims at. Those up to [`Damage::UnitsExchanged`] excluded must be refused with 7.
#[derive(Clone, Copy, Debug, PartialEq, Eq, PartialOrd, Ord)]
pub enum Damage {
    State,
    StateSwapped,
    LastBeforeStart,
    LastBeyond32Bits,
    MovedBeforeStart,
    MovedAfterLast,
    MovedNegative,
    MovedFarOff,
    BreachTimeWithoutBreach,
    BlameWithoutBreach,
    UnitsWithoutRunning,
    RunningWithoutUnits,
    UnitsTooMany,
    UnitsTooFew,
    UnitsOutOfRange,
    HeadZeros,
    BreachWithoutParty,
    BreachOfOther,
    BreachBeforeStart,
    BreachAfterLast,
    Sort,
    SortOfOther,
    WaitingAsJoin,
    JoinAsWaiting,
    PlaceNowhere,
    PlaceOfOtherSort,
    ActivatedBeforeStart,
    ActivatedAfterLast,
    ParameterOutOfRange,
    ParameterUnused,
    ParameterNotOfMain,
    PartyNotOfMain,
    UnitZero,
    NumberOutOfRange,
    TruthOutOfRange,
    PartyOutOfRange,
    ValueUnused,
    JoinCells,
    UnusedUnit,
    OrRule,
    TreeCutShort,
    TreeLeftOver,
    UnitsExchanged,
    PlaceOfSameSort,
    JoinSwapped,
    OtherValue,
    OtherParameter,
    OtherActivation,
    OtherMoved,
    AnyCell,
}

impl Damage {
    /// Those that must be refused with 7.
    pub const CAUSES: [Damage; 42] = [
        Damage::State,
        Damage::StateSwapped,
        Damage::LastBeforeStart,
        Damage::LastBeyond32Bits,
        Damage::MovedBeforeStart,
        Damage::MovedAfterLast,
        Damage::MovedNegative,
        Damage::MovedFarOff,
        Damage::BreachTimeWithoutBreach,
        Damage::BlameWithoutBreach,
        Damage::UnitsWithoutRunning,
        Damage::RunningWithoutUnits,
        Damage::UnitsTooMany,
        Damage::UnitsTooFew,
        Damage::UnitsOutOfRange,
        Damage::HeadZeros,
        Damage::BreachWithoutParty,
        Damage::BreachOfOther,
        Damage::BreachBeforeStart,
        Damage::BreachAfterLast,
        Damage::Sort,
        Damage::SortOfOther,
        Damage::WaitingAsJoin,
        Damage::JoinAsWaiting,
        Damage::PlaceNowhere,
        Damage::PlaceOfOtherSort,
        Damage::ActivatedBeforeStart,
        Damage::ActivatedAfterLast,
        Damage::ParameterOutOfRange,
        Damage::ParameterUnused,
        Damage::ParameterNotOfMain,
        Damage::PartyNotOfMain,
        Damage::UnitZero,
        Damage::NumberOutOfRange,
        Damage::TruthOutOfRange,
        Damage::PartyOutOfRange,
        Damage::ValueUnused,
        Damage::JoinCells,
        Damage::UnusedUnit,
        Damage::OrRule,
        Damage::TreeCutShort,
        Damage::TreeLeftOver,
    ];

    /// Those that may leave a table well typed.
    pub const CHANGES: [Damage; 8] = [
        Damage::UnitsExchanged,
        Damage::PlaceOfSameSort,
        Damage::JoinSwapped,
        Damage::OtherValue,
        Damage::OtherParameter,
        Damage::OtherActivation,
        Damage::OtherMoved,
        Damage::AnyCell,
    ];

    /// A well-typed table with this damage, if it has a place for it.
    pub fn of(self, random: &mut Random, accepted: &Accepted, table: &[i64]) -> Option<Vec<i64>> {
        let mut patient = Patient { random, accepted, table: table.to_vec() };
        patient.damage(self)?;
        (patient.table != table).then_some(patient.table)
    }
}

/// A table in the making of its damage. Each step is None where the table has no place for it.
struct Patient<'r, 'a> {
    random: &'r mut Random,
    accepted: &'r Accepted<'a>,
    table: Vec<i64>,
}

impl<'r, 'a> Patient<'r, 'a> {
    fn damage(&mut self, damage: Damage) -> Option<()> {
        if damage <= Damage::HeadZeros {
            self.head(damage)
        } else if damage <= Damage::BreachAfterLast {
            self.breach(damage)
        } else if damage <= Damage::PlaceOfOtherSort {
            self.sort_or_place(damage)
        } else if damage <= Damage::TreeLeftOver {
            self.contents(damage)
        } else {
            self.change(damage)
        }
    }

    fn start(&self) -> i64 {
        i64::from(self.accepted.agreement.start)
    }

    fn last(&self) -> i64 {
        self.table[LAST]
    }

    fn used(&self) -> usize {
        self.table[USED] as usize
    }

    fn is(&self, state: i64) -> Option<()> {
        (self.table[STATE] == state).then_some(())
    }

    fn is_not(&self, state: i64) -> Option<()> {
        (self.table[STATE] != state).then_some(())
    }

    fn set(&mut self, cell: usize, value: i64) -> Option<()> {
        self.table[cell] = value;
        Some(())
    }

    /// Something other than 0.
    fn something(&mut self) -> i64 {
        self.random.pick(&[1, -1, 2, 17, 100, 1 << 32, i64::MAX, i64::MIN])
    }

    fn set_something(&mut self, cell: usize) -> Option<()> {
        let something = self.something();
        self.set(cell, something)
    }

    fn head(&mut self, damage: Damage) -> Option<()> {
        let small = self.random.between(1, 50);
        match damage {
            Damage::State => {
                let other = self.random.pick(&[0, 4, 9, -1, 257, 1 << 32 | 1, i64::MIN]);
                self.set(STATE, other)
            }
            Damage::StateSwapped => {
                let next = self.table[STATE] % 3 + 1;
                let other = self.random.pick(&[next, next % 3 + 1]);
                self.set(STATE, other)
            }
            Damage::LastBeforeStart => self.set(LAST, self.start() - small),
            Damage::LastBeyond32Bits => self.set(LAST, (1 << 32) + small - 1),
            Damage::MovedBeforeStart | Damage::MovedAfterLast | Damage::MovedNegative | Damage::MovedFarOff => {
                self.moved(damage)
            }
            Damage::BreachTimeWithoutBreach => {
                self.is_not(BREACHED)?;
                let time = if self.random.chance(50) { self.start().max(1) } else { self.something() };
                self.set(TIME, time)
            }
            Damage::BlameWithoutBreach => {
                self.is_not(BREACHED)?;
                self.set_something(BLAMED)
            }
            Damage::HeadZeros => {
                let cell = self.random.pick(&[MOVED + 1, MOVED + 2]);
                self.set_something(cell)
            }
            _ => self.units(damage),
        }
    }

    /// Cell 5 outside of the start to the last reading time, often by one. Some of these hold a time inside in their
    /// lower 32 bits.
    fn moved(&mut self, damage: Damage) -> Option<()> {
        let (start, last, inside) = (self.start(), self.last(), self.table[MOVED]);
        let off = self.random.between(1, 50);
        let off = self.random.pick(&[1, 1, off]);
        let time = match damage {
            Damage::MovedBeforeStart => {
                let some = self.random.between(0, start);
                Some(self.random.pick(&[start - off, start - 1, some])).filter(|time| (0..start).contains(time))?
            }
            Damage::MovedAfterLast => last + off,
            Damage::MovedNegative => self.random.pick(&[-off, -1, !inside, inside - (1 << 32), -(1 << 32), i64::MIN]),
            _ => self.random.pick(&[1 << 32, (1 << 32) + inside, (1 << 32) + last, 1 << 62, i64::MAX]),
        };
        self.set(MOVED, time)
    }

    fn units(&mut self, damage: Damage) -> Option<()> {
        if damage == Damage::UnitsWithoutRunning {
            self.is_not(RUNNING)?;
            return self.set_something(USED);
        }
        self.is(RUNNING)?;
        let used = self.used();
        match damage {
            Damage::RunningWithoutUnits => {
                if self.random.chance(50) {
                    self.table[HEAD..].fill(0);
                }
                self.set(USED, 0)
            }
            Damage::UnitsTooMany => {
                let more = self.random.below(UNITS - used + 1);
                self.set(USED, (used + more) as i64)
            }
            Damage::UnitsTooFew => {
                let fewer = self.random.below(used);
                self.set(USED, fewer as i64)
            }
            _ => {
                let wrong = self.random.pick(&[129, 130, 3_080, -1, -128, i64::MAX, i64::MIN, 1 << 32 | used as i64]);
                self.set(USED, wrong)
            }
        }
    }

    fn breach(&mut self, damage: Damage) -> Option<()> {
        self.is(BREACHED)?;
        let small = self.random.between(1, 50);
        match damage {
            Damage::BreachWithoutParty => self.set(BLAMED, 0),
            Damage::BreachOfOther => {
                let outside: Vec<u32> = (0..64).filter(|n| u64::from(self.accepted.parties) >> n & 1 == 0).collect();
                let bit = 1 << self.random.pick(&outside);
                let kept = if self.random.chance(50) { self.table[BLAMED] } else { 0 };
                self.set(BLAMED, kept | bit)
            }
            Damage::BreachBeforeStart => self.set(TIME, self.start() - small),
            _ => self.set(TIME, self.last() + small),
        }
    }

    /// The first cell of some unit in use whose sort is wanted.
    fn unit(&mut self, wanted: impl Fn(i64) -> bool) -> Option<usize> {
        self.is(RUNNING)?;
        let units = (0..self.used()).map(|unit| HEAD + unit * UNIT);
        let units: Vec<_> = units.filter(|unit| wanted(self.table[*unit])).collect();
        self.random.any(&units)
    }

    fn waiting(&mut self) -> Option<usize> {
        self.unit(|sort| sort < AND)
    }

    fn join(&mut self) -> Option<usize> {
        self.unit(|sort| sort >= AND)
    }

    /// Some waiting unit and its site.
    fn waiting_site(&mut self) -> Option<(usize, &'r Site<'a>)> {
        let unit = self.waiting()?;
        let site = self.accepted.site(self.table[unit + PLACE])?;
        Some((unit, site))
    }

    fn sort_or_place(&mut self, damage: Damage) -> Option<()> {
        let (unit, sort) = match damage {
            Damage::Sort => (self.unit(|_| true)?, self.random.pick(&[0, 16, 19, 22, 1, -17, 273, 1 << 32 | 17])),
            Damage::WaitingAsJoin => (self.waiting()?, self.random.pick(&[AND, OR])),
            Damage::JoinAsWaiting => (self.join()?, self.random.pick(&[17, 18])),
            Damage::SortOfOther => {
                let unit = self.waiting()?;
                (unit, 17 + 18 - self.table[unit])
            }
            _ => return self.place(damage),
        };
        self.set(unit + SORT, sort)
    }

    fn place(&mut self, damage: Damage) -> Option<()> {
        let (unit, site) = self.waiting_site()?;
        let (place, kind) = (site.wait.place as i64, site.wait.kind());
        if damage == Damage::PlaceNowhere {
            let places = [place + 1, place - 1, place + 4, 0, 7, -1, 16_384, place | 1 << 32, i64::MAX, i64::MIN];
            let places: Vec<_> = places.into_iter().filter(|place| self.accepted.site(*place).is_none()).collect();
            let place = self.random.any(&places)?;
            return self.set(unit + PLACE, place);
        }
        let others = self.accepted.sites.iter().filter(|other| other.wait.kind() != kind);
        let others: Vec<_> = others.map(|other| other.wait.place as i64).collect();
        let other = self.random.any(&others)?;
        self.set(unit + PLACE, other)
    }

    fn contents(&mut self, damage: Damage) -> Option<()> {
        let small = self.random.between(1, 50);
        match damage {
            Damage::ActivatedBeforeStart => {
                let unit = self.waiting()?;
                self.set(unit + ACTIVATED, self.start() - small)
            }
            Damage::ActivatedAfterLast => {
                let unit = self.waiting()?;
                self.set(unit + ACTIVATED, self.last() + small)
            }
            Damage::ParameterOutOfRange | Damage::ParameterUnused | Damage::ParameterNotOfMain => {
                self.parameter(damage)
            }
            Damage::PartyNotOfMain => self.party_not_of_main(),
            Damage::UnitZero => {
                let unit = self.unit(|_| true)?;
                self.set_something(unit + ZERO)
            }
            Damage::NumberOutOfRange => self.value(Type::Number, &[1_000_000_001, -1_000_000_001, i64::MIN]),
            Damage::TruthOutOfRange => self.value(Type::Truth, &[2, -1, 1 << 32 | 1]),
            Damage::PartyOutOfRange => {
                let parties = i64::from(self.accepted.agreement.parties);
                self.value(Type::Party, &[parties, 16, -1, 1 << 32])
            }
            Damage::ValueUnused => {
                let (unit, site) = self.waiting_site()?;
                let count = site.view.values().len();
                let unused: Vec<_> = (unit + VALUES + count..unit + UNIT).collect();
                let cell = self.random.any(&unused)?;
                self.set_something(cell)
            }
            Damage::JoinCells => {
                let cell = self.join()? + 1 + self.random.below(UNIT - 1);
                self.set_something(cell)
            }
            _ => self.tree(damage),
        }
    }

    fn parameter(&mut self, damage: Damage) -> Option<()> {
        let (unit, site) = self.waiting_site()?;
        let (count, parties) = (usize::from(site.view.parameters), site.parties);
        let all = i64::from(self.accepted.agreement.parties);
        let first = unit + PARAMETERS;
        if damage == Damage::ParameterUnused {
            let unused: Vec<_> = (first + count..unit + ZERO).collect();
            let cell = self.random.any(&unused)?;
            return self.set_something(cell);
        }
        let cell = self.random.any(&(first..first + count).collect::<Vec<_>>())?;
        if damage == Damage::ParameterOutOfRange {
            let wrong = self.random.pick(&[all, 16, 128, -1, 1 << 32]);
            return self.set(cell, wrong);
        }
        let party = self.random.any(&self.foreign())?;
        self.set(cell, party)?;
        // Only a parameter that the clause uses makes the party one of the unit's.
        let mut parameters = [0; 4];
        parameters.copy_from_slice(&self.table[first..first + 4]);
        (parties.resolve(&parameters) & !self.accepted.parties != 0).then_some(())
    }

    /// Parties that the main clause does not have.
    fn foreign(&self) -> Vec<i64> {
        (0..i64::from(self.accepted.agreement.parties)).filter(|n| self.accepted.parties >> n & 1 == 0).collect()
    }

    /// A unit, well typed but for a party that is not the main clause's, in the place of another.
    fn party_not_of_main(&mut self) -> Option<()> {
        let unit = self.waiting()?;
        let index = self.random.below(self.accepted.sites.len());
        let site = &self.accepted.sites[index];
        let scope = scope(self.random, self.accepted, site);
        if site.parties.resolve(&scope.parameters) & !self.accepted.parties == 0 {
            return None;
        }
        self.table[unit + SORT] = i64::from(site.wait.kind());
        self.table[unit + PLACE] = site.wait.place as i64;
        self.table[unit + PARAMETERS..unit + ZERO].copy_from_slice(&scope.parameters);
        self.table[unit + VALUES..unit + UNIT].copy_from_slice(&scope.values);
        Some(())
    }

    /// Sets some value of a type.
    fn value(&mut self, value_type: Type, values: &[i64]) -> Option<()> {
        let (unit, site) = self.waiting_site()?;
        let names = (0..).zip(site.view.values()).filter(|(_, t)| **t == value_type);
        let cells: Vec<usize> = names.map(|(name, _)| unit + VALUES + name).collect();
        let cell = self.random.any(&cells)?;
        let value = self.random.pick(values);
        self.set(cell, value)
    }

    fn tree(&mut self, damage: Damage) -> Option<()> {
        if damage == Damage::UnusedUnit {
            let used = self.used();
            let cells: Vec<_> = (HEAD + used * UNIT..CELLS).collect();
            let near = self.random.chance(50);
            let cells = if near { &cells[..cells.len().min(UNIT)] } else { &cells[..] };
            let cell = self.random.any(cells)?;
            return self.set_something(cell);
        }
        self.is(RUNNING)?;
        let end = HEAD + self.used() * UNIT;
        match damage {
            Damage::OrRule => {
                let unit = self.unit(|sort| sort == AND)?;
                let (parties, _) = self.parties(unit);
                if parties.count_ones() < 2 {
                    return None;
                }
                self.set(unit, OR)
            }
            Damage::TreeCutShort => {
                (self.used() > 1).then_some(())?;
                self.table[end - UNIT..end].fill(0);
                self.set(USED, self.table[USED] - 1)
            }
            _ => {
                (self.used() < UNITS).then_some(())?;
                self.table.copy_within(end - UNIT..end, end);
                self.set(USED, self.table[USED] + 1)
            }
        }
    }

    /// The parties by bit of the residue that begins at a cell, and the cell after it.
    fn parties(&self, unit: usize) -> (u32, usize) {
        if self.table[unit] >= AND {
            let (left, next) = self.parties(unit + UNIT);
            let (right, end) = self.parties(next);
            return (left | right, end);
        }
        let site = self.accepted.site(self.table[unit + PLACE]).expect("a site");
        let mut parameters = [0; 4];
        parameters.copy_from_slice(&self.table[unit + PARAMETERS..unit + ZERO]);
        (site.parties.resolve(&parameters), unit + UNIT)
    }

    fn change(&mut self, damage: Damage) -> Option<()> {
        match damage {
            Damage::UnitsExchanged => {
                let (one, other) = (self.unit(|_| true)?, self.unit(|_| true)?);
                (0..UNIT).for_each(|cell| self.table.swap(one + cell, other + cell));
                Some(())
            }
            Damage::PlaceOfSameSort => {
                let (unit, site) = self.waiting_site()?;
                let kind = site.wait.kind();
                let others = self.accepted.sites.iter().filter(|other| other.wait.kind() == kind);
                let others: Vec<_> = others.map(|other| other.wait.place as i64).collect();
                let other = self.random.any(&others)?;
                self.set(unit + PLACE, other)
            }
            Damage::JoinSwapped => {
                let unit = self.join()?;
                self.set(unit, AND + OR - self.table[unit])
            }
            _ => self.other_content(damage),
        }
    }

    fn other_content(&mut self, damage: Damage) -> Option<()> {
        match damage {
            Damage::OtherValue => {
                let cell = self.waiting()? + VALUES + self.random.below(UNIT - VALUES);
                let number = i64::from(self.random.number());
                self.set(cell, number)
            }
            Damage::OtherParameter => {
                let cell = self.waiting()? + PARAMETERS + self.random.below(4);
                let party = self.random.below(usize::from(self.accepted.agreement.parties)) as i64;
                self.set(cell, party)
            }
            Damage::OtherActivation => {
                let unit = self.waiting()?;
                let time = self.random.between(self.start(), self.last());
                self.set(unit + ACTIVATED, time)
            }
            Damage::OtherMoved => {
                let time = self.random.time(self.start(), self.last());
                self.set(MOVED, time)
            }
            _ => {
                let used = self.table[USED].clamp(0, UNITS as i64) as usize;
                let near = (HEAD + (used + 1) * UNIT).min(CELLS);
                let cell = if self.random.chance(80) { self.random.below(near) } else { self.random.below(CELLS) };
                let small = self.random.between(-2, 30);
                let number = i64::from(self.random.number());
                let other = self.table[cell].wrapping_add(self.random.pick(&[1, -1]));
                let value = self.random.pick(&[0, 1, other, small, number]);
                self.set(cell, value)
            }
        }
    }
}

/// Random parameters and values of the types in sight at a site.
fn scope(random: &mut Random, accepted: &Accepted, site: &Site) -> Scope {
    let parties = usize::from(accepted.agreement.parties);
    let types = site.view.values();
    let mut scope = Scope { count: types.len(), ..Scope::default() };
    for (cell, value_type) in scope.values.iter_mut().zip(types) {
        *cell = match value_type {
            Type::Number => i64::from(random.number()),
            Type::Truth => random.below(2) as i64,
            Type::Party => random.below(parties) as i64,
        };
    }
    let parameters = usize::from(site.view.parameters);
    scope.parameters[..parameters].fill_with(|| random.below(parties) as i64);
    scope
}

/// A well-typed table made without a run, if the agreement has what it takes.
pub fn made(random: &mut Random, accepted: &Accepted) -> Option<Vec<i64>> {
    let start = i64::from(accepted.agreement.start);
    let later = random.pick(&[0, 1, 20, 100, 5_000, i64::from(u32::MAX)]);
    let last = (start + later).min(i64::from(u32::MAX));
    let outcome = match random.below(10) {
        0 => Outcome::Fulfilled,
        1 | 2 => {
            let parties = random.subset(accepted.parties);
            if parties == 0 {
                return None;
            }
            Outcome::Breached(Breach { time: random.between(start, last), parties })
        }
        _ => {
            let count = random.pick(&[1, 2, 2, 3, 4, 6, 10, 20, 40, 64]);
            Outcome::Running(Tree { random, accepted, last }.residue(count, accepted.parties)?)
        }
    };
    let moved = random.time(start, last);
    Some(State { last, moved, outcome }.table())
}

/// Makes residues by chance.
struct Tree<'r, 'a> {
    random: &'r mut Random,
    accepted: &'r Accepted<'a>,
    last: i64,
}

impl<'a> Tree<'_, 'a> {
    /// A residue of at most so many waiting units with no parties but these.
    fn residue(&mut self, count: usize, parties: u32) -> Option<Residue<'a>> {
        if count == 1 {
            return self.waiting(parties).map(Residue::Waiting);
        }
        let either = self.random.chance(40);
        let parties = if either { self.one_of(parties) } else { parties };
        let left = 1 + self.random.below(count - 1);
        let sides = (self.residue(left, parties), self.residue(count - left, parties));
        match sides {
            (Some(left), Some(right)) if either => Some(Residue::Or(Box::new(left), Box::new(right))),
            (Some(left), Some(right)) => Some(Residue::And(Box::new(left), Box::new(right))),
            (left, right) => left.or(right),
        }
    }

    fn one_of(&mut self, parties: u32) -> u32 {
        let bits: Vec<u32> = (0..16).map(|n| 1 << n).filter(|bit| parties & bit != 0).collect();
        self.random.any(&bits).unwrap_or(0)
    }

    fn waiting(&mut self, parties: u32) -> Option<Waiting<'a>> {
        let start = i64::from(self.accepted.agreement.start);
        for _ in 0..12 {
            let site = self.accepted.sites.get(self.random.below(self.accepted.sites.len().max(1)))?;
            let scope = scope(self.random, self.accepted, site);
            if site.parties.resolve(&scope.parameters) & !parties == 0 {
                let activated = self.random.time(start, self.last);
                return Some(Waiting { wait: site.wait, activated, scope });
            }
        }
        None
    }
}
