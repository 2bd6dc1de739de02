//! What the agreement says of its table: places, types, ranges and parties.

use crate::known::Known;
use crate::limits;
use crate::model::{Agreement, Expression, Type, Value, Wait};
use crate::print::Sight;
use crate::sites::{parties, sites, wait_parties, Site};
use crate::table::{Outcome, Residue, State, Waiting};
use std::collections::BTreeMap;

/// A waiting unit with its clause.
pub struct Unit<'a> {
    pub wait: &'a Wait,
    /// The names in sight at the clause.
    pub sight: Sight,
    /// What they stand for.
    pub known: Known,
}

/// The waiting units by their numbers.
pub type Units<'a> = BTreeMap<usize, Unit<'a>>;

/// Finds the clause of each waiting unit, or says why the table is none of the agreement's.
pub fn fit<'a>(state: &State, agreement: &'a Agreement) -> Result<Units<'a>, String> {
    let fit = Fit { agreement, sites: sites(agreement), main: parties(&agreement.main, agreement, &[]) };
    let start = i64::from(agreement.start);
    if state.last < start {
        return Err(format!("the last reading time {} lies before the start {start}", state.last));
    }
    if state.moved < start {
        return Err(format!("last moved at {}, before the start {start}", state.moved));
    }
    let mut units = BTreeMap::new();
    match &state.outcome {
        Outcome::Fulfilled => {}
        Outcome::Breached(time, _) if *time < start => {
            return Err(format!("a breach at {time}, before the start {start}"));
        }
        Outcome::Breached(_, blamed) if blamed & !fit.main != 0 => {
            return Err("a breach by a party whom the main clause has not".to_string());
        }
        Outcome::Breached(..) => {}
        Outcome::Running(residue) => {
            fit.residue(residue, &mut units)?;
        }
    }
    Ok(units)
}

struct Fit<'a> {
    agreement: &'a Agreement,
    sites: Vec<Site<'a>>,
    /// The main clause's parties.
    main: u32,
}

impl<'a> Fit<'a> {
    /// Gives the parties of the residue.
    fn residue(&self, residue: &Residue, units: &mut Units<'a>) -> Result<u32, String> {
        match residue {
            Residue::Waiting(waiting) => {
                let unit = self.unit(waiting)?;
                let parties = wait_parties(unit.wait, self.agreement, &unit.known.parameters);
                units.insert(waiting.unit, unit);
                if parties & !self.main == 0 {
                    return Ok(parties);
                }
                Err(format!("unit {} has a party whom the main clause has not", waiting.unit))
            }
            Residue::And(left, right) => Ok(self.residue(left, units)? | self.residue(right, units)?),
            Residue::Or(left, right) => {
                let parties = self.residue(left, units)? | self.residue(right, units)?;
                if parties.count_ones() <= 1 {
                    return Ok(parties);
                }
                Err("the sides of an `or` have two parties or more".to_string())
            }
        }
    }

    fn unit(&self, waiting: &Waiting) -> Result<Unit<'a>, String> {
        let number = waiting.unit;
        let start = i64::from(self.agreement.start);
        let found = self.sites.iter().find(|site| i64::try_from(site.wait.place) == Ok(waiting.place));
        let Some(Site { wait, sight }) = found.filter(|site| i64::from(site.wait.kind()) == waiting.sort) else {
            let what = if waiting.sort == 17 { "an obligation" } else { "a choice" };
            return Err(format!("unit {number} is {what} at byte {}, where none begins", waiting.place));
        };
        if waiting.activated < start {
            return Err(format!("unit {number} waits since {}, before the start {start}", waiting.activated));
        }
        let known = Known { values: self.values(waiting, sight)?, parameters: self.parameters(waiting, sight)? };
        Ok(Unit { wait, sight: sight.clone(), known })
    }

    fn values(&self, waiting: &Waiting, sight: &Sight) -> Result<Vec<Expression>, String> {
        let (values, unused) = waiting.values.split_at(sight.values.len().min(waiting.values.len()));
        if unused.iter().any(|value| *value != 0) {
            return Err(format!("unit {} has more values than are in sight there", waiting.unit));
        }
        let literal = |(n, (value, cell)): (usize, (&Value, &i64))| {
            self.literal(value.value_type, *cell).ok_or_else(|| {
                let word = value.value_type.word();
                format!("value {n} of unit {} is {cell}, which is no {word}", waiting.unit)
            })
        };
        sight.values.iter().zip(values).enumerate().map(literal).collect()
    }

    fn parameters(&self, waiting: &Waiting, sight: &Sight) -> Result<Vec<usize>, String> {
        let (parameters, unused) = waiting.parameters.split_at(sight.parameters.len().min(limits::PARAMETERS));
        if unused.iter().any(|party| *party != 0) {
            return Err(format!("unit {} has more party parameters than its template", waiting.unit));
        }
        let party = |cell: &i64| match self.literal(Type::Party, *cell) {
            Some(Expression::Party(party)) => Ok(party),
            _ => Err(format!("a party parameter of unit {} is {cell}, which is no party", waiting.unit)),
        };
        parameters.iter().map(party).collect()
    }

    /// What a cell stands for, if it is of the type and in its range.
    fn literal(&self, value_type: Type, cell: i64) -> Option<Expression> {
        match (value_type, cell) {
            (Type::Number, _) if limits::is_number(cell) => i32::try_from(cell).ok().map(Expression::Number),
            (Type::Truth, 0 | 1) => Some(Expression::Truth(cell == 1)),
            (Type::Party, _) => {
                let party = usize::try_from(cell).ok()?;
                (party < self.agreement.parties.len()).then_some(Expression::Party(party))
            }
            _ => None,
        }
    }
}
