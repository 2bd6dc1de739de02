//! The words for clauses, readings, times and parties.

use crate::dates;
use crate::model::{Expression, Type};
use crate::pending::Pending;
use crate::print::{Printer, Sight, Spelling};
use crate::readings::Reading;
use crate::source::Source;
use givuntha::Parties;

/// Speaks with the names of an agreement's text.
pub struct Words<'s> {
    pub source: &'s Source,
    printer: Printer<'s>,
}

impl<'s> Words<'s> {
    pub fn of(source: &'s Source) -> Words<'s> {
        let printer = Printer { agreement: &source.assembled.agreement, spelling: Spelling::Sugared };
        Words { source, printer }
    }

    /// A date where the text's start is one, otherwise minutes.
    pub fn time(&self, minutes: i64) -> String {
        match self.source.assembled.dated {
            true => dates::date(minutes),
            false => minutes.to_string(),
        }
    }

    /// A time of the library's, which may exceed 32 bits but never 63.
    pub fn moment(&self, minutes: u64) -> String {
        self.time(i64::try_from(minutes).unwrap_or(i64::MAX))
    }

    pub fn party(&self, party: usize) -> String {
        self.printer.party(party)
    }

    pub fn parties(&self, parties: Parties) -> Vec<String> {
        parties.iter().map(|party| self.party(usize::from(party))).collect()
    }

    /// The reading that is waited for: `Harvested(p, t)`.
    pub fn wanted(&self, pending: &Pending) -> String {
        self.printer.reading_name(pending.wait)
    }

    /// What must be true of it, with all known values put in.
    pub fn condition(&self, pending: &Pending) -> Option<String> {
        let condition = pending.known.expression(&pending.wait.condition);
        let sight = pending.sight.inside(pending.wait);
        (condition != Expression::TRUE).then(|| self.printer.expression(&condition, &sight))
    }

    /// A number, truth or party.
    pub fn literal(&self, literal: &Expression) -> String {
        self.printer.expression(literal, &Sight::default())
    }

    /// The clause without its window: `Harvested(p, t) where p = 1 && 0 < t`.
    pub fn clause(&self, pending: &Pending) -> String {
        match self.condition(pending) {
            Some(condition) => format!("{} where {condition}", self.wanted(pending)),
            None => self.wanted(pending),
        }
    }

    /// The clause and who owes it, if somebody does.
    pub fn duty(&self, pending: &Pending, owes: &str) -> String {
        match pending.party() {
            Some(party) => format!("{} {owes} {}", self.party(party), self.clause(pending)),
            None => self.clause(pending),
        }
    }

    pub fn window(&self, pending: &Pending) -> String {
        let window = format!("from {} to {}", self.time(pending.first), self.time(pending.last));
        if pending.first > pending.last {
            return window + ", which is no time at all";
        }
        window
    }

    /// What is said of a reading that came before its window.
    pub fn too_early(&self, pending: &Pending) -> String {
        format!("too early: the window opens at {}", self.time(pending.first))
    }

    /// The line of the text where the clause stands.
    pub fn line(&self, pending: &Pending) -> Option<usize> {
        self.source.place(pending.wait.place).map(|place| place.line)
    }

    /// A reading by its name and values.
    pub fn reading(&self, reading: &Reading) -> String {
        let declared = usize::from(reading.kind).checked_sub(1);
        let declared = declared.and_then(|index| self.source.assembled.agreement.readings.get(index));
        let name = match declared {
            Some(declared) => declared.name.clone(),
            None if reading.kind == 0 => "mark".to_string(),
            None => format!("type {}", reading.kind),
        };
        let types = declared.map_or(&[][..], |declared| &declared.values).iter().map(|value| Some(value.value_type));
        let values = reading.values.iter().zip(types.chain(std::iter::repeat(None)));
        values.fold(name, |line, (value, value_type)| format!("{line} {}", self.value(*value, value_type)))
    }

    fn value(&self, value: i32, value_type: Option<Type>) -> String {
        let known = self.source.assembled.agreement.parties.len();
        match (value_type, value) {
            (Some(Type::Truth), 0) => "false".to_string(),
            (Some(Type::Truth), 1) => "true".to_string(),
            (Some(Type::Party), _) => match usize::try_from(value) {
                Ok(party) if party < known => self.party(party),
                _ => value.to_string(),
            },
            _ => value.to_string(),
        }
    }
}
