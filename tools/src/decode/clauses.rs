//! Clauses and expressions.

use super::part::Part;
use super::{value_name, Decoded, Decoder, Sight};
use crate::fault::ByteFault;
use crate::limits;
use crate::model::{Blame, Clause, Expression, Instance, Late, Operator, Type, Value, Wait};

impl Decoder {
    pub fn clause(&self, part: &mut Part, sight: &Sight) -> Decoded<Clause> {
        let place = part.at;
        let (kind, mut body) = part.record()?;
        let clause = match kind {
            16 => Clause::Fulfilled,
            17 | 18 => Clause::Wait(Box::new(self.wait(place, kind, &mut body, sight)?)),
            19 => {
                let condition = self.expression(&mut body, sight)?;
                let (then, otherwise) = self.sides(&mut body, sight)?;
                Clause::If(condition, then, otherwise)
            }
            20 => {
                let (left, right) = self.sides(&mut body, sight)?;
                Clause::And(left, right)
            }
            21 => {
                let (left, right) = self.sides(&mut body, sight)?;
                Clause::Or(left, right)
            }
            22 => Clause::Instance(self.instance(&mut body, sight)?),
            _ => return ByteFault::err(place + 2, format!("kind {kind} where a clause, kind 16 to 22, must be")),
        };
        body.end()?;
        Ok(clause)
    }

    fn sides(&self, body: &mut Part, sight: &Sight) -> Decoded<(Box<Clause>, Box<Clause>)> {
        Ok((Box::new(self.clause(body, sight)?), Box::new(self.clause(body, sight)?)))
    }

    /// "17 obligation: blame, reading type, where, after, within, then. 18 choice: the same without
    /// blame, and an else after then."
    fn wait(&self, place: usize, kind: u16, body: &mut Part, sight: &Sight) -> Decoded<Wait> {
        let blame = if kind == 17 { Some(self.blame(body, sight)?) } else { None };
        let reading = self.reading(body)?;
        let values = &self.readings[reading].values;
        let bind = |(n, value): (usize, &Value)| Value { name: value_name(n), ..*value };
        let bound: Vec<_> = (sight.values..).zip(values).map(bind).collect();
        let inside = Sight { values: sight.values + bound.len(), ..*sight };
        let after_all = Sight { values: inside.values + 1, ..*sight };
        if after_all.values > limits::SIGHT {
            let what = format!("{} values in sight: at most {}", after_all.values, limits::SIGHT);
            return ByteFault::err(place, what);
        }
        Ok(Wait {
            place,
            reading,
            condition: self.expression(body, &inside)?,
            after: self.expression(body, sight)?,
            within: self.expression(body, sight)?,
            then: self.clause(body, &after_all)?,
            bound,
            remaining: Value { name: value_name(inside.values), value_type: Type::Number },
            late: match blame {
                Some(blame) => Late::Breach(blame),
                None => Late::Else(self.clause(body, sight)?),
            },
        })
    }

    /// Reading types count from 1.
    fn reading(&self, body: &mut Part) -> Decoded<usize> {
        let at = body.at;
        let number = usize::from(body.byte()?);
        match number.checked_sub(1).filter(|index| *index < self.readings.len()) {
            Some(index) => Ok(index),
            None => ByteFault::err(at, format!("reading type {number} where 1 to {} may be", self.readings.len())),
        }
    }

    /// "A blame byte is a party below the party count, or 128 to 131 for the template's party
    /// parameter 0 to 3."
    fn blame(&self, body: &mut Part, sight: &Sight) -> Decoded<Blame> {
        let at = body.at;
        let byte = body.byte()?;
        match byte.checked_sub(limits::FIRST_PARAMETER) {
            Some(parameter) if usize::from(parameter) < sight.parameters => Ok(Blame::Parameter(parameter.into())),
            None if usize::from(byte) < self.parties => Ok(Blame::Party(byte.into())),
            _ => ByteFault::err(at, format!("blame {byte}, which is no party and no party parameter here")),
        }
    }

    /// "22 instance: template, one expression per value, one blame byte per party parameter."
    fn instance(&self, body: &mut Part, sight: &Sight) -> Decoded<Instance> {
        let template = body.index(self.heads.len(), "template")?;
        let head = &self.heads[template];
        let values = head.values.iter().map(|_| self.expression(body, sight)).collect::<Decoded<_>>()?;
        let blames = head.parameters.iter().map(|_| self.blame(body, sight)).collect::<Decoded<_>>()?;
        Ok(Instance { template, values, blames })
    }

    fn expression(&self, part: &mut Part, sight: &Sight) -> Decoded<Expression> {
        let place = part.at;
        let (kind, mut body) = part.record()?;
        let expression = match kind {
            32 => number(&mut body)?,
            33 => Expression::Truth(body.index(2, "truth")? == 1),
            34 => Expression::Party(body.index(self.parties, "party")?),
            35 => Expression::Value(body.index(sight.values, "value")?),
            36 => Expression::Not(Box::new(self.expression(&mut body, sight)?)),
            _ => {
                let Some(operator) = Operator::of_kind(kind) else {
                    let what = format!("kind {kind} where an expression, kind 32 to 43, must be");
                    return ByteFault::err(place + 2, what);
                };
                let left = self.expression(&mut body, sight)?;
                let right = self.expression(&mut body, sight)?;
                Expression::Binary(operator, Box::new(left), Box::new(right))
            }
        };
        body.end()?;
        Ok(expression)
    }
}

fn number(body: &mut Part) -> Decoded<Expression> {
    let at = body.at;
    let number = i32::from_le_bytes(body.take()?);
    if limits::is_number(i64::from(number)) {
        return Ok(Expression::Number(number));
    }
    ByteFault::err(at, format!("number {number}, beyond plus or minus 1,000,000,000"))
}
