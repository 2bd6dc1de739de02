//! Makes records: agreements and readings for trials, byte by byte as under "Records".

use crate::agreement::{Operator, Type};

/// A record of a kind with the parts of its body. The parts must leave its length in two bytes.
pub fn record(kind: u16, parts: &[&[u8]]) -> Vec<u8> {
    let length = 4 + parts.iter().map(|part| part.len()).sum::<usize>();
    let length = u16::try_from(length).expect("a record of at most 65,535 bytes");
    let mut bytes = Vec::with_capacity(usize::from(length));
    bytes.extend(length.to_le_bytes());
    bytes.extend(kind.to_le_bytes());
    parts.iter().for_each(|part| bytes.extend_from_slice(part));
    bytes
}

pub fn agreement(start: u32, parties: u8, readings: &[Vec<u8>], templates: &[Vec<u8>], main: &[u8]) -> Vec<u8> {
    let counts = [parties, readings.len() as u8, templates.len() as u8];
    record(1, &[&start.to_le_bytes(), &counts, &readings.concat(), &templates.concat(), main])
}

pub fn reading_type(types: &[Type]) -> Vec<u8> {
    record(2, &[&[types.len() as u8], &type_bytes(types)])
}

pub fn template(types: &[Type], parameters: u8, declared: u16, body: &[u8]) -> Vec<u8> {
    record(3, &[&[types.len() as u8], &type_bytes(types), &[parameters], &declared.to_le_bytes(), body])
}

/// A template of kind 4, which declares its units.
pub fn sized_template(types: &[Type], parameters: u8, declared: u16, units: u8, body: &[u8]) -> Vec<u8> {
    let count = types.len() as u8;
    record(4, &[&[count], &type_bytes(types), &[parameters], &declared.to_le_bytes(), &[units], body])
}

fn type_bytes(types: &[Type]) -> Vec<u8> {
    types.iter().map(|t| type_byte(*t)).collect()
}

fn type_byte(value_type: Type) -> u8 {
    match value_type {
        Type::Number => 1,
        Type::Truth => 2,
        Type::Party => 3,
    }
}

pub fn fulfilled() -> Vec<u8> {
    record(16, &[])
}

/// What an obligation and a choice share: reading type, where, after, within, then.
pub struct Wait {
    pub reading: u8,
    pub condition: Vec<u8>,
    pub after: Vec<u8>,
    pub within: Vec<u8>,
    pub then: Vec<u8>,
}

impl Wait {
    pub fn obligation(&self, blame: u8) -> Vec<u8> {
        record(17, &[&[blame, self.reading], &self.condition, &self.after, &self.within, &self.then])
    }

    pub fn choice(&self, otherwise: &[u8]) -> Vec<u8> {
        record(18, &[&[self.reading], &self.condition, &self.after, &self.within, &self.then, otherwise])
    }
}

/// Waits for any reading of type 1 from now on for so long, then is fulfilled.
pub fn simple(within: i32) -> Wait {
    Wait { reading: 1, condition: truth(1), after: number(0), within: number(within), then: fulfilled() }
}

pub fn if_clause(condition: &[u8], left: &[u8], right: &[u8]) -> Vec<u8> {
    record(19, &[condition, left, right])
}

pub fn and(left: &[u8], right: &[u8]) -> Vec<u8> {
    record(20, &[left, right])
}

pub fn or(left: &[u8], right: &[u8]) -> Vec<u8> {
    record(21, &[left, right])
}

pub fn instance(template: u8, values: &[Vec<u8>], blames: &[u8]) -> Vec<u8> {
    record(22, &[&[template], &values.concat(), blames])
}

pub fn number(number: i32) -> Vec<u8> {
    record(32, &[&number.to_le_bytes()])
}

pub fn truth(truth: u8) -> Vec<u8> {
    record(33, &[&[truth]])
}

pub fn party(party: u8) -> Vec<u8> {
    record(34, &[&[party]])
}

pub fn value(name: u8) -> Vec<u8> {
    record(35, &[&[name]])
}

pub fn not(operand: &[u8]) -> Vec<u8> {
    record(36, &[operand])
}

pub fn binary(operator: Operator, left: &[u8], right: &[u8]) -> Vec<u8> {
    let kind = match operator {
        Operator::Plus => 37,
        Operator::Minus => 38,
        Operator::Times => 39,
        Operator::Quotient => 40,
        Operator::And => 41,
        Operator::Less => 42,
        Operator::Equal => 43,
    };
    record(kind, &[left, right])
}

pub fn reading(time: u32, kind: u8, values: &[i32]) -> Vec<u8> {
    let values: Vec<u8> = values.iter().flat_map(|value| value.to_le_bytes()).collect();
    record(64, &[&time.to_le_bytes(), &[kind], &values])
}
