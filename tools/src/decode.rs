//! A record into an agreement, with invented names.
//!
//! What is read is well formed and names nothing that is not there. Whether it is typed, guarded
//! and narrow enough is left to `check`.

mod clauses;
mod part;

use crate::fault::ByteFault;
use crate::limits;
use crate::model::{Agreement, Clause, Head, Reading, Template, Type, Value};
use part::Part;

type Decoded<T> = Result<T, ByteFault>;

/// Reads an agreement record.
pub fn decode(bytes: &[u8]) -> Decoded<Agreement> {
    measure(bytes)?;
    let mut body = Part::whole(bytes).record_of(1, "an agreement")?;
    let start = u32::from_le_bytes(body.take()?);
    let parties = body.count(1, limits::PARTIES, "parties")?;
    let reading_count = body.count(1, limits::READINGS, "readings")?;
    let template_count = body.count(0, limits::TEMPLATES, "templates")?;
    let readings = (1..=reading_count).map(|n| reading(&mut body, n)).collect::<Decoded<Vec<_>>>()?;
    // An instance is read by the head of its template, which may come later: heads first.
    let mut heads: Vec<Head> = Vec::new();
    let mut bodies = Vec::new();
    for n in 0..template_count {
        let (kind, mut template) = template(&mut body, heads.first().map(Head::kind))?;
        heads.push(head(&mut template, n, parties, kind)?);
        bodies.push(template);
    }
    let decoder = Decoder { parties, readings, heads };
    let bodies = bodies.into_iter().zip(&decoder.heads).map(|(part, head)| decoder.body(part, head));
    let bodies = bodies.collect::<Decoded<Vec<_>>>()?;
    let main = decoder.clause(&mut body, &Sight::default())?;
    body.end()?;
    let templates = decoder.heads.into_iter().zip(bodies).map(|(head, body)| Template { head, body }).collect();
    let parties = (0..parties).map(|n| format!("P{n}")).collect();
    Ok(Agreement { start, parties, readings: decoder.readings, templates, main })
}

/// "agreement under 4 or over 16,384 bytes, or not as long as its length says"
fn measure(bytes: &[u8]) -> Decoded<()> {
    let [low, high, _, _, ..] = bytes else {
        return ByteFault::err(0, format!("{} bytes are no record", bytes.len()));
    };
    if bytes.len() > limits::BYTES {
        return ByteFault::err(0, format!("{} bytes: an agreement has at most 16,384", bytes.len()));
    }
    let length = u16::from_le_bytes([*low, *high]);
    if usize::from(length) == bytes.len() {
        return Ok(());
    }
    ByteFault::err(0, format!("a record of {length} bytes in {} bytes", bytes.len()))
}

/// "2 reading type: value count 0 to 4, then their types"
fn reading(part: &mut Part, number: usize) -> Decoded<Reading> {
    let mut body = part.record_of(2, "a reading type")?;
    let values = values(&mut body, limits::READING_VALUES)?;
    body.end()?;
    Ok(Reading { name: format!("R{number}"), values })
}

/// The record of a template with its kind, which is that of the first. "Mixing kinds 3 and 4 [..] is refusal 2."
fn template<'a>(part: &mut Part<'a>, first: Option<u16>) -> Decoded<(u16, Part<'a>)> {
    let place = part.at;
    let (kind, body) = part.record()?;
    let wanted = match first {
        None if [3, 4].contains(&kind) => return Ok((kind, body)),
        None => "kind 3 or 4".to_string(),
        Some(first) if kind == first => return Ok((kind, body)),
        Some(first) => format!("kind {first} as the first"),
    };
    ByteFault::err(place + 2, format!("kind {kind} where a template, {wanted}, must be"))
}

/// "3 template: value count 0 to 8 and their types, party parameter count 0 to 4, declared parties
/// (2 bytes, bit n for party n)"; of kind 4 with "a byte after the declared parties: its units, 0 to 128"
fn head(body: &mut Part, number: usize, parties: usize, kind: u16) -> Decoded<Head> {
    let values = values(body, limits::TEMPLATE_VALUES)?;
    let parameters = body.count(0, limits::PARAMETERS, "party parameters")?;
    let at = body.at;
    let declared = u16::from_le_bytes(body.take()?);
    if u32::from(declared) >> parties != 0 {
        return ByteFault::err(at, format!("a declared party beyond the {parties} there are"));
    }
    let parameters = (0..parameters).map(|n| format!("p{n}")).collect();
    let units = if kind == 4 { Some(limits::byte(body.count(0, limits::UNITS, "units")?)) } else { None };
    Ok(Head { name: format!("T{number}"), values, parameters, declared, units })
}

/// A count of values and their types.
fn values(body: &mut Part, most: usize) -> Decoded<Vec<Value>> {
    let count = body.count(0, most, "values")?;
    (0..count).map(|n| Ok(Value { name: value_name(n), value_type: value_type(body)? })).collect()
}

fn value_type(body: &mut Part) -> Decoded<Type> {
    let at = body.at;
    let byte = body.byte()?;
    match Type::of_byte(byte) {
        Some(value_type) => Ok(value_type),
        None => ByteFault::err(at, format!("type {byte} where 1, 2 or 3 must be")),
    }
}

/// A value is called by its number in sight, so no inner name hides an outer one.
fn value_name(number: usize) -> String {
    format!("v{number}")
}

/// What clauses refer to.
struct Decoder {
    parties: usize,
    readings: Vec<Reading>,
    heads: Vec<Head>,
}

/// How many values and party parameters are in sight.
#[derive(Clone, Copy, Default)]
struct Sight {
    values: usize,
    parameters: usize,
}

impl Decoder {
    fn body(&self, mut part: Part, head: &Head) -> Decoded<Clause> {
        let sight = Sight { values: head.values.len(), parameters: head.parameters.len() };
        let clause = self.clause(&mut part, &sight)?;
        part.end()?;
        Ok(clause)
    }
}
