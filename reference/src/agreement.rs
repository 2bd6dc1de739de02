//! The agreement as a tree, by the paper's section "Records".
//!
//! Parsing decides refusals 1 and 2 and nothing else: a tree may still be untyped, unguarded or
//! too wide.

use crate::Refusal;

/// "agreement under 4 or over 16,384 bytes"
const SHORTEST: usize = 4;
const LONGEST: usize = 16_384;
/// "Records nest at most 24 deep, the agreement being depth 1."
const DEEPEST: u32 = 24;
/// The length and the kind that every record begins with.
const HEAD: usize = 4;
/// Paper 02, No. 7: "its units, 0 to 128".
pub const MOST_UNITS: u8 = 128;

/// "Types are number, truth and party."
#[derive(Clone, Copy, Debug, PartialEq, Eq)]
pub enum Type {
    Number,
    Truth,
    Party,
}

impl Type {
    /// "Numbers run from −1,000,000,000 to 1,000,000,000"
    pub const LIMIT: i64 = 1_000_000_000;

    /// Whether a value is of this type and in its range, there being so many parties.
    pub fn holds(self, value: i64, parties: u8) -> bool {
        match self {
            Type::Number => (-Type::LIMIT..=Type::LIMIT).contains(&value),
            Type::Truth => value == 0 || value == 1,
            Type::Party => (0..i64::from(parties)).contains(&value),
        }
    }
}

/// Kind 1.
#[derive(Debug)]
pub struct Agreement {
    pub start: u32,
    pub parties: u8,
    /// The value types of reading types 1, 2, ...
    pub readings: Vec<Vec<Type>>,
    pub templates: Vec<Template>,
    pub main: Clause,
}

impl Agreement {
    /// The units that the templates of a sized agreement declare; none if it is not sized. Paper 02,
    /// No. 7: "An agreement whose templates are all of kind 4, and which has at least one, is sized."
    pub fn declared_units(&self) -> Option<Vec<u8>> {
        let units: Option<Vec<u8>> = self.templates.iter().map(|template| template.head.units).collect();
        units.filter(|units| !units.is_empty())
    }
}

/// Kinds 3 and 4.
#[derive(Debug)]
pub struct Template {
    pub head: Head,
    pub body: Clause,
}

/// What a template says before its clause.
#[derive(Debug)]
pub struct Head {
    pub values: Vec<Type>,
    pub parameters: u8,
    /// "declared parties (2 bytes, bit n for party n)"
    pub declared: u16,
    /// Of kind 4: its units.
    pub units: Option<u8>,
}

/// Kinds 16 to 22.
#[derive(Debug)]
pub enum Clause {
    Fulfilled,
    /// An obligation or a choice.
    Wait(Box<Wait>),
    If(Expression, Box<Clause>, Box<Clause>),
    And(Box<Clause>, Box<Clause>),
    Or(Box<Clause>, Box<Clause>),
    Instance(Instance),
}

/// What obligations and choices have in common, and where they differ.
#[derive(Debug)]
pub struct Wait {
    /// The byte place of the clause in the agreement.
    pub place: usize,
    /// The wanted reading type.
    pub reading: u8,
    /// The paper's `where`.
    pub condition: Expression,
    pub after: Expression,
    pub within: Expression,
    pub then: Clause,
    pub late: Late,
}

/// What follows when no reading came in time.
#[derive(Debug)]
pub enum Late {
    /// An obligation is breached by its blame.
    Breach(u8),
    /// A choice goes on with its else.
    Else(Clause),
}

impl Wait {
    /// The kind of its record, which is also the sort of its unit.
    pub fn kind(&self) -> u16 {
        match self.late {
            Late::Breach(_) => 17,
            Late::Else(_) => 18,
        }
    }
}

/// Kind 22.
#[derive(Debug)]
pub struct Instance {
    pub template: usize,
    pub values: Vec<Expression>,
    pub blames: Vec<u8>,
}

/// Kinds 32 to 43.
#[derive(Debug)]
pub enum Expression {
    Number(i32),
    Truth(u8),
    Party(u8),
    /// A value in sight.
    Value(u8),
    Not(Box<Expression>),
    Binary(Operator, Box<Expression>, Box<Expression>),
}

#[derive(Clone, Copy, Debug, PartialEq, Eq)]
pub enum Operator {
    Plus,
    Minus,
    Times,
    Quotient,
    And,
    Less,
    Equal,
}

/// Reads an agreement, or refuses it with 1 or 2.
pub fn parse(bytes: &[u8]) -> Result<Agreement, Refusal> {
    measure(bytes)?;
    let mut body = Part::whole(bytes).record_of(1)?;
    let start = u32::from_le_bytes(body.take()?);
    let parties = body.count(1, 16)?;
    let reading_count = body.count(1, 16)?;
    let template_count = body.count(0, 32)?;
    let readings = repeat(reading_count, || reading_type(&mut body))?;
    // An instance is read by the head of its template, which may come later: heads first.
    let mut heads = Vec::new();
    let mut bodies = Vec::new();
    for _ in 0..template_count {
        let (kind, mut template) = body.record()?;
        heads.push(head(kind, &mut template)?);
        bodies.push(template);
    }
    all_of_one_kind(&heads)?;
    let main = clause(&mut body, &heads)?;
    body.end()?;
    let bodies = bodies.into_iter().map(|part| template_body(part, &heads)).collect::<Result<Vec<_>, _>>()?;
    let templates = heads.into_iter().zip(bodies).map(|(head, body)| Template { head, body }).collect();
    Ok(Agreement { start, parties, readings, templates, main })
}

/// Refusal 1: the length of the whole.
fn measure(bytes: &[u8]) -> Result<(), Refusal> {
    let possible = (SHORTEST..=LONGEST).contains(&bytes.len());
    if possible && usize::from(u16::from_le_bytes([bytes[0], bytes[1]])) == bytes.len() {
        Ok(())
    } else {
        Err(Refusal::Length)
    }
}

/// "2 reading type: value count 0 to 4, then their types"
fn reading_type(part: &mut Part) -> Result<Vec<Type>, Refusal> {
    let mut body = part.record_of(2)?;
    let count = body.count(0, 4)?;
    let types = repeat(count, || body.value_type())?;
    body.end()?;
    Ok(types)
}

/// "3 template: value count 0 to 8 and their types, party parameter count 0 to 4, declared
/// parties (2 bytes, bit n for party n), one clause." Paper 02, No. 7: "Template kind 4 is kind 3
/// with a byte after the declared parties: its units, 0 to 128."
fn head(kind: u16, body: &mut Part) -> Result<Head, Refusal> {
    let has_units = match kind {
        3 => false,
        4 => true,
        _ => return Err(Refusal::Records),
    };
    let count = body.count(0, 8)?;
    let values = repeat(count, || body.value_type())?;
    let parameters = body.count(0, 4)?;
    let declared = u16::from_le_bytes(body.take()?);
    let units = if has_units { Some(body.count(0, MOST_UNITS)?) } else { None };
    Ok(Head { values, parameters, declared, units })
}

/// "Mixing kinds 3 and 4 ... is refusal 2."
fn all_of_one_kind(heads: &[Head]) -> Result<(), Refusal> {
    let of_kind_4 = heads.iter().filter(|head| head.units.is_some()).count();
    if of_kind_4 == 0 || of_kind_4 == heads.len() {
        Ok(())
    } else {
        Err(Refusal::Records)
    }
}

fn template_body(mut part: Part, heads: &[Head]) -> Result<Clause, Refusal> {
    let body = clause(&mut part, heads)?;
    part.end()?;
    Ok(body)
}

fn clause(part: &mut Part, heads: &[Head]) -> Result<Clause, Refusal> {
    let place = part.at;
    let (kind, mut body) = part.record()?;
    let clause = match kind {
        16 => Clause::Fulfilled,
        17 => {
            let blame = body.byte()?;
            Clause::Wait(wait(place, Some(blame), &mut body, heads)?)
        }
        18 => Clause::Wait(wait(place, None, &mut body, heads)?),
        19 => {
            let condition = expression(&mut body)?;
            let (left, right) = sides(&mut body, heads)?;
            Clause::If(condition, left, right)
        }
        20 | 21 => {
            let (left, right) = sides(&mut body, heads)?;
            if kind == 20 {
                Clause::And(left, right)
            } else {
                Clause::Or(left, right)
            }
        }
        22 => Clause::Instance(instance(&mut body, heads)?),
        _ => return Err(Refusal::Records),
    };
    body.end()?;
    Ok(clause)
}

/// "17 obligation: blame, reading type, where, after, within, then. 18 choice: the same without
/// blame, and an else after then." The blame, if any, is read already.
fn wait(place: usize, blame: Option<u8>, body: &mut Part, heads: &[Head]) -> Result<Box<Wait>, Refusal> {
    Ok(Box::new(Wait {
        place,
        reading: body.byte()?,
        condition: expression(body)?,
        after: expression(body)?,
        within: expression(body)?,
        then: clause(body, heads)?,
        late: match blame {
            Some(blame) => Late::Breach(blame),
            None => Late::Else(clause(body, heads)?),
        },
    }))
}

fn sides(body: &mut Part, heads: &[Head]) -> Result<(Box<Clause>, Box<Clause>), Refusal> {
    Ok((Box::new(clause(body, heads)?), Box::new(clause(body, heads)?)))
}

/// "22 instance: template, one expression per value, one blame byte per party parameter."
fn instance(body: &mut Part, heads: &[Head]) -> Result<Instance, Refusal> {
    let template = usize::from(body.byte()?);
    let head = heads.get(template).ok_or(Refusal::Records)?;
    let values = head.values.iter().map(|_| expression(body)).collect::<Result<_, _>>()?;
    let blames = repeat(head.parameters, || body.byte())?;
    Ok(Instance { template, values, blames })
}

fn expression(part: &mut Part) -> Result<Expression, Refusal> {
    let (kind, mut body) = part.record()?;
    let expression = match kind {
        32 => Expression::Number(i32::from_le_bytes(body.take()?)),
        33 => Expression::Truth(body.byte()?),
        34 => Expression::Party(body.byte()?),
        35 => Expression::Value(body.byte()?),
        36 => Expression::Not(Box::new(expression(&mut body)?)),
        37 => binary(Operator::Plus, &mut body)?,
        38 => binary(Operator::Minus, &mut body)?,
        39 => binary(Operator::Times, &mut body)?,
        40 => binary(Operator::Quotient, &mut body)?,
        41 => binary(Operator::And, &mut body)?,
        42 => binary(Operator::Less, &mut body)?,
        43 => binary(Operator::Equal, &mut body)?,
        _ => return Err(Refusal::Records),
    };
    body.end()?;
    Ok(expression)
}

fn binary(operator: Operator, body: &mut Part) -> Result<Expression, Refusal> {
    let left = Box::new(expression(body)?);
    let right = Box::new(expression(body)?);
    Ok(Expression::Binary(operator, left, right))
}

/// Reads so many of the same.
fn repeat<T>(count: u8, mut read: impl FnMut() -> Result<T, Refusal>) -> Result<Vec<T>, Refusal> {
    (0..count).map(|_| read()).collect()
}

/// The unread rest of a record's body.
struct Part<'a> {
    bytes: &'a [u8],
    /// The place in the agreement that is read next.
    at: usize,
    /// The place at which the record ends.
    end: usize,
    /// The depth of the record; 0 is outside the agreement.
    depth: u32,
}

impl<'a> Part<'a> {
    fn whole(bytes: &'a [u8]) -> Part<'a> {
        Part { bytes, at: 0, end: bytes.len(), depth: 0 }
    }

    fn take<const N: usize>(&mut self) -> Result<[u8; N], Refusal> {
        let rest = &self.bytes[self.at..self.end];
        let taken = *rest.first_chunk().ok_or(Refusal::Records)?;
        self.at += N;
        Ok(taken)
    }

    fn byte(&mut self) -> Result<u8, Refusal> {
        self.take().map(|[byte]| byte)
    }

    fn count(&mut self, least: u8, most: u8) -> Result<u8, Refusal> {
        let count = self.byte()?;
        if (least..=most).contains(&count) {
            Ok(count)
        } else {
            Err(Refusal::Records)
        }
    }

    /// "their types (1 number, 2 truth, 3 party)"
    fn value_type(&mut self) -> Result<Type, Refusal> {
        match self.byte()? {
            1 => Ok(Type::Number),
            2 => Ok(Type::Truth),
            3 => Ok(Type::Party),
            _ => Err(Refusal::Records),
        }
    }

    /// "A record is a two-byte length (of the whole record), a two-byte kind, then its body."
    fn record(&mut self) -> Result<(u16, Part<'a>), Refusal> {
        let place = self.at;
        let length = usize::from(u16::from_le_bytes(self.take()?));
        let kind = u16::from_le_bytes(self.take()?);
        if length < HEAD || length > self.end - place || self.depth == DEEPEST {
            return Err(Refusal::Records);
        }
        let body = Part { bytes: self.bytes, at: self.at, end: place + length, depth: self.depth + 1 };
        self.at = body.end;
        Ok((kind, body))
    }

    fn record_of(&mut self, wanted: u16) -> Result<Part<'a>, Refusal> {
        let (kind, body) = self.record()?;
        if kind == wanted {
            Ok(body)
        } else {
            Err(Refusal::Records)
        }
    }

    /// "Parts follow each other exactly; no byte is left over."
    fn end(&self) -> Result<(), Refusal> {
        if self.at == self.end {
            Ok(())
        } else {
            Err(Refusal::Records)
        }
    }
}
