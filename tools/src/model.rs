//! An agreement with everything by number, as its record has it. The names are carried along for
//! people; they mean nothing to the record.

/// "Types are number, truth and party."
#[derive(Clone, Copy, Debug, PartialEq, Eq)]
pub enum Type {
    Number,
    Truth,
    Party,
}

impl Type {
    /// "1 number, 2 truth, 3 party"
    pub fn byte(self) -> u8 {
        match self {
            Type::Number => 1,
            Type::Truth => 2,
            Type::Party => 3,
        }
    }

    pub fn of_byte(byte: u8) -> Option<Type> {
        [Type::Number, Type::Truth, Type::Party].into_iter().find(|value_type| value_type.byte() == byte)
    }

    pub fn word(self) -> &'static str {
        match self {
            Type::Number => "number",
            Type::Truth => "truth",
            Type::Party => "party",
        }
    }

    pub fn of_word(word: &str) -> Option<Type> {
        [Type::Number, Type::Truth, Type::Party].into_iter().find(|value_type| value_type.word() == word)
    }
}

/// A value that is bound: a template's, a reading's, or the remaining time.
#[derive(Clone, Debug, PartialEq, Eq)]
pub struct Value {
    pub name: String,
    pub value_type: Type,
}

/// Kind 1.
#[derive(Debug, PartialEq, Eq)]
pub struct Agreement {
    pub start: u32,
    pub parties: Vec<String>,
    pub readings: Vec<Reading>,
    pub templates: Vec<Template>,
    pub main: Clause,
}

/// Kind 2.
#[derive(Clone, Debug, PartialEq, Eq)]
pub struct Reading {
    pub name: String,
    pub values: Vec<Value>,
}

/// Kind 3, or kind 4 where it declares its units.
#[derive(Debug, PartialEq, Eq)]
pub struct Template {
    pub head: Head,
    pub body: Clause,
}

/// What a template says before its clause.
#[derive(Clone, Debug, PartialEq, Eq)]
pub struct Head {
    pub name: String,
    pub values: Vec<Value>,
    pub parameters: Vec<String>,
    /// By bit.
    pub declared: u16,
    /// What an instance needs in a sized agreement.
    pub units: Option<u8>,
}

impl Head {
    /// The kind of the template's record.
    pub fn kind(&self) -> u16 {
        match self.units {
            None => 3,
            Some(_) => 4,
        }
    }
}

/// Kinds 16 to 22.
#[derive(Debug, PartialEq, Eq)]
pub enum Clause {
    Fulfilled,
    /// An obligation or a choice.
    Wait(Box<Wait>),
    If(Expression, Box<Clause>, Box<Clause>),
    And(Box<Clause>, Box<Clause>),
    Or(Box<Clause>, Box<Clause>),
    Instance(Instance),
}

/// What obligations and choices have in common, and where they differ.
#[derive(Debug, PartialEq, Eq)]
pub struct Wait {
    /// The byte place of the clause in the agreement.
    pub place: usize,
    /// The reading, counted from 0.
    pub reading: usize,
    /// The reading's values as they are called here.
    pub bound: Vec<Value>,
    /// The remaining time, which `then` sees.
    pub remaining: Value,
    pub condition: Expression,
    pub after: Expression,
    pub within: Expression,
    pub then: Clause,
    pub late: Late,
}

/// What follows when no reading came in time.
#[derive(Debug, PartialEq, Eq)]
pub enum Late {
    /// An obligation is breached by its blame.
    Breach(Blame),
    /// A choice goes on with its else.
    Else(Clause),
}

impl Wait {
    /// The kind of its record, which is also the sort of its unit.
    pub fn kind(&self) -> u16 {
        match self.late {
            Late::Breach(_) => 17,
            Late::Else(_) => 18,
        }
    }
}

#[derive(Clone, Copy, Debug, PartialEq, Eq)]
pub enum Blame {
    Party(usize),
    Parameter(usize),
}

/// Kind 22.
#[derive(Debug, PartialEq, Eq)]
pub struct Instance {
    pub template: usize,
    pub values: Vec<Expression>,
    pub blames: Vec<Blame>,
}

/// Kinds 32 to 43.
#[derive(Clone, Debug, PartialEq, Eq)]
pub enum Expression {
    Number(i32),
    Truth(bool),
    Party(usize),
    /// A value in sight.
    Value(usize),
    Not(Box<Expression>),
    Binary(Operator, Box<Expression>, Box<Expression>),
}

impl Expression {
    pub const TRUE: Expression = Expression::Truth(true);
    pub const ZERO: Expression = Expression::Number(0);
}

#[derive(Clone, Copy, Debug, PartialEq, Eq)]
pub enum Operator {
    Plus,
    Minus,
    Times,
    Quotient,
    And,
    Less,
    Equal,
}

impl Operator {
    const ALL: [Operator; 7] = [
        Operator::Plus,
        Operator::Minus,
        Operator::Times,
        Operator::Quotient,
        Operator::And,
        Operator::Less,
        Operator::Equal,
    ];

    /// The kind of its record.
    pub fn kind(self) -> u16 {
        37 + self as u16
    }

    pub fn of_kind(kind: u16) -> Option<Operator> {
        Operator::ALL.into_iter().find(|operator| operator.kind() == kind)
    }

    /// How it is written.
    pub fn sign(self) -> &'static str {
        ["+", "-", "*", "/", "&&", "<", "="][self as usize]
    }
}
