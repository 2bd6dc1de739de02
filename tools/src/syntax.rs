//! The text of an agreement as a tree, names and places kept as written.

use crate::fault::{Fault, Place, Span};
use crate::model::Type;

#[derive(Clone, Debug, PartialEq, Eq)]
pub struct Name {
    pub text: String,
    pub at: Place,
}

impl Name {
    /// How many characters it has.
    pub fn length(&self) -> usize {
        self.text.chars().count()
    }

    /// What is wrong with it.
    pub fn fault(&self, what: impl AsRef<str>) -> Fault {
        Fault::new(self.at, what).of_length(self.length())
    }
}

#[derive(Debug)]
pub struct Agreement {
    pub parties: Vec<Name>,
    pub readings: Vec<Reading>,
    pub templates: Vec<Template>,
    pub main: Clause,
    pub start: u32,
    /// Whether the start was written as a date.
    pub dated: bool,
}

impl Agreement {
    /// The number of the template with this name.
    pub fn template(&self, name: &Name) -> Option<usize> {
        self.templates.iter().position(|template| template.name.text == name.text)
    }
}

#[derive(Debug)]
pub struct Parameter {
    pub name: Name,
    pub value_type: Type,
}

#[derive(Debug)]
pub struct Reading {
    pub name: Name,
    pub values: Vec<Parameter>,
}

#[derive(Debug)]
pub struct Template {
    pub name: Name,
    pub values: Vec<Parameter>,
    pub parameters: Vec<Name>,
    pub declared: Vec<Name>,
    pub units: Option<Units>,
    pub body: Clause,
}

/// The units that a template declares.
#[derive(Debug)]
pub struct Units {
    /// Not below 0, and held at the end of 64 bits: whether it is one that may be declared is not known yet.
    pub number: i64,
    /// Where it is written, and in how many characters.
    pub at: Place,
    pub length: usize,
}

impl Units {
    /// As the record has them. Too many for a byte are too many there as well.
    pub fn byte(&self) -> u8 {
        u8::try_from(self.number).unwrap_or(u8::MAX)
    }

    /// What is wrong with them.
    pub fn fault(&self, what: impl AsRef<str>) -> Fault {
        Fault::new(self.at, what).of_length(self.length)
    }
}

/// A clause and the place of its first word, or of the word that joins its sides.
#[derive(Debug)]
pub struct Clause {
    pub at: Place,
    /// Where it begins.
    pub from: Place,
    pub form: Form,
}

#[derive(Debug)]
pub enum Form {
    Fulfilment,
    Obligation(Name, Box<Wait>),
    Choice(Box<Wait>, Option<Box<Clause>>),
    If(Expression, Box<Clause>, Option<Box<Clause>>),
    And(Box<Clause>, Box<Clause>),
    Or(Box<Clause>, Box<Clause>),
    Instance(Instance),
}

/// What obligations and choices share. What is left out is none; none for `within` is
/// `immediately`.
#[derive(Debug)]
pub struct Wait {
    pub reading: Name,
    pub bound: Vec<Name>,
    pub condition: Option<Expression>,
    pub after: Option<Expression>,
    pub within: Option<Expression>,
    pub remaining: Option<Name>,
    pub then: Option<Box<Clause>>,
}

#[derive(Debug)]
pub struct Instance {
    pub template: Name,
    pub values: Vec<Expression>,
    pub parties: Vec<Name>,
}

/// An expression and the place of its literal, name or operator.
#[derive(Debug)]
pub struct Expression {
    pub at: Place,
    /// All of it, with parentheses around it.
    pub span: Span,
    pub term: Term,
}

#[derive(Debug)]
pub enum Term {
    /// Held at the end of 64 bits: whether it is a number of the language is not known yet.
    Number(i64),
    Truth(bool),
    Name(String),
    Not(Box<Expression>),
    Binary(Operator, Box<Expression>, Box<Expression>),
}

/// The operators of the text: those of CSL, and the sugar that CSL derives from them.
#[derive(Clone, Copy, Debug, PartialEq, Eq)]
pub enum Operator {
    Plain(crate::model::Operator),
    /// e1 || e2 is !(!e1 && !e2).
    Or,
    /// e1 <= e2 is e1 < e2 || e1 = e2.
    AtMost,
    /// e1 > e2 is e2 < e1.
    More,
    /// e1 >= e2 is e2 <= e1.
    AtLeast,
    /// e1 != e2 is !(e1 = e2).
    Unequal,
}

impl Operator {
    /// How it is written.
    pub fn sign(self) -> &'static str {
        match self {
            Operator::Plain(operator) => operator.sign(),
            Operator::Or => "||",
            Operator::AtMost => "<=",
            Operator::More => ">",
            Operator::AtLeast => ">=",
            Operator::Unequal => "!=",
        }
    }
}
