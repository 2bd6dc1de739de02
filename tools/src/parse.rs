//! Tokens into the tree of an agreement.

mod clauses;
mod cursor;
mod expressions;
mod hints;
mod resume;
mod sections;

use crate::fault::Fault;
use crate::model::Type;
use crate::syntax::{Agreement, Parameter, Reading, Template, Units};
use crate::text::{tokens, Token};
use cursor::Cursor;
use hints::A_TYPE;
use sections::Sections;

/// Reads the text of an agreement, or tells its first fault of grammar.
pub fn parse(text: &str) -> Result<Agreement, Fault> {
    // There is at least one.
    parse_all(text).map_err(|mut faults| faults.swap_remove(0))
}

/// Reads the text of an agreement, or tells its faults of grammar, in the order of the text: the first, and of the
/// others those that stand clear of it.
pub fn parse_all(text: &str) -> Result<Agreement, Vec<Fault>> {
    let mut cursor = Cursor::new(tokens(text));
    let mut sections = Sections::default();
    let mut faults = Vec::new();
    let mut read = sections.rest(&mut cursor);
    while let Err(fault) = read {
        // A text that is too long is so everywhere behind.
        let ends = fault.refusal.is_some();
        faults.push(fault);
        read = if ends { Ok(()) } else { sections.resumed(&mut cursor) };
    }
    match sections.agreement() {
        Some(agreement) if faults.is_empty() => Ok(agreement),
        _ => Err(faults),
    }
}

fn reading(cursor: &mut Cursor) -> Result<Reading, Fault> {
    let name = cursor.name("a reading's name")?;
    Ok(Reading { name, values: cursor.enclosed("(", ")", parameter)? })
}

fn template(cursor: &mut Cursor) -> Result<Template, Fault> {
    let name = cursor.name("a template's name")?;
    let values = cursor.enclosed("(", ")", parameter)?;
    let parameters = cursor.parties()?;
    let declared = match cursor.take("declares") {
        true => cursor.list(|cursor| cursor.name("a party's name"))?,
        false => Vec::new(),
    };
    let units = match cursor.take("sized") {
        true => Some(units(cursor)?),
        false => None,
    };
    cursor.expect("=")?;
    Ok(Template { name, values, parameters, declared, units, body: cursor.clause()? })
}

fn units(cursor: &mut Cursor) -> Result<Units, Fault> {
    let Token::Number(number) = *cursor.token() else { return Err(cursor.unexpected("a number of units")) };
    let span = cursor.span();
    cursor.skip();
    Ok(Units { number, at: span.at, length: span.end - span.start })
}

fn parameter(cursor: &mut Cursor) -> Result<Parameter, Fault> {
    let name = cursor.name("a value's name")?;
    cursor.expect(":")?;
    let unexpected = cursor.unexpected(A_TYPE);
    let word = cursor.name(A_TYPE)?;
    let value_type = Type::of_word(&word.text).ok_or(unexpected)?;
    Ok(Parameter { name, value_type })
}

/// The start in minutes, and whether it was written as a date.
fn start(cursor: &mut Cursor) -> Result<(u32, bool), Fault> {
    let at = cursor.at();
    match *cursor.token() {
        Token::Number(number) => {
            let Ok(minutes) = u32::try_from(number) else {
                return Fault::err(at, "a start beyond 4,294,967,295 minutes");
            };
            cursor.skip();
            Ok((minutes, false))
        }
        Token::Date(minutes) => {
            cursor.skip();
            Ok((minutes, true))
        }
        _ => Err(cursor.unexpected("a time in minutes or a date")),
    }
}
