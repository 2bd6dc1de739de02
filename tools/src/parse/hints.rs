//! What was perhaps meant where the grammar wants something else.

use crate::near::did_you_mean;
use crate::text::{Token, WORDS};

/// What the grammar wants where a value's type stands.
pub const A_TYPE: &str = "`number`, `truth` or `party`";

/// A hint for a message about a token that is not wanted; empty where there is none.
pub fn hint(wanted: &str, found: &Token) -> String {
    match found {
        Token::Sign(sign) => sign_hint(wanted, sign).map(|hint| format!(": {hint}")).unwrap_or_default(),
        Token::Name(name) if wanted == A_TYPE => did_you_mean(type_word(name), ["number", "truth", "party"]),
        Token::Name(name) => did_you_mean(name, WORDS),
        Token::Number(_) | Token::Date(_) | Token::Wrong(_) | Token::End => String::new(),
    }
}

fn sign_hint(wanted: &str, sign: &str) -> Option<&'static str> {
    // An expression has just ended, so that an operator could go on with it.
    let ended = matches!(wanted, "`due`" | "`then`" | "`)`");
    let hint = match (sign, wanted) {
        ("and", _) if ended => "`and` joins clauses, `&&` joins truths",
        ("or", _) if ended => "`or` joins clauses, `||` joins truths",
        ("&&", _) => "`&&` joins truths, `and` joins clauses",
        ("||", _) => "`||` joins truths, `or` joins clauses",
        ("else", _) => "only an `if` has an `else`; an obligation that is not met in time is its party's breach",
        ("=", "an expression") => "one `=` compares",
        ("-", "an expression") => "a minus sign may stand before a number only; `0 - n` is the negative of `n`",
        ("-", "the end of the text") => "a date has two digits for month and day, as in 2011-01-01",
        _ => return None,
    };
    Some(hint)
}

/// Other languages' words for the types.
fn type_word(name: &str) -> &str {
    match name {
        "bool" | "boolean" | "Bool" | "Boolean" => "truth",
        "int" | "integer" | "Int" | "Integer" => "number",
        _ => name,
    }
}
