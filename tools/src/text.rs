//! Text into tokens, each with its place.

use crate::fault::{Fault, Place, Span};
use crate::{dates, numbers};

#[derive(Clone, Debug, PartialEq, Eq)]
pub enum Token {
    Name(String),
    /// A number, held at the end of 64 bits: the parser knows which range it must lie in.
    Number(i64),
    /// A date, in minutes.
    Date(u32),
    /// A reserved word, or a sign in its ASCII form.
    Sign(&'static str),
    /// Something that is no token, and what is wrong with it.
    Wrong(Fault),
    End,
}

impl Token {
    /// The token as a message names it.
    pub fn told(&self) -> String {
        match self {
            Token::Name(name) => format!("`{name}`"),
            Token::Number(_) => "a number".to_string(),
            Token::Date(_) => "a date".to_string(),
            Token::Sign(sign) => format!("`{sign}`"),
            Token::Wrong(fault) => fault.what.clone(),
            Token::End => "the end of the text".to_string(),
        }
    }

    /// About how many characters it has, for the sign under it.
    pub fn length(&self) -> usize {
        match self {
            Token::Name(name) => name.chars().count(),
            Token::Sign(sign) => sign.len(),
            Token::Wrong(fault) => fault.length,
            Token::Number(_) | Token::Date(_) | Token::End => 1,
        }
    }
}

/// A token and where it stands.
#[derive(Clone, Debug)]
pub struct Placed {
    pub token: Token,
    pub span: Span,
}

/// The reserved words.
pub const WORDS: [&str; 21] = [
    "parties",
    "readings",
    "letrec",
    "in",
    "starting",
    "declares",
    "sized",
    "fulfilment",
    "if",
    "then",
    "else",
    "and",
    "or",
    "where",
    "due",
    "immediately",
    "after",
    "within",
    "remaining",
    "true",
    "false",
];

/// What is written, and the sign that it is; a longer one before its beginning.
const SIGNS: [(&str, &str); 25] = [
    ("<=", "<="),
    (">=", ">="),
    ("!=", "!="),
    ("&&", "&&"),
    ("||", "||"),
    ("\u{ac}", "!"),
    ("\u{2227}", "&&"),
    ("\u{2228}", "||"),
    ("\u{2264}", "<="),
    ("\u{2265}", ">="),
    ("\u{2260}", "!="),
    ("\u{27e8}", "<"),
    ("\u{27e9}", ">"),
    ("<", "<"),
    (">", ">"),
    ("=", "="),
    ("!", "!"),
    ("+", "+"),
    ("-", "-"),
    ("*", "*"),
    ("/", "/"),
    ("(", "("),
    (")", ")"),
    (",", ","),
    (":", ":"),
];

/// All tokens of a text; the last is the end.
pub fn tokens(text: &str) -> Vec<Placed> {
    let mut lexer = Lexer { rest: text, at: Place::START };
    let mut tokens = Vec::new();
    loop {
        lexer.skip();
        let (at, start) = (lexer.at, text.len() - lexer.rest.len());
        let token = lexer.token().unwrap_or_else(Token::Wrong);
        let ended = token == Token::End;
        tokens.push(Placed { token, span: Span { at, start, end: text.len() - lexer.rest.len() } });
        if ended {
            return tokens;
        }
    }
}

/// A letter or `_` begins a name; digits may follow.
fn begins_name(c: char) -> bool {
    c.is_alphabetic() || c == '_'
}

fn continues_name(c: char) -> bool {
    c.is_alphanumeric() || c == '_'
}

struct Lexer<'a> {
    rest: &'a str,
    at: Place,
}

impl<'a> Lexer<'a> {
    /// Takes so many bytes, which end between two characters.
    fn take(&mut self, bytes: usize) -> &'a str {
        let (taken, rest) = self.rest.split_at(bytes);
        self.rest = rest;
        self.at = taken.chars().fold(self.at, Place::after);
        taken
    }

    fn take_while(&mut self, wanted: impl Fn(char) -> bool) -> &'a str {
        self.take(self.rest.find(|c| !wanted(c)).unwrap_or(self.rest.len()))
    }

    /// Blanks and comments.
    fn skip(&mut self) {
        loop {
            self.take_while(char::is_whitespace);
            if !self.rest.starts_with("--") {
                return;
            }
            self.take_while(|c| c != '\n');
        }
    }

    fn token(&mut self) -> Result<Token, Fault> {
        match self.rest.chars().next() {
            None => Ok(Token::End),
            Some(c) if begins_name(c) => Ok(self.name()),
            Some(c) if c.is_ascii_digit() => self.number(),
            Some(c) => self.sign(c),
        }
    }

    fn name(&mut self) -> Token {
        let name = self.take_while(continues_name);
        match WORDS.iter().find(|word| **word == name) {
            Some(word) => Token::Sign(word),
            None => Token::Name(name.to_string()),
        }
    }

    fn number(&mut self) -> Result<Token, Fault> {
        let at = self.at;
        if let Some((length, what)) = dates::slip(self.rest) {
            self.take(length);
            return Err(Fault::new(at, what).of_length(length));
        }
        if let Some(length) = dates::shape(self.rest) {
            let date = self.take(length);
            let minutes = dates::minutes(date);
            return minutes.map(Token::Date).ok_or_else(|| Fault::new(at, dates::no_date(date)).of_length(length));
        }
        let word = self.take_while(continues_name);
        let fault = |what| Fault::new(at, what).of_length(word.chars().count());
        numbers::number(word).map(Token::Number).map_err(fault)
    }

    fn sign(&mut self, c: char) -> Result<Token, Fault> {
        let Some((written, sign)) = SIGNS.iter().find(|(written, _)| self.rest.starts_with(written)) else {
            let at = self.at;
            self.take(c.len_utf8());
            return Fault::err(at, format!("`{c}` stands for nothing here"));
        };
        self.take(written.len());
        Ok(Token::Sign(sign))
    }
}
