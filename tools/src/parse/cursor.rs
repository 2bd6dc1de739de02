//! A walk along tokens.

use super::hints::hint;
use crate::fault::{Fault, Place, Span};
use crate::limits;
use crate::syntax::Name;
use crate::text::{Placed, Token};

/// How deep clauses and parentheses may stand inside each other. Records nest far less deep; this
/// only keeps the parser's own recursion small.
const NESTING: usize = 200;

/// No agreement has more records than this, each being at least a head.
const RECORDS: usize = limits::BYTES / limits::HEAD;

pub struct Cursor {
    tokens: Vec<Placed>,
    next: usize,
    nesting: usize,
    records: usize,
}

impl Cursor {
    /// The tokens are not empty: the last is the end.
    pub fn new(tokens: Vec<Placed>) -> Cursor {
        Cursor { tokens, next: 0, nesting: 0, records: 0 }
    }

    fn peek(&self, ahead: usize) -> &Placed {
        // The end follows itself.
        &self.tokens[(self.next + ahead).min(self.tokens.len() - 1)]
    }

    pub fn token(&self) -> &Token {
        &self.peek(0).token
    }

    pub fn second(&self) -> &Token {
        self.ahead(1)
    }

    /// The token so many after the next.
    pub fn ahead(&self, count: usize) -> &Token {
        &self.peek(count).token
    }

    /// Whether the next token is the first of its line.
    pub fn begins_line(&self) -> bool {
        self.next == 0 || self.last_span().at.line < self.at().line
    }

    pub fn at(&self) -> Place {
        self.span().at
    }

    /// Where the next token stands.
    pub fn span(&self) -> Span {
        self.peek(0).span
    }

    /// Where the token before it stood.
    pub fn last_span(&self) -> Span {
        self.tokens[self.next.saturating_sub(1).min(self.tokens.len() - 1)].span
    }

    /// Whether the next token stands no further to the right than the first of the text.
    pub fn is_outermost(&self) -> bool {
        self.at().column <= self.tokens[0].span.at.column
    }

    pub fn skip(&mut self) {
        self.next += 1;
    }

    pub fn unexpected(&self, wanted: &str) -> Fault {
        let found = self.token();
        if let Token::Wrong(fault) = found {
            return fault.clone();
        }
        let what = format!("expected {wanted}, found {}{}", found.told(), hint(wanted, found));
        Fault::new(self.at(), what).of_length(found.length())
    }

    /// Takes a sign or reserved word if it is next.
    pub fn take(&mut self, sign: &str) -> bool {
        let found = matches!(self.token(), Token::Sign(next) if *next == sign);
        self.next += usize::from(found);
        found
    }

    pub fn expect(&mut self, sign: &str) -> Result<(), Fault> {
        if self.take(sign) {
            Ok(())
        } else {
            Err(self.unexpected(&format!("`{sign}`")))
        }
    }

    pub fn name(&mut self, wanted: &str) -> Result<Name, Fault> {
        let Token::Name(text) = self.token() else { return Err(self.unexpected(wanted)) };
        let name = Name { text: text.clone(), at: self.at() };
        self.skip();
        Ok(name)
    }

    /// One or more, with commas between.
    pub fn list<T>(&mut self, item: impl Fn(&mut Cursor) -> Result<T, Fault>) -> Result<Vec<T>, Fault> {
        let mut items = vec![item(self)?];
        while self.take(",") {
            items.push(item(self)?);
        }
        Ok(items)
    }

    /// None or more in brackets, with commas between.
    pub fn enclosed<T>(
        &mut self,
        open: &str,
        close: &str,
        item: impl Fn(&mut Cursor) -> Result<T, Fault>,
    ) -> Result<Vec<T>, Fault> {
        self.expect(open)?;
        if self.take(close) {
            return Ok(Vec::new());
        }
        let items = self.list(item)?;
        self.expect(close)?;
        Ok(items)
    }

    /// As many as there are that begin with a name.
    pub fn while_named<T>(&mut self, item: impl Fn(&mut Cursor) -> Result<T, Fault>) -> Result<Vec<T>, Fault> {
        let mut items = Vec::new();
        while matches!(self.token(), Token::Name(_)) {
            items.push(item(self)?);
        }
        Ok(items)
    }

    /// Parties between `<` and `>`, or nothing at all.
    pub fn parties(&mut self) -> Result<Vec<Name>, Fault> {
        if !self.take("<") {
            return Ok(Vec::new());
        }
        let parties = self.list(|cursor| cursor.name("a party's name"))?;
        self.close_angle()?;
        Ok(parties)
    }

    /// Takes `>`. In `f()<p>= c` the tokens are `>=`: its `=` is left.
    pub fn close_angle(&mut self) -> Result<(), Fault> {
        let here = self.next;
        match self.tokens.get_mut(here) {
            Some(Placed { token: token @ Token::Sign(">="), span }) => {
                *token = Token::Sign("=");
                span.at.column += 1;
                // The sign may be written as one character of several bytes.
                span.start = span.end - 1;
                Ok(())
            }
            _ => self.expect(">"),
        }
    }

    /// Goes one level down.
    pub fn nested<T>(&mut self, go: impl FnOnce(&mut Cursor) -> Result<T, Fault>) -> Result<T, Fault> {
        if self.nesting == NESTING {
            return Fault::err(self.at(), format!("over {NESTING} clauses and parentheses inside each other"));
        }
        self.nesting += 1;
        let result = go(self);
        self.nesting -= 1;
        result
    }

    /// Counts a record to be. This bounds the tree, whose depth may be as great as its size.
    pub fn record(&mut self, at: Place) -> Result<(), Fault> {
        self.records += 1;
        if self.records > RECORDS {
            return Err(limits::too_long(at));
        }
        Ok(())
    }
}
