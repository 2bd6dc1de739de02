//! Where reading goes on after a fault of grammar, so that the next one is told too.
//!
//! Only where a line begins with what can hardly be meant otherwise, for else a fault would be told that is none: the
//! word of a later section, the head of a reading or template, or a word between clauses with a clause behind it.

use super::cursor::Cursor;
use super::sections::Section;
use crate::text::Token;

/// What a line begins with.
pub enum Resumed {
    Section(Section),
    /// A reading or a template, of the section that is open.
    Item,
    /// A clause somewhere inside another.
    Clause,
}

impl Cursor {
    /// Goes on to the next such line; the word of a section and a word before a clause are taken.
    pub fn resume(&mut self, open: Option<Section>) -> Option<Resumed> {
        while *self.token() != Token::End {
            let resumed = self.resumed(open).filter(|_| self.begins_line());
            if !matches!(resumed, Some(Resumed::Item)) {
                self.skip();
            }
            if resumed.is_some() {
                return resumed;
            }
        }
        None
    }

    fn resumed(&self, open: Option<Section>) -> Option<Resumed> {
        if let Some(section) = Section::of_word(self.token()) {
            let begins = match section {
                Section::Parties | Section::Start => true,
                Section::Readings => self.reading_at(1),
                Section::Templates => self.template_at(1),
                Section::Main => self.clause_at(1) && !self.reading_at(1),
            };
            return (begins && self.is_outermost() && Some(section) > open).then_some(Resumed::Section(section));
        }
        let joins = matches!(self.token(), Token::Sign("and" | "or" | "then" | "else")) && self.clause_at(1);
        match open? {
            Section::Readings => (self.reading_at(0) && self.ends_reading()).then_some(Resumed::Item),
            Section::Templates if self.template_at(0) => Some(Resumed::Item),
            Section::Templates | Section::Main => joins.then_some(Resumed::Clause),
            Section::Parties | Section::Start => None,
        }
    }

    fn is(&self, ahead: usize, sign: &str) -> bool {
        matches!(self.ahead(ahead), Token::Sign(found) if *found == sign)
    }

    fn is_name(&self, ahead: usize) -> bool {
        matches!(self.ahead(ahead), Token::Name(_))
    }

    /// A clause, and no condition.
    fn clause_at(&self, at: usize) -> bool {
        let owed = self.is(at, "<") && self.is_name(at + 1) && self.is(at + 2, ">");
        owed || self.is(at, "if") || self.is(at, "fulfilment") || self.is_name(at) && self.is(at + 1, "(")
    }

    /// `R()` or `R(value: ..`; the colon may be what is missing.
    fn reading_at(&self, at: usize) -> bool {
        let value = self.is_name(at + 2) && (self.is(at + 3, ":") || self.is_name(at + 3));
        self.is_name(at) && self.is(at + 1, "(") && (self.is(at + 2, ")") || value)
    }

    /// After the reading here comes another, or a section.
    fn ends_reading(&self) -> bool {
        self.after_values(0).is_some_and(|next| self.is_name(next) || self.is(next, "letrec") || self.is(next, "in"))
    }

    /// `t(..)`, perhaps `<..>`, and `=`, `declares` or `sized`.
    fn template_at(&self, at: usize) -> bool {
        let Some(mut next) = self.after_values(at) else { return false };
        if self.is(next, "<") {
            next += 1;
            while self.is(next, ",") || self.is_name(next) {
                next += 1;
            }
            // In `f()<p>= c` the tokens are `>=`.
            if self.is(next, ">=") {
                return true;
            }
            next += usize::from(self.is(next, ">"));
        }
        self.is(next, "=") || self.is(next, "declares") || self.is(next, "sized")
    }

    /// How far ahead the token after `name(..)` is, with no parenthesis inside.
    fn after_values(&self, at: usize) -> Option<usize> {
        if !self.is_name(at) || !self.is(at + 1, "(") {
            return None;
        }
        let close = (at + 2..).find(|next| matches!(self.ahead(*next), Token::Sign("(" | ")") | Token::End))?;
        self.is(close, ")").then_some(close + 1)
    }
}
