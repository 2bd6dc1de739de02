//! The sections of a text, one after another.

use super::cursor::Cursor;
use super::resume::Resumed;
use super::{reading, start, template};
use crate::fault::Fault;
use crate::syntax::{Agreement, Clause, Name, Reading, Template};
use crate::text::Token;

/// In the order of the text.
#[derive(Clone, Copy, Debug, PartialEq, Eq, PartialOrd, Ord)]
pub enum Section {
    Parties,
    Readings,
    Templates,
    Main,
    Start,
}

impl Section {
    const ALL: [Section; 5] = [Section::Parties, Section::Readings, Section::Templates, Section::Main, Section::Start];

    /// The word that it begins with.
    fn word(self) -> &'static str {
        match self {
            Section::Parties => "parties",
            Section::Readings => "readings",
            Section::Templates => "letrec",
            Section::Main => "in",
            Section::Start => "starting",
        }
    }

    pub fn of_word(token: &Token) -> Option<Section> {
        Section::ALL.into_iter().find(|section| *token == Token::Sign(section.word()))
    }
}

/// What was read so far.
#[derive(Default)]
pub struct Sections {
    /// The section whose word was taken last.
    open: Option<Section>,
    parties: Vec<Name>,
    readings: Vec<Reading>,
    templates: Vec<Template>,
    main: Option<Clause>,
    /// In minutes, and whether it was written as a date.
    start: Option<(u32, bool)>,
}

impl Sections {
    /// Reads from here to the end of the text, or to a fault.
    pub fn rest(&mut self, cursor: &mut Cursor) -> Result<(), Fault> {
        loop {
            self.contents(cursor)?;
            let next = match self.open {
                None => Section::Parties,
                Some(Section::Parties) => Section::Readings,
                Some(Section::Readings) if Section::of_word(cursor.token()) == Some(Section::Templates) => {
                    Section::Templates
                }
                Some(Section::Readings | Section::Templates) => Section::Main,
                Some(Section::Main) => Section::Start,
                Some(Section::Start) => return Ok(()),
            };
            cursor.expect(next.word())?;
            self.open = Some(next);
        }
    }

    /// Reads on after a fault, to the end of the text or to the next fault.
    pub fn resumed(&mut self, cursor: &mut Cursor) -> Result<(), Fault> {
        loop {
            match cursor.resume(self.open) {
                None => return Ok(()),
                Some(Resumed::Section(section)) => {
                    self.open = Some(section);
                    return self.rest(cursor);
                }
                Some(Resumed::Item) => return self.rest(cursor),
                // What may stand behind it depends on what was not understood.
                Some(Resumed::Clause) => drop(cursor.clause()?),
            }
        }
    }

    /// What stands after the word of the open section.
    fn contents(&mut self, cursor: &mut Cursor) -> Result<(), Fault> {
        match self.open {
            None => {}
            Some(Section::Parties) => self.parties = cursor.list(|cursor| cursor.name("a party's name"))?,
            Some(Section::Readings) => self.readings.extend(cursor.while_named(reading)?),
            Some(Section::Templates) => self.templates.extend(cursor.while_named(template)?),
            Some(Section::Main) => self.main = Some(cursor.clause()?),
            Some(Section::Start) => {
                self.start = Some(start(cursor)?);
                if *cursor.token() != Token::End {
                    return Err(cursor.unexpected("the end of the text"));
                }
            }
        }
        Ok(())
    }

    /// The whole agreement, if all of it was read.
    pub fn agreement(self) -> Option<Agreement> {
        let Sections { parties, readings, templates, .. } = self;
        let (main, (start, dated)) = (self.main?, self.start?);
        Some(Agreement { parties, readings, templates, main, start, dated })
    }
}
