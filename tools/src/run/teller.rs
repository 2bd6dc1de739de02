//! Writes a story down, event by event.

use crate::source::Source;
use crate::status::{refused, Status};
use crate::story::words::Words;
use crate::story::{objects, text, Ending, Event};
use crate::{files, output};
use givuntha::Refusal;
use std::io::Write;

#[derive(Clone, Copy, PartialEq, Eq)]
pub enum Form {
    Text,
    /// Text, with what each reading cost.
    Costs,
    /// One JSON object a line.
    Json,
}

/// The agreement of a text. Where it is refused, one JSON object says so too.
pub fn opened(text: &str, form: Form) -> Result<Source, String> {
    files::source(text).map_err(|because| {
        let told = match form {
            Form::Text | Form::Costs => Ok(()),
            Form::Json => output::result(format!("{}\n", objects::refused(None, &because)).as_bytes()),
        };
        told.map_or_else(|lost| format!("{because}\n{lost}"), |()| because.clone())
    })
}

pub struct Teller<'s, W> {
    words: Words<'s>,
    /// The file of the readings, as messages name it.
    readings: &'s str,
    form: Form,
    output: W,
}

impl<'s, W: Write> Teller<'s, W> {
    pub fn new(source: &'s Source, readings: &'s str, form: Form, output: W) -> Teller<'s, W> {
        Teller { words: Words::of(source), readings, form, output }
    }

    pub fn event(&mut self, event: &Event) -> Result<(), String> {
        let told = match self.form {
            Form::Text | Form::Costs => self.in_words(event),
            Form::Json => format!("{}\n", objects::event(&self.words, event)),
        };
        self.write(&told)
    }

    /// What a reading would do, which is not entered.
    pub fn preview(&mut self, event: &Event) -> Result<(), String> {
        let told = match self.form {
            Form::Text | Form::Costs => format!("\nPREVIEW, not entered\n{}", self.in_words(event)),
            Form::Json => format!("{}\n", objects::preview(&self.words, event)),
        };
        self.write(&told)
    }

    fn in_words(&self, event: &Event) -> String {
        let cost = if self.form == Form::Costs { text::cost(event) } else { String::new() };
        text::event(&self.words, event) + &cost
    }

    pub fn ending(&mut self, ending: &Ending) -> Result<Status, String> {
        let told = match self.form {
            Form::Text | Form::Costs => format!("\n{}", text::ending(&self.words, ending, self.readings)),
            Form::Json => format!("{}\n", objects::ending(&self.words, ending)),
        };
        self.write(&told)?;
        Ok(match ending {
            Ending::Running { .. } | Ending::Fulfilled(_) => Status::Well,
            Ending::Breached(..) => Status::Breached,
        })
    }

    /// The agreement was not started.
    pub fn refused(&mut self, refusal: Refusal) -> Result<Status, String> {
        let because = refused(&self.words.source.name, refusal);
        if self.form == Form::Json {
            let told = objects::refused(Some(refusal), &because);
            self.write(&format!("{told}\n"))?;
        }
        Err(because)
    }

    fn write(&mut self, told: &str) -> Result<(), String> {
        self.output.write_all(told.as_bytes()).and_then(|()| self.output.flush()).map_err(output::lost)
    }
}
