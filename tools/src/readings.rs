//! Lines of text into a stream of reading records.
//!
//! A line is `TIME TYPE VALUE..`. One that begins with `!` is meant to be refused by the monitor:
//! it is written as it stands as long as a record can hold it.

use crate::dates;
use crate::fault::{utf8, Fault, Place};
use crate::limits;
use crate::model::{Agreement, Type, Value};
use crate::near::did_you_mean;
use crate::numbers::number;

/// The records of all lines. With an agreement, names may be used and values are checked.
pub fn readings(text: &[u8], agreement: Option<&Agreement>) -> Result<Vec<u8>, Fault> {
    let readings = numbered(text, agreement)?;
    Ok(readings.iter().flat_map(|(_, reading)| reading.record()).collect())
}

/// The readings of all lines, each with the number of its line.
pub fn numbered(text: &[u8], agreement: Option<&Agreement>) -> Result<Vec<(usize, Reading)>, Fault> {
    let mut readings = Vec::new();
    for (line, content) in (1..).zip(utf8(text)?.lines()) {
        readings.extend(reading(line, content, agreement)?.map(|reading| (line, reading)));
    }
    Ok(readings)
}

/// The reading of one line, if there is any.
pub fn reading(line: usize, content: &str, agreement: Option<&Agreement>) -> Result<Option<Reading>, Fault> {
    Line::new(line, content, agreement).reading()
}

/// A reading as its record has it.
#[derive(Clone, Debug, PartialEq, Eq)]
pub struct Reading {
    pub time: u32,
    /// The type: 0 is a time mark, the agreement's readings count from 1.
    pub kind: u8,
    pub values: Vec<i32>,
}

impl Reading {
    /// Kind 64: time, type, values.
    pub fn record(&self) -> Vec<u8> {
        let length = limits::byte(limits::HEAD + 5 + 4 * self.values.len());
        let mut bytes = vec![length, 0, 64, 0];
        bytes.extend(self.time.to_le_bytes());
        bytes.push(self.kind);
        bytes.extend(self.values.iter().flat_map(|value| value.to_le_bytes()));
        bytes
    }
}

#[derive(Clone, Copy)]
struct Word<'l> {
    text: &'l str,
    at: Place,
}

/// A value and how it was written.
struct Written<'l> {
    word: Word<'l>,
    value: i32,
    form: Type,
}

struct Line<'l> {
    words: Vec<Word<'l>>,
    /// The place after the last word.
    end: Place,
    /// Set unless the line is meant to be refused.
    checked: bool,
    agreement: Option<&'l Agreement>,
}

impl<'l> Line<'l> {
    fn new(line: usize, content: &'l str, agreement: Option<&'l Agreement>) -> Line<'l> {
        let content = content.split("--").next().unwrap_or("").trim_end();
        let place = |rest: &str| {
            let before = &content[..content.len() - rest.len()];
            Place { line, column: 1 + before.chars().count() }
        };
        let mut rest = content.trim_start();
        let checked = !rest.starts_with('!');
        rest = rest.strip_prefix('!').unwrap_or(rest).trim_start();
        let mut words = Vec::new();
        while !rest.is_empty() {
            let (text, after) = rest.split_at(rest.find(char::is_whitespace).unwrap_or(rest.len()));
            words.push(Word { text, at: place(rest) });
            rest = after.trim_start();
        }
        Line { words, end: place(""), checked, agreement }
    }

    /// The reading of the line, if there is any.
    fn reading(&self) -> Result<Option<Reading>, Fault> {
        let (time, kind, values) = match self.words.as_slice() {
            [] if self.checked => return Ok(None),
            [] | [_] => return Fault::err(self.end, "a reading is a time, a type and values"),
            [time, kind, values @ ..] => (time, kind, values),
        };
        if let Some(fifth) = values.get(limits::READING_VALUES) {
            return Fault::err(fifth.at, "a fifth value: a reading record holds at most 4");
        }
        let time = minutes(time, kind)?;
        let (name, kind) = (kind, self.kind(kind)?);
        let values = values.iter().map(|word| self.value(*word)).collect::<Result<Vec<_>, _>>()?;
        if self.checked {
            self.check(name, kind, &values)?;
        }
        Ok(Some(Reading { time, kind, values: values.iter().map(|written| written.value).collect() }))
    }

    fn kind(&self, word: &Word) -> Result<u8, Fault> {
        if word.text == "mark" {
            return Ok(0);
        }
        if is_number(word.text) {
            let number = number(word.text).map_err(|what| Fault::new(word.at, what))?;
            return u8::try_from(number).map_err(|_| Fault::new(word.at, "a type over 255 does not fit in its byte"));
        }
        let Some(agreement) = self.agreement else { return Err(no_names(word)) };
        let known = agreement.readings.iter().position(|reading| reading.name == word.text);
        let names = || agreement.readings.iter().map(|reading| reading.name.as_str()).chain(["mark"]);
        Ok(limits::byte(1 + known.ok_or_else(|| unknown("reading", word, names()))?))
    }

    fn value(&self, word: Word<'l>) -> Result<Written<'l>, Fault> {
        let digits = word.text.strip_prefix('-').unwrap_or(word.text);
        let (form, value) = match word.text {
            "true" => (Type::Truth, 1),
            "false" => (Type::Truth, 0),
            _ if is_number(digits) => {
                let number = number(digits).map_err(|what| Fault::new(word.at, what))?;
                (Type::Number, if digits.len() < word.text.len() { -number } else { number })
            }
            _ => (Type::Party, self.party(&word)?),
        };
        match i32::try_from(value) {
            Ok(value) => Ok(Written { word, value, form }),
            Err(_) => Fault::err(word.at, format!("`{}` does not fit in 32 bits", word.text)),
        }
    }

    fn party(&self, word: &Word) -> Result<i64, Fault> {
        let Some(agreement) = self.agreement else { return Err(no_names(word)) };
        let known = agreement.parties.iter().position(|party| party == word.text);
        let names = || agreement.parties.iter().map(String::as_str);
        Ok(i64::from(limits::byte(known.ok_or_else(|| unknown("party", word, names()))?)))
    }

    /// What the agreement says of the reading: refusal 9 of the paper.
    fn check(&self, name: &Word, kind: u8, values: &[Written]) -> Result<(), Fault> {
        let Some(agreement) = self.agreement else { return Ok(()) };
        let types = match kind {
            0 => &[],
            _ => match agreement.readings.get(usize::from(kind) - 1) {
                Some(reading) => reading.values.as_slice(),
                None => return Fault::err(name.at, format!("type {kind} is none of the agreement's readings")),
            },
        };
        if types.len() != values.len() {
            let what = format!("`{}` has {} values, {} given here", name.text, types.len(), values.len());
            return Fault::err(name.at, what);
        }
        types.iter().zip(values).try_for_each(|(wanted, written)| fits(wanted, written, agreement.parties.len()))
    }
}

fn fits(wanted: &Value, written: &Written, parties: usize) -> Result<(), Fault> {
    let value = i64::from(written.value);
    let number = written.form == Type::Number;
    let right = match wanted.value_type {
        Type::Number => number && limits::is_number(value),
        Type::Truth => written.form == Type::Truth || number && (0..=1).contains(&value),
        Type::Party => written.form == Type::Party || number && usize::try_from(value).is_ok_and(|n| n < parties),
    };
    let range = match wanted.value_type {
        Type::Number => "a number from -1,000,000,000 to 1,000,000,000",
        Type::Truth => "true or false",
        Type::Party => "a party",
    };
    if right {
        return Ok(());
    }
    Fault::err(written.word.at, format!("`{}` is {range}, and `{}` is none", wanted.name, written.word.text))
}

/// A time in minutes or as a date; the word after it may be its time of day, put apart.
fn minutes(word: &Word, next: &Word) -> Result<u32, Fault> {
    if let Some((length, what)) = dates::slip(&format!("{} {}", word.text, next.text)) {
        return Err(Fault::new(word.at, what).of_length(length));
    }
    if dates::shape(word.text) == Some(word.text.len()) {
        return dates::minutes(word.text).ok_or_else(|| Fault::new(word.at, dates::no_date(word.text)));
    }
    if !is_number(word.text) || word.text.contains(['-', ':', '/', '.']) {
        return Fault::err(word.at, format!("`{}` is no time: {} are", word.text, dates::WANTED));
    }
    let number = number(word.text).map_err(|what| Fault::new(word.at, what))?;
    u32::try_from(number).map_err(|_| Fault::new(word.at, "a time beyond 4,294,967,295 minutes"))
}

fn is_number(word: &str) -> bool {
    word.starts_with(|c: char| c.is_ascii_digit())
}

fn unknown<'k>(what: &str, word: &Word, known: impl IntoIterator<Item = &'k str>) -> Fault {
    Fault::new(word.at, format!("unknown {what} `{}`{}", word.text, did_you_mean(word.text, known)))
}

fn no_names(word: &Word) -> Fault {
    Fault::new(word.at, format!("`{}` is no number, and names need the agreement's text (--for)", word.text))
}
