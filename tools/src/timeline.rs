//! A run as a picture: a lane for each party, a bar for each window, the readings, and what is ahead or
//! has come. The same run gives the same picture, to the byte.

mod axis;
mod bars;
mod chart;
mod draw;
mod label;
mod layout;
mod page;
mod style;
mod svg;

use crate::source::Source;
use crate::status::{exit, refused, usage, Status};
use crate::story::words::Words;
use crate::story::{text, Event, Story};
use crate::{files, output, readings};
use chart::Chart;
use std::path::Path;
use std::process::ExitCode;

/// What is written.
#[derive(Clone, Copy, PartialEq, Eq)]
pub enum Form {
    Svg,
    /// A page with the picture and the story.
    Html,
}

pub fn command(arguments: &[&str]) -> ExitCode {
    match arguments {
        ["--html", text, readings] => exit(timeline(text, readings, Form::Html)),
        [text, readings] => exit(timeline(text, readings, Form::Svg)),
        _ => usage("agreement timeline [--html] TEXT READINGS"),
    }
}

fn timeline(text: &str, readings: &str, form: Form) -> Result<Status, String> {
    let source = files::source(text)?;
    let drawn = picture(&source, readings, &files::readings(readings, &source)?, form)?;
    output::result(drawn.as_bytes())?;
    Ok(Status::Well)
}

/// The picture of a run, or the page with it; `name` is the file of the readings.
pub fn picture(
    source: &Source,
    name: &str,
    readings: &[(usize, readings::Reading)],
    form: Form,
) -> Result<String, String> {
    let (mut story, start) = Story::start(source).map_err(|refusal| refused(&source.name, refusal))?;
    let mut events = vec![start];
    events.extend(readings.iter().map(|(line, reading)| story.reading(*line, reading)));
    let words = Words::of(source);
    let chart = Chart::new(&words, &title(name), &events, &story.ending());
    let svg = draw::draw(&chart);
    Ok(match form {
        Form::Svg => svg,
        Form::Html => page::page(&chart.title, &svg, &told(&words, &events, &story, name)),
    })
}

/// The readings' name without folder and ending.
fn title(file: &str) -> String {
    if file == "-" {
        return "standard input".to_string();
    }
    let stem = Path::new(file).file_stem().map_or_else(String::new, |stem| stem.to_string_lossy().into_owned());
    stem.replace('_', " ")
}

/// The words of `agreement run`.
fn told(words: &Words, events: &[Event], story: &Story, name: &str) -> String {
    let told: String = events.iter().map(|event| text::event(words, event)).collect();
    format!("{told}\n{}", text::ending(words, &story.ending(), name))
}
