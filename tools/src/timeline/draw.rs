//! The picture, from top to bottom: title, mark, dates, readings, lanes, legend.

mod lanes;
mod legend;

use super::axis::{label, labels, Label};
use super::chart::{Chart, Mark, MarkSort, Tick};
use super::layout::{clipped, rows, width, Scale, Span, EDGE, LEFT, RIGHT, WIDTH};
use super::style::STYLE;
use super::svg::{down, escaped, rectangle, text};

/// Heights: of the head, of a row of readings, and between two parts.
const HEAD: i64 = 92;
const READING_ROW: i64 = 15;
const BETWEEN: i64 = 8;
/// More rows of readings than this are not named; their ticks stay.
const READING_ROWS: usize = 16;
/// Longer names of readings are clipped.
const READING_WIDTH: i64 = 231;
/// A name stands so far from its tick, and the first date from the second.
const BESIDE: i64 = 4;
/// The readings' ticks stand in a strip of their own.
const STRIP: i64 = 12;
/// What stands at the left edge begins here.
pub const MARGIN: i64 = 16;
/// No two dates stand nearer than this.
const BETWEEN_DATES: i64 = 20;

/// A part of the picture and the line below it.
pub struct Part {
    pub elements: String,
    pub bottom: i64,
}

pub fn draw(chart: &Chart) -> String {
    let scale = Scale { start: chart.start, end: chart.end };
    let readings = readings(chart, &scale, HEAD);
    let below = readings.bottom + BETWEEN;
    let lanes = lanes::lanes(chart, &scale, below);
    let legend = legend::legend(chart, lanes.bottom + BETWEEN);
    let head = head(chart, legend.bottom + BETWEEN);
    // What comes first lies below: lines below texts.
    let [grid, dates] = axis(chart, &scale, lanes.bottom);
    let lines = [head, grid, mark(chart, &scale, below, lanes.bottom)].concat();
    lines + &dates + &readings.elements + &lanes.elements + &legend.elements + "</svg>\n"
}

fn head(chart: &Chart, height: i64) -> String {
    let told = escaped(&format!("{}: {}", chart.title, chart.verdict));
    let open = format!(
        "<svg xmlns=\"http://www.w3.org/2000/svg\" viewBox=\"0 0 {WIDTH} {height}\" width=\"{WIDTH}\" \
         height=\"{height}\" role=\"img\" aria-label=\"{told}\">\n<style>\n{STYLE}</style>\n"
    );
    let ground = rectangle("ground", 0, 0, WIDTH, height, "");
    let verdict = clipped(&chart.verdict, EDGE - MARGIN);
    open + &ground
        + &text("title", MARGIN, 26, &clipped(&chart.title, EDGE / 2))
        + &text("verdict", MARGIN, 46, &verdict)
}

/// Thin lines down, and the dates above them; the start has a date too if there is room for it.
fn axis(chart: &Chart, scale: &Scale, bottom: i64) -> [String; 2] {
    let most = |wide: i64| usize::try_from((RIGHT - LEFT) / (wide + BETWEEN_DATES)).unwrap_or(1).max(1);
    // With hours a date is longer, so that fewer fit.
    let mut shown = labels(chart.start, chart.end, chart.dated, most(width("2026-01-01")));
    let widest = shown.iter().map(|label| width(&label.text)).max().unwrap_or(0);
    shown = labels(chart.start, chart.end, chart.dated, most(widest));
    let start = label(chart.start, chart.dated);
    if shown.first().is_none_or(|first| LEFT + width(&start.text) + BESIDE <= scale.x(first.time)) {
        shown.insert(0, start);
    }
    let lines = shown.iter().map(|label| down("grid", scale.x(label.time), HEAD - BETWEEN, bottom, "")).collect();
    let fits = |label: &&Label| scale.x(label.time) + width(&label.text) <= WIDTH;
    let dates = shown.iter().filter(fits);
    [lines, dates.map(|label| text("date", scale.x(label.time), HEAD - BETWEEN - 4, &label.text)).collect()]
}

/// The line of the breach, the forecast or the fulfilment, and what it says, above the dates.
fn mark(chart: &Chart, scale: &Scale, below: i64, bottom: i64) -> String {
    let Some(Mark { time, sort, what }) = &chart.mark else { return String::new() };
    let word = match sort {
        MarkSort::Breach => "breach",
        MarkSort::Forecast => "forecast",
        MarkSort::Fulfilled => "fulfilled",
    };
    let (x, y) = (scale.x(*time), HEAD - 30);
    let says = clipped(what, EDGE - LEFT);
    // To the right of the line, or to its left where there is no room.
    let at = if x + 6 + width(&says) <= EDGE { x + 6 } else { (x - 6 - width(&says)).max(MARGIN) };
    let line = |from, to| down(&format!("mark-{word}"), x, from, to, what);
    // The readings' names are not crossed.
    line(y - 8, HEAD + STRIP) + &line(below, bottom) + &text(&format!("says-{word}"), at, y, &says)
}

/// A strip of ticks, and under it the readings' names in as many rows as they need.
fn readings(chart: &Chart, scale: &Scale, top: i64) -> Part {
    let name = |tick: &Tick| clipped(&tick.what, READING_WIDTH);
    let span = |tick: &Tick| Span::beside(scale.x(tick.time), width(&name(tick)) + BESIDE);
    let spans: Vec<Span> = chart.readings.iter().map(span).collect();
    let rows = rows(&spans);
    let shown = rows.iter().max().map_or(0, |row| (row + 1).min(READING_ROWS));
    let mut elements = text("lane", MARGIN, top + STRIP, "readings");
    for ((tick, span), row) in chart.readings.iter().zip(&spans).zip(rows) {
        let (x, [line, letters]) = (scale.x(tick.time), classes(tick));
        elements += &down(line, x, top, top + STRIP, &tick.title);
        let y = top + STRIP + READING_ROW * count(row);
        if row < READING_ROWS {
            let at = if span.from == x { x + BESIDE } else { span.from };
            elements += &down(line, x, y + 4, y + READING_ROW, "");
            elements += &text(letters, at, y + READING_ROW - 2, &name(tick));
        }
    }
    Part { elements, bottom: top + STRIP + READING_ROW * count(shown) }
}

/// The classes of a reading's lines and of its name.
fn classes(tick: &Tick) -> [&'static str; 2] {
    match tick.refused {
        true => ["tick tick-refused", "refused"],
        false => ["tick", "read"],
    }
}

fn count(rows: usize) -> i64 {
    i64::try_from(rows).unwrap_or(0)
}
