//! The lanes: for each window a name and, under it, a bar from its first to its last minute.

use super::{Part, MARGIN};
use crate::timeline::bars::{Bar, Fate};
use crate::timeline::chart::{Chart, Lane};
use crate::timeline::layout::{clipped, rows, width, Scale, Span, EDGE, LEFT, RIGHT};
use crate::timeline::svg::{across, element, rectangle, text};

/// The height of a row, of what is above its bar, and of the bar.
const ROW: i64 = 28;
const ABOVE: i64 = 14;
pub const BAR: i64 = 8;
/// A lane without windows is so high.
const EMPTY: i64 = 20;
const BETWEEN: i64 = 6;
/// A bar is at least so wide.
const LEAST: i64 = 3;
/// Longer names of windows are clipped.
const NAME: i64 = 259;

pub fn lanes(chart: &Chart, scale: &Scale, top: i64) -> Part {
    let mut elements = String::new();
    let mut bottom = top;
    for lane in &chart.lanes {
        let placed = place(lane, scale);
        elements += &across("edge", MARGIN, EDGE, bottom);
        elements += &text("lane", MARGIN, bottom + 15, &clipped(&lane.name, LEFT - 24));
        for (bar, place) in lane.bars.iter().zip(&placed) {
            elements += &window(bar, place, scale, bottom + 4);
        }
        bottom += height(&placed) + BETWEEN;
    }
    Part { elements, bottom }
}

/// Where a window stands in its lane.
struct Place {
    row: i64,
    name: String,
    /// The column of the name.
    name_at: i64,
    bar: Span,
}

fn place(lane: &Lane, scale: &Scale) -> Vec<Place> {
    let extent = |bar: &Bar| {
        let (from, to) = (scale.x(bar.first), scale.x(bar.last.max(bar.first)));
        Span { from: from.min(RIGHT - LEAST), to: to.max(from + LEAST).min(RIGHT) }
    };
    let names: Vec<String> = lane.bars.iter().map(|bar| clipped(&bar.what, NAME)).collect();
    let bars: Vec<Span> = lane.bars.iter().map(extent).collect();
    let texts: Vec<Span> = bars.iter().zip(&names).map(|(bar, name)| Span::starting(bar.from, width(name))).collect();
    let whole: Vec<Span> = bars.iter().zip(&texts).map(|(bar, text)| bar.with(*text)).collect();
    let numbered = rows(&whole).into_iter().map(|row| i64::try_from(row).unwrap_or(0));
    let places = numbered.zip(names).zip(texts).zip(bars);
    places.map(|(((row, name), text), bar)| Place { row, name, name_at: text.from, bar }).collect()
}

fn height(placed: &[Place]) -> i64 {
    placed.iter().map(|place| (place.row + 1) * ROW).max().unwrap_or(EMPTY)
}

fn window(bar: &Bar, place: &Place, scale: &Scale, top: i64) -> String {
    let y = top + place.row * ROW;
    let (name, wide) = (text("duty", place.name_at, y + ABOVE - 4, &place.name), place.bar.to - place.bar.from);
    let (shape, moment) =
        (shape(bar.fate, place.bar.from, y + ABOVE, wide, &bar.title), moment(bar, place, scale, y + ABOVE));
    name + &shape + &moment + &beyond(bar, scale, y + ABOVE)
}

/// An arrow where the window goes on beyond the picture.
fn beyond(bar: &Bar, scale: &Scale, y: i64) -> String {
    if bar.last <= scale.end {
        return String::new();
    }
    let (x, tip, middle, bottom) = (RIGHT + 2, RIGHT + 8, y + BAR / 2, y + BAR);
    element("path", &[("class", &"beyond"), ("d", &format!("M{x} {y}L{tip} {middle}L{x} {bottom}"))], "")
}

/// The bar of a fate; a window in which nothing came is thin.
pub fn shape(fate: Fate, x: i64, y: i64, wide: i64, title: &str) -> String {
    match fate {
        Fate::Met(_) => rectangle("rest", x, y + BAR / 2 - 1, wide, 3, title),
        Fate::Broken => rectangle("broken", x, y, wide, BAR, title),
        Fate::Ahead => rectangle("ahead", x, y, wide, BAR, title),
        Fate::Waiting => rectangle("waiting", x, y, wide, BAR, title),
        Fate::Lapsed => rectangle("lapsed", x, y + BAR / 2 - 1, wide, 3, title),
        Fate::Dropped(_) => rectangle("dropped", x, y, wide, BAR, title),
    }
}

/// A bar to the ring where the reading came, a diamond where nothing came, a cross at the end of what
/// was or would be broken.
fn moment(bar: &Bar, place: &Place, scale: &Scale, y: i64) -> String {
    match bar.fate {
        Fate::Met(time) => met(place.bar.from, scale.x(time), y, &bar.title),
        Fate::Lapsed => diamond(place.bar.to, y),
        Fate::Broken | Fate::Ahead => cross(place.bar.to, y),
        Fate::Dropped(_) | Fate::Waiting => String::new(),
    }
}

pub fn met(from: i64, to: i64, y: i64, title: &str) -> String {
    rectangle("met", from, y, to - from, BAR, title) + &ring(to, y)
}

pub fn diamond(x: i64, y: i64) -> String {
    let (left, right, top, middle, bottom) = (x - 4, x + 4, y, y + BAR / 2, y + BAR);
    let path = format!("M{left} {middle}L{x} {top}L{right} {middle}L{x} {bottom}Z");
    element("path", &[("class", &"never"), ("d", &path)], "")
}

fn ring(x: i64, y: i64) -> String {
    element("circle", &[("class", &"moment"), ("cx", &x), ("cy", &(y + BAR / 2)), ("r", &4)], "")
}

pub fn cross(x: i64, y: i64) -> String {
    let (left, right, top, bottom) = (x - 5, x + 5, y - 1, y + BAR + 1);
    let path = format!("M{left} {top}L{right} {bottom}M{left} {bottom}L{right} {top}");
    element("path", &[("class", &"cross"), ("d", &path)], "")
}
