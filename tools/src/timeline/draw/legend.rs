//! What the bars mean, for the fates that the picture has.

use super::lanes::{cross, diamond, met, shape};
use super::{Part, MARGIN};
use crate::timeline::bars::Fate;
use crate::timeline::chart::Chart;
use crate::timeline::layout::{width, EDGE};
use crate::timeline::svg::text;

const HEIGHT: i64 = 22;
const SAMPLE: i64 = 28;
const BETWEEN: i64 = 24;

pub fn legend(chart: &Chart, top: i64) -> Part {
    let mut sorts: Vec<(usize, &str, Fate)> = Vec::new();
    for bar in chart.lanes.iter().flat_map(|lane| &lane.bars) {
        let (order, word) = word(bar.fate);
        if sorts.iter().all(|(other, ..)| *other != order) {
            sorts.push((order, word, bar.fate));
        }
    }
    sorts.sort_by_key(|(order, ..)| *order);
    let (mut x, mut y) = (MARGIN, top);
    let mut elements = String::new();
    for (_, word, fate) in sorts {
        let wide = SAMPLE + 8 + width(word);
        if x + wide > EDGE {
            (x, y) = (MARGIN, y + HEIGHT);
        }
        elements += &sample(fate, x, y + 6);
        elements += &text("date", x + SAMPLE + 8, y + 14, word);
        x += wide + BETWEEN;
    }
    Part { elements, bottom: y + HEIGHT }
}

fn sample(fate: Fate, x: i64, y: i64) -> String {
    let bar = shape(fate, x, y, SAMPLE, "");
    match fate {
        Fate::Met(_) => bar + &met(x, x + SAMPLE / 2, y, ""),
        Fate::Lapsed => bar + &diamond(x + SAMPLE - 4, y),
        Fate::Broken | Fate::Ahead => bar + &cross(x + SAMPLE - 4, y),
        _ => bar,
    }
}

fn word(fate: Fate) -> (usize, &'static str) {
    match fate {
        Fate::Met(_) => (0, "came in time"),
        Fate::Waiting => (1, "waits"),
        Fate::Lapsed => (2, "did not come"),
        Fate::Dropped(_) => (3, "not waited for any more"),
        Fate::Ahead => (4, "broken if only time goes on"),
        Fate::Broken => (5, "broken"),
    }
}
