//! The records of an accepted agreement, by place, and the exchange of one for another.

use crate::agreement::{self, Head};

/// A record's place in an agreement.
#[derive(Clone, Copy, Debug)]
pub struct Span {
    pub start: usize,
    pub end: usize,
    pub kind: u16,
    pub depth: usize,
}

impl Span {
    pub fn is_clause(&self) -> bool {
        (16..=22).contains(&self.kind)
    }

    /// Of kind 3 or 4.
    pub fn is_template(&self) -> bool {
        self.kind == 3 || self.kind == 4
    }

    pub fn is_expression(&self) -> bool {
        (32..=43).contains(&self.kind)
    }
}

/// All records of an agreement that can be parsed, outer ones first.
pub fn spans(bytes: &[u8]) -> Vec<Span> {
    let agreement = agreement::parse(bytes).expect("an agreement that can be parsed");
    let heads: Vec<&Head> = agreement.templates.iter().map(|template| &template.head).collect();
    let mut spans = Vec::new();
    walk(bytes, 0, 1, &heads, &mut spans);
    spans
}

fn walk(bytes: &[u8], start: usize, depth: usize, heads: &[&Head], spans: &mut Vec<Span>) {
    let (length, kind) = (word(bytes, start), word(bytes, start + 2));
    let end = start + usize::from(length);
    spans.push(Span { start, end, kind, depth });
    let (before, after) = fields(bytes, start, kind, heads);
    let mut at = start + 4 + before;
    while at < end - after {
        walk(bytes, at, depth + 1, heads, spans);
        at += usize::from(word(bytes, at));
    }
}

/// How many single bytes stand before and after the records in a body.
fn fields(bytes: &[u8], start: usize, kind: u16, heads: &[&Head]) -> (usize, usize) {
    let body = start + 4;
    match kind {
        1 => (7, 0),
        3 => (1 + usize::from(bytes[body]) + 3, 0),
        4 => (1 + usize::from(bytes[body]) + 4, 0),
        17 => (2, 0),
        18 => (1, 0),
        22 => (1, usize::from(heads[usize::from(bytes[body])].parameters)),
        19..=21 | 36..=43 => (0, 0),
        _ => (usize::from(word(bytes, start)) - 4, 0),
    }
}

pub fn word(bytes: &[u8], at: usize) -> u16 {
    u16::from_le_bytes([bytes[at], bytes[at + 1]])
}

/// The agreement with one record exchanged for other bytes, all lengths around it put right.
pub fn exchange(bytes: &[u8], spans: &[Span], old: Span, new: &[u8]) -> Vec<u8> {
    let mut changed = bytes.to_vec();
    for outer in spans.iter().filter(|span| span.start < old.start && old.end <= span.end) {
        let length = (outer.end - outer.start) - (old.end - old.start) + new.len();
        changed[outer.start..outer.start + 2].copy_from_slice(&(length as u16).to_le_bytes());
    }
    changed.splice(old.start..old.end, new.iter().copied());
    changed
}
