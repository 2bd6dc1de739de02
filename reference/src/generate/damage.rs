//! Damaged agreements. Each is made from an accepted one, or from one whose needs are too big, and aims at something
//! that check looks for; a few happen to stay acceptable.

use super::random::Random;
use super::records::{exchange, spans, word, Span};
use super::sized::Templates;
use crate::agreement::{Operator, MOST_UNITS};
use crate::build;
use crate::check::FIRST_PARAMETER;

/// What a damage aims at.
#[derive(Clone, Copy, Debug, PartialEq, Eq, PartialOrd, Ord)]
pub enum Damage {
    Short,
    Long,
    Full,
    CutShort,
    CutAndMeasured,
    Appended,
    AppendedAndMeasured,
    Bytes,
    ByteRemoved,
    ByteInserted,
    RecordLength,
    Kind,
    Counts,
    HeadByte,
    Exchanged,
    TooDeep,
    NoTemplate,
    WrongType,
    Literal,
    Name,
    ReadingType,
    Blame,
    Declared,
    Sight,
    OrOfSeveral,
    OrOfParameters,
    SelfNaming,
    SelfNamingElse,
    Wide,
    WideThen,
    MixedKinds,
    UnitsAboveMost,
    UnitsTooFew,
    NeedsMore,
}

impl Damage {
    pub const ALL: [Damage; 34] = [
        Damage::Short,
        Damage::Long,
        Damage::Full,
        Damage::CutShort,
        Damage::CutAndMeasured,
        Damage::Appended,
        Damage::AppendedAndMeasured,
        Damage::Bytes,
        Damage::ByteRemoved,
        Damage::ByteInserted,
        Damage::RecordLength,
        Damage::Kind,
        Damage::Counts,
        Damage::HeadByte,
        Damage::Exchanged,
        Damage::TooDeep,
        Damage::NoTemplate,
        Damage::WrongType,
        Damage::Literal,
        Damage::Name,
        Damage::ReadingType,
        Damage::Blame,
        Damage::Declared,
        Damage::Sight,
        Damage::OrOfSeveral,
        Damage::OrOfParameters,
        Damage::SelfNaming,
        Damage::SelfNamingElse,
        Damage::Wide,
        Damage::WideThen,
        Damage::MixedKinds,
        Damage::UnitsAboveMost,
        Damage::UnitsTooFew,
        Damage::NeedsMore,
    ];

    /// Those of the kinds of templates, of their units and of needs.
    pub const OF_SIZES: [Damage; 4] =
        [Damage::MixedKinds, Damage::UnitsAboveMost, Damage::UnitsTooFew, Damage::NeedsMore];

    /// The agreement, whose records can be parsed, with this damage, if it has a place for it.
    pub fn of(self, random: &mut Random, agreement: &[u8]) -> Option<Vec<u8>> {
        let mut patient = Patient { random, bytes: agreement.to_vec(), spans: spans(agreement) };
        patient.damage(self)
    }
}

/// An agreement in the making of its damage.
struct Patient<'r> {
    random: &'r mut Random,
    bytes: Vec<u8>,
    spans: Vec<Span>,
}

impl Patient<'_> {
    fn damage(&mut self, damage: Damage) -> Option<Vec<u8>> {
        match damage {
            Damage::Short => Some(self.bytes[..self.random.below(4)].to_vec()),
            Damage::Long => self.lengthened(16_385, true),
            Damage::Full => self.full(),
            Damage::CutShort => Some(self.cut(false)),
            Damage::CutAndMeasured => Some(self.cut(true)),
            Damage::Appended => self.lengthened(0, false),
            Damage::AppendedAndMeasured => self.lengthened(0, true),
            Damage::Bytes => Some(self.flipped()),
            Damage::ByteRemoved => Some(self.removed()),
            Damage::ByteInserted => Some(self.inserted()),
            Damage::RecordLength => Some(self.record_length()),
            Damage::Kind => Some(self.record_kind()),
            Damage::Counts => Some(self.counts()),
            Damage::HeadByte => self.head_byte(),
            Damage::Exchanged => self.exchanged(),
            Damage::TooDeep => self.too_deep(),
            Damage::NoTemplate => self.no_template(),
            Damage::MixedKinds => self.mixed_kinds(),
            Damage::UnitsAboveMost => self.units(|random, _| Some(random.pick(&[MOST_UNITS + 1, 200, 255]))),
            _ => self.ill_formed(damage),
        }
    }

    /// Damages that leave the records well formed.
    fn ill_formed(&mut self, damage: Damage) -> Option<Vec<u8>> {
        match damage {
            Damage::WrongType => self.wrong_type(),
            Damage::Literal => self.literal(),
            Damage::Name => self.expression(&build::value(16)),
            Damage::ReadingType => self.reading_type(),
            Damage::Blame => self.blame(),
            Damage::Declared => self.declared(),
            Damage::Sight => self.clause(|random| nested_waits(6 + random.below(12))),
            Damage::OrOfSeveral => self.or_of_several(0),
            Damage::OrOfParameters => self.or_of_several(FIRST_PARAMETER),
            Damage::SelfNaming => self.self_naming(|named, _| named),
            Damage::SelfNamingElse => self.self_naming(|named, wait| wait.choice(&named)),
            Damage::Wide => self.clause(wide),
            Damage::UnitsTooFew => self.units(|random, units| {
                let fewer = units.checked_sub(1)?;
                Some(random.pick(&[fewer, fewer, fewer / 2]))
            }),
            Damage::NeedsMore => self.needs_more(),
            _ => self.clause(|random| {
                let then = wide(random);
                build::Wait { then, ..build::simple(5) }.choice(&build::fulfilled())
            }),
        }
    }

    fn measured(&self, mut bytes: Vec<u8>) -> Vec<u8> {
        if bytes.len() >= 2 {
            let length = bytes.len() as u16;
            bytes[..2].copy_from_slice(&length.to_le_bytes());
        }
        bytes
    }

    fn cut(&mut self, measured: bool) -> Vec<u8> {
        let cut = self.bytes[..4 + self.random.below(self.bytes.len() - 4)].to_vec();
        if measured {
            self.measured(cut)
        } else {
            cut
        }
    }

    fn lengthened(&mut self, least: usize, measured: bool) -> Option<Vec<u8>> {
        let mut bytes = self.bytes.clone();
        let length = (bytes.len() + 1 + self.random.below(8)).max(least);
        bytes.resize_with(length, || self.random.draw() as u8);
        Some(if measured { self.measured(bytes) } else { bytes })
    }

    /// As long as may be, or a little longer: the main clause put beside a long condition.
    fn full(&mut self) -> Option<Vec<u8>> {
        let length = 16_380 + self.random.below(9);
        let main = *self.spans.iter().find(|span| span.depth == 2 && span.is_clause())?;
        let condition = truths(length.checked_sub(self.bytes.len() + 8).filter(|bytes| *bytes > 40)?);
        let main_clause = &self.bytes[main.start..main.end];
        let longer = build::if_clause(&condition, main_clause, &build::fulfilled());
        Some(exchange(&self.bytes, &self.spans, main, &longer))
    }

    fn flipped(&mut self) -> Vec<u8> {
        let mut bytes = self.bytes.clone();
        for _ in 0..1 + self.random.below(3) {
            let at = self.random.below(bytes.len());
            bytes[at] = match self.random.below(4) {
                0 => bytes[at] ^ 1 << self.random.below(8),
                1 => bytes[at].wrapping_add(1),
                2 => bytes[at].wrapping_sub(1),
                _ => self.random.draw() as u8,
            };
        }
        bytes
    }

    fn removed(&mut self) -> Vec<u8> {
        let mut bytes = self.bytes.clone();
        bytes.remove(4 + self.random.below(bytes.len() - 4));
        self.measured(bytes)
    }

    fn inserted(&mut self) -> Vec<u8> {
        let mut bytes = self.bytes.clone();
        bytes.insert(4 + self.random.below(bytes.len() - 3), self.random.draw() as u8);
        self.measured(bytes)
    }

    fn any_span(&mut self, wanted: impl Fn(&Span) -> bool) -> Option<Span> {
        let wanted: Vec<_> = self.spans.iter().copied().filter(|span| wanted(span)).collect();
        self.random.any(&wanted)
    }

    /// Puts one of these words at a place.
    fn put_word(&mut self, at: usize, words: &[u16]) -> Vec<u8> {
        let mut bytes = self.bytes.clone();
        bytes[at..at + 2].copy_from_slice(&self.random.pick(words).to_le_bytes());
        bytes
    }

    /// Puts one of these bytes at a place.
    fn put_byte(&mut self, at: usize, choices: &[u8]) -> Vec<u8> {
        let mut bytes = self.bytes.clone();
        bytes[at] = self.random.pick(choices);
        bytes
    }

    /// The length of some record is wrong.
    fn record_length(&mut self) -> Vec<u8> {
        let span = self.random.pick(&self.spans);
        let length = word(&self.bytes, span.start);
        let wrong = [length.wrapping_add(1), length.wrapping_sub(1), length.wrapping_add(4), 0, 3, 4, 0xFFFF];
        self.put_word(span.start, &wrong)
    }

    /// The kind of some record is another.
    fn record_kind(&mut self) -> Vec<u8> {
        let span = self.random.pick(&self.spans);
        let other = [span.kind + 1, span.kind.wrapping_sub(1), span.kind + 256, 0, 15, 23, 31, 44, 64];
        self.put_word(span.start + 2, &other)
    }

    /// The party, reading or template count of the agreement is another.
    fn counts(&mut self) -> Vec<u8> {
        let at = 8 + self.random.below(3);
        let count = self.bytes[at];
        let other = [0, 17, 33, 255, count.wrapping_add(1), count.wrapping_sub(1)];
        self.put_byte(at, &other)
    }

    /// A count or type byte of a reading type or template is another.
    fn head_byte(&mut self) -> Option<Vec<u8>> {
        let span = self.any_span(|span| span.kind == 2 || span.is_template())?;
        let count = usize::from(self.bytes[span.start + 4]);
        let last = if span.kind == 2 { count } else { count + 1 };
        let at = span.start + 4 + self.random.below(last + 1);
        let other = [0, 4, 5, 9, 255, self.bytes[at].wrapping_add(1), self.bytes[at].wrapping_sub(1)];
        Some(self.put_byte(at, &other))
    }

    /// Some record stands where another should.
    fn exchanged(&mut self) -> Option<Vec<u8>> {
        let old = self.any_span(|span| span.depth > 1)?;
        let new = self.any_span(|span| span.depth > 1)?;
        Some(exchange(&self.bytes, &self.spans, old, &self.bytes[new.start..new.end]))
    }

    /// An expression as deep as may be, or deeper.
    fn too_deep(&mut self) -> Option<Vec<u8>> {
        let old = self.any_span(Span::is_expression)?;
        let kept = self.bytes[old.start..old.end].to_vec();
        let wraps = 24 - old.depth + self.random.below(3);
        let wrapped = (0..wraps).fold(kept, |inner, _| build::not(&inner));
        Some(exchange(&self.bytes, &self.spans, old, &wrapped))
    }

    fn no_template(&mut self) -> Option<Vec<u8>> {
        let count = self.bytes[10];
        let template = self.random.pick(&[count, count + 1, 255]);
        self.clause(|_| build::instance(template, &[], &[]))
    }

    /// Exchanges some clause.
    fn clause(&mut self, new: impl FnOnce(&mut Random) -> Vec<u8>) -> Option<Vec<u8>> {
        let old = self.any_span(Span::is_clause)?;
        let new = new(self.random);
        Some(exchange(&self.bytes, &self.spans, old, &new))
    }

    /// Exchanges some expression.
    fn expression(&mut self, new: &[u8]) -> Option<Vec<u8>> {
        let old = self.any_span(Span::is_expression)?;
        Some(exchange(&self.bytes, &self.spans, old, new))
    }

    fn wrong_type(&mut self) -> Option<Vec<u8>> {
        let (one, yes, party) = (build::number(1), build::truth(1), build::party(0));
        let plus = build::binary(Operator::Plus, &one, &yes);
        let equal = build::binary(Operator::Equal, &party, &one);
        let less = build::binary(Operator::Less, &yes, &yes);
        let and = build::binary(Operator::And, &yes, &one);
        let wrong = [one, yes, party, plus, equal, less, and];
        let index = self.random.below(wrong.len());
        self.expression(&wrong[index])
    }

    fn literal(&mut self) -> Option<Vec<u8>> {
        let number = self.random.pick(&[1_000_000_001, -1_000_000_001, i32::MAX, i32::MIN]);
        let parties = self.bytes[8];
        let span = self.any_span(|span| (32..=34).contains(&span.kind))?;
        let new = match span.kind {
            32 => build::number(number),
            33 => build::truth(self.random.pick(&[2, 255])),
            _ => build::party(self.random.pick(&[parties, 16, 128, 255])),
        };
        Some(exchange(&self.bytes, &self.spans, span, &new))
    }

    fn reading_type(&mut self) -> Option<Vec<u8>> {
        let count = self.bytes[9];
        let span = self.any_span(|span| span.kind == 17 || span.kind == 18)?;
        let at = span.start + if span.kind == 17 { 5 } else { 4 };
        Some(self.put_byte(at, &[0, count + 1, 255]))
    }

    fn blame(&mut self) -> Option<Vec<u8>> {
        let parties = self.bytes[8];
        let span = self.any_span(|span| span.kind == 17)?;
        Some(self.put_byte(span.start + 4, &[parties, 16, 127, 128, 131, 132, 255]))
    }

    fn declared(&mut self) -> Option<Vec<u8>> {
        let span = self.any_span(Span::is_template)?;
        let at = span.start + 4 + 1 + usize::from(self.bytes[span.start + 4]) + 1;
        let bit = 1 << self.random.below(16);
        Some(self.put_word(at, &[word(&self.bytes, at) ^ bit]))
    }

    /// Some clause becomes an `or` of two or three members that may stand there, with blame bytes from `least` on.
    fn or_of_several(&mut self, least: u8) -> Option<Vec<u8>> {
        let fits = |span: &Span| span.is_clause() && self.members(span, least).len() > 1;
        let places: Vec<_> = self.spans.iter().copied().filter(fits).collect();
        let old = self.random.any(&places)?;
        let mut members = self.members(&old, least);
        let count = self.random.pick(&[2, 2, 2, 3]);
        while members.len() > count {
            members.swap_remove(self.random.below(members.len()));
        }
        let (last, others) = members.split_last()?;
        let others = others.iter().map(|member| owed(*member)).reduce(|left, right| build::and(&left, &right))?;
        let (left, right) = if self.random.chance(50) { (owed(*last), others) } else { (others, owed(*last)) };
        Some(exchange(&self.bytes, &self.spans, old, &build::or(&left, &right)))
    }

    /// The blame bytes, from `least` on, that may stand in a clause: in the main clause every party's, in a template
    /// those of its declared parties and its parameters.
    fn members(&self, clause: &Span, least: u8) -> Vec<u8> {
        let around = |span: &&Span| span.is_template() && span.start < clause.start && clause.end <= span.end;
        let (parties, parameters) = match self.spans.iter().find(around) {
            Some(template) => {
                let (_, parameters, declared) = self.template_head(*template);
                ((0..16).filter(|party| declared >> party & 1 == 1).collect(), parameters)
            }
            None => ((0..self.bytes[8]).collect::<Vec<_>>(), 0),
        };
        let parameters = (0..parameters).map(|parameter| FIRST_PARAMETER + parameter);
        parties.into_iter().chain(parameters).filter(|member| *member >= least).collect()
    }

    /// The body of a template is made to name itself or a later one, by `shape`.
    fn self_naming(&mut self, shape: impl FnOnce(Vec<u8>, build::Wait) -> Vec<u8>) -> Option<Vec<u8>> {
        let templates: Vec<_> = self.spans.iter().copied().filter(Span::is_template).collect();
        let n = self.random.below(templates.len().max(1));
        let template = templates.get(n)?;
        let later = n + self.random.below(templates.len() - n);
        let named = self.random.pick(&[n, later]);
        let instance = self.instance(named as u8, templates[named], *template);
        let body = *self.spans.iter().find(|span| span.depth == 3 && template.start < span.start)?;
        let new = shape(instance, build::simple(5));
        Some(exchange(&self.bytes, &self.spans, body, &new))
    }

    /// An instance of a template for the body of another, with a party that the other may have.
    fn instance(&self, number: u8, named: Span, naming: Span) -> Vec<u8> {
        let (types, parameters, _) = self.template_head(named);
        let (_, own_parameters, declared) = self.template_head(naming);
        let literal = |value_type: &u8| match value_type {
            1 => build::number(0),
            2 => build::truth(0),
            _ => build::party(0),
        };
        let values: Vec<_> = types.iter().map(literal).collect();
        let blame = if own_parameters > 0 { 128 } else { declared.trailing_zeros() as u8 };
        build::instance(number, &values, &vec![blame; usize::from(parameters)])
    }

    /// Some template is of the other kind than the rest.
    fn mixed_kinds(&mut self) -> Option<Vec<u8>> {
        let templates = Templates::of(&self.bytes)?;
        if templates.records.len() < 2 {
            return None;
        }
        let index = self.random.below(templates.records.len());
        let template = templates.records[index];
        let record = match template.units() {
            Some(_) => template.without_units(),
            None => template.with_units(self.random.pick(&[0, 1, MOST_UNITS])),
        };
        Some(templates.with_one(index, record))
    }

    /// Some template of a sized agreement declares other units.
    fn units(&mut self, other: impl FnOnce(&mut Random, u8) -> Option<u8>) -> Option<Vec<u8>> {
        let templates = Templates::of(&self.bytes)?;
        let index = self.random.below(templates.records.len().max(1));
        let template = templates.records.get(index)?;
        let units = other(self.random, template.units()?)?;
        Some(templates.with_one(index, template.with_units(units)))
    }

    /// Some clause of a sized agreement stands beside fulfilled: one unit more for those that it decides.
    fn needs_more(&mut self) -> Option<Vec<u8>> {
        Templates::of(&self.bytes)?.records.first()?.units()?;
        // The main clause or a body, then any clause of it: a large one is not taken more often.
        let whole = self.any_span(|span| span.is_clause() && span.depth == 2 || span.is_template())?;
        let old = self.any_span(|span| span.is_clause() && whole.start <= span.start && span.end <= whole.end)?;
        let joined = build::and(&self.bytes[old.start..old.end], &build::fulfilled());
        Some(exchange(&self.bytes, &self.spans, old, &joined))
    }

    /// The value types, parameter count and declared parties of a template.
    fn template_head(&self, template: Span) -> (&[u8], u8, u16) {
        let body = template.start + 4;
        let end = body + 1 + usize::from(self.bytes[body]);
        (&self.bytes[body + 1..end], self.bytes[end], word(&self.bytes, end + 1))
    }
}

fn owed(party: u8) -> Vec<u8> {
    build::simple(60).obligation(party)
}

/// So many choices, each in the `then` of the one outside it.
fn nested_waits(count: usize) -> Vec<u8> {
    (0..count).fold(build::fulfilled(), |then, _| build::Wait { then, ..build::simple(60) }.choice(&build::fulfilled()))
}

/// A true expression of so many bytes, at least 40.
fn truths(bytes: usize) -> Vec<u8> {
    // Of n truths of 5 bytes and n - 1 `and` of 4 about them; `not` fills up by 4.
    let most = (bytes + 4) / 9;
    let count = (0..4).map(|fewer| most - fewer).find(|n| (bytes + 4 - 9 * n).is_multiple_of(4)).expect("one of four");
    let nots = (bytes + 4 - 9 * count) / 4;
    (0..nots).fold(conjunction(count), |inner, _| build::not(&inner))
}

fn conjunction(count: usize) -> Vec<u8> {
    match count {
        1 => build::truth(1),
        _ => build::binary(Operator::And, &conjunction(count / 2), &conjunction(count - count / 2)),
    }
}

/// A clause about as wide as may be, or wider.
fn wide(random: &mut Random) -> Vec<u8> {
    let leaves = 127 + random.below(6);
    // An if needs no unit of its own.
    let wide = match random.chance(70) {
        true => balanced(leaves, build::and),
        false => balanced(leaves, |left, right| build::if_clause(&build::truth(1), left, right)),
    };
    if random.chance(50) {
        wide
    } else {
        build::simple(5).choice(&wide)
    }
}

/// So many fulfilled joined in balance.
fn balanced(leaves: usize, join: fn(&[u8], &[u8]) -> Vec<u8>) -> Vec<u8> {
    match leaves {
        1 => build::fulfilled(),
        _ => join(&balanced(leaves / 2, join), &balanced(leaves - leaves / 2, join)),
    }
}
