//! An agreement's size by paper 02, No. 7, worked out on its bytes: a third count beside those of the two monitors.

use reference::build::record;

/// "its units, 0 to 128", and the most that the main clause may need.
pub const MOST: usize = 128;

/// The kinds of templates and clauses.
const TEMPLATE: u16 = 3;
const SIZED_TEMPLATE: u16 = 4;
pub const FULFILLED: u16 = 16;
pub const OBLIGATION: u16 = 17;
pub const CHOICE: u16 = 18;
pub const IF: u16 = 19;
pub const AND: u16 = 20;
pub const OR: u16 = 21;
pub const INSTANCE: u16 = 22;

/// An agreement taken apart.
#[derive(Clone, Debug)]
pub struct Parts {
    /// Start time and party count.
    head: Vec<u8>,
    readings: Vec<Vec<u8>>,
    pub templates: Vec<Template>,
    pub main: Vec<u8>,
}

#[derive(Clone, Debug)]
pub struct Template {
    /// Value count and types, party parameter count, declared parties.
    pub head: Vec<u8>,
    /// None of kind 3.
    pub units: Option<usize>,
    pub body: Vec<u8>,
}

impl Parts {
    /// Of an agreement to which neither 1 nor 2 applies.
    pub fn of(agreement: &[u8]) -> Parts {
        let readings = usize::from(agreement[9]);
        let mut records: Vec<Vec<u8>> = records(&agreement[11..]).into_iter().map(<[u8]>::to_vec).collect();
        let main = records.pop().expect("a main clause");
        let templates = records.split_off(readings).iter().map(|template| Template::of(template)).collect();
        Parts { head: agreement[4..9].to_vec(), readings: records, templates, main }
    }

    pub fn bytes(&self) -> Vec<u8> {
        self.bytes_with(|_, template| template.bytes())
    }

    /// With these records for the templates.
    pub fn bytes_with(&self, template: impl Fn(usize, &Template) -> Vec<u8>) -> Vec<u8> {
        let counts = [self.readings.len() as u8, self.templates.len() as u8];
        let templates: Vec<_> = self.templates.iter().enumerate().map(|(n, this)| template(n, this)).collect();
        record(1, &[&self.head, &counts, &self.readings.concat(), &templates.concat(), &self.main])
    }

    /// "An agreement whose templates are all of kind 4, and which has at least one, is sized."
    pub fn size(&self) -> Option<Size> {
        let units: Vec<usize> = self.templates.iter().map(|template| template.units).collect::<Option<_>>()?;
        let bodies = self.templates.iter().map(|template| need(&template.body, &units)).collect();
        let main = need(&self.main, &units);
        (!units.is_empty()).then_some(Size { units, bodies, main })
    }

    /// It is sized, and 15 does not apply.
    pub fn fits(&self) -> bool {
        self.size().is_some_and(|size| size.fits())
    }

    /// The least units, none below its floor, with which each body fits; None where one would need over 128.
    pub fn least_units(&self, floors: &[usize]) -> Option<Vec<usize>> {
        let mut units = floors.to_vec();
        loop {
            let needs = self.templates.iter().map(|template| need(&template.body, &units));
            let raised: Vec<usize> = needs.zip(&units).map(|(need, units)| need.max(*units)).collect();
            if raised.iter().any(|units| *units > MOST) {
                return None;
            }
            if raised == units {
                return Some(units);
            }
            units = raised;
        }
    }

    /// The same with the least units that fit, if then it fits.
    pub fn with_enough(&self) -> Option<Parts> {
        let least = self.least_units(&vec![0; self.templates.len()])?;
        Some(self.declaring(&least)).filter(Parts::fits)
    }

    /// The same with templates of kind 3.
    pub fn of_kind_three(&self) -> Parts {
        let mut parts = self.clone();
        parts.templates.iter_mut().for_each(|template| template.units = None);
        parts
    }

    /// The same with templates of kind 4 that declare these units.
    pub fn declaring(&self, units: &[usize]) -> Parts {
        let mut parts = self.clone();
        parts.templates.iter_mut().zip(units).for_each(|(template, units)| template.units = Some(*units));
        parts
    }
}

impl Template {
    /// Without values and parameters, of party 0, of kind 3.
    pub fn new(body: Vec<u8>) -> Template {
        Template { head: vec![0, 0, 1, 0], units: None, body }
    }

    fn of(template: &[u8]) -> Template {
        let end = 8 + usize::from(template[4]);
        let (head, rest) = (template[4..end].to_vec(), &template[end..]);
        match kind(template) {
            SIZED_TEMPLATE => Template { head, units: Some(usize::from(rest[0])), body: rest[1..].to_vec() },
            _ => Template { head, units: None, body: rest.to_vec() },
        }
    }

    pub fn bytes(&self) -> Vec<u8> {
        match self.units {
            Some(units) => record(SIZED_TEMPLATE, &[&self.head, &[units as u8], &self.body]),
            None => record(TEMPLATE, &[&self.head, &self.body]),
        }
    }
}

/// What a sized agreement declares and needs.
pub struct Size {
    pub units: Vec<usize>,
    pub bodies: Vec<usize>,
    pub main: usize,
}

impl Size {
    /// Of an agreement to which none of 1 to 5 applies, if it is sized.
    pub fn of(agreement: &[u8]) -> Option<Size> {
        Parts::of(agreement).size()
    }

    /// "in a sized agreement a body's need is above its declared units": this one's is not.
    pub fn body_fits(&self, template: usize) -> bool {
        self.bodies[template] <= self.units[template]
    }

    pub fn bodies_fit(&self) -> bool {
        (0..self.units.len()).all(|template| self.body_fits(template))
    }

    /// "or the main clause's above 128": it is not.
    pub fn main_fits(&self) -> bool {
        self.main <= MOST
    }

    /// 15 does not apply.
    pub fn fits(&self) -> bool {
        self.bodies_fit() && self.main_fits()
    }
}

/// A clause's need where templates declare these units. "An instance needs its template's units."
pub fn need(clause: &[u8], units: &[usize]) -> usize {
    need_by(&together, clause, units)
}

/// The same where `of` makes a clause's need of its kind and the needs of its clauses.
pub fn need_by(of: &impl Fn(u16, &[usize]) -> usize, clause: &[u8], units: &[usize]) -> usize {
    if kind(clause) == INSTANCE {
        return units[usize::from(clause[4])];
    }
    let needs: Vec<usize> = clauses(clause).into_iter().map(|part| need_by(of, part, units)).collect();
    of(kind(clause), &needs)
}

/// "The need of fulfilled is 0. For an obligation it is the larger of 1 and the need of `then`. For a choice it is the
/// largest of 1 and the needs of its two clauses. For an if it is the larger of both. For `and` and `or` it is 1 and
/// both together."
pub fn together(kind: u16, needs: &[usize]) -> usize {
    let most = needs.iter().copied().max().unwrap_or(0);
    match kind {
        FULFILLED | IF => most,
        OBLIGATION | CHOICE => most.max(1),
        AND | OR => 1 + needs.iter().sum::<usize>(),
        other => panic!("no clause is of kind {other}"),
    }
}

/// A clause's clauses: an obligation's `then`, a choice's `then` and else, both of an if or a join.
pub fn clauses(clause: &[u8]) -> Vec<&[u8]> {
    let (fields, expressions) = match kind(clause) {
        OBLIGATION => (2, 3),
        CHOICE => (1, 3),
        IF => (0, 1),
        AND | OR => (0, 0),
        _ => return Vec::new(),
    };
    records(&clause[4 + fields..]).split_off(expressions)
}

pub fn kind(record: &[u8]) -> u16 {
    word(record, 2)
}

/// Records one after another.
fn records(mut bytes: &[u8]) -> Vec<&[u8]> {
    let mut found = Vec::new();
    while !bytes.is_empty() {
        let (record, rest) = bytes.split_at(usize::from(word(bytes, 0)));
        found.push(record);
        bytes = rest;
    }
    found
}

fn word(bytes: &[u8], at: usize) -> u16 {
    u16::from_le_bytes([bytes[at], bytes[at + 1]])
}
