//! Agreements with templates of kind 4 (paper 02, No. 7): sized ones that fit and that do not, ones of mixed kinds,
//! damaged ones. The units are worked out by [`crate::size`], so that many fit, and just so.

use crate::cases::tree;
use crate::shapes::shape;
use crate::size::{Parts, Template, MOST};
use reference::build::{self, Wait};
use reference::generate::random::Random;
use reference::generate::{agreements, damage, Aim};

/// "agreement under 4 or over 16,384 bytes"
const LONGEST: usize = 16_384;
/// "template count 0 to 32"
const TEMPLATES: usize = 32;

/// How an agreement's units are chosen, or what else its templates are made for.
#[derive(Clone, Copy, Debug, PartialEq, Eq)]
pub enum Plan {
    /// As many as the shape was made for, or else the least with which each body fits.
    AsMade,
    /// The least with which each body fits.
    Least,
    /// More than that.
    Above,
    /// The least, but one below that at one template.
    OneBelow,
    /// So many at one template, at the others the least with which they fit.
    Given(usize),
    Any,
    /// "or units above 128": so many at one template.
    Over(usize),
    /// "Mixing kinds 3 and 4"
    Mixed(Mixture),
    Damaged(Damage),
    /// A fault that a lower number has, beside sizes that fit or do not.
    Lower(u32),
}

/// Which templates are of kind 3.
#[derive(Clone, Copy, Debug, PartialEq, Eq)]
pub enum Mixture {
    First,
    Last,
    AllButFirst,
    AllButLast,
    EverySecond,
    Some,
}

/// What is done to the record of a template, with all lengths right.
#[derive(Clone, Copy, Debug, PartialEq, Eq)]
pub enum Damage {
    /// Kind 3, and the units are left.
    KindThree,
    /// Kind 4 without units.
    UnitsDropped,
    KindFive,
    UnitsTwice,
    /// Before the declared parties.
    UnitsBefore,
    /// Behind the body.
    UnitsBehind,
}

impl Mixture {
    pub const ALL: [Mixture; 6] =
        [Mixture::First, Mixture::Last, Mixture::AllButFirst, Mixture::AllButLast, Mixture::EverySecond, Mixture::Some];

    /// Makes some templates, not all, ones of kind 3.
    fn mix(self, random: &mut Random, templates: &mut [Template]) {
        let last = templates.len() - 1;
        let odd_one = random.below(templates.len());
        for (n, template) in templates.iter_mut().enumerate() {
            let is_three = match self {
                Mixture::First => n == 0,
                Mixture::Last => n == last,
                Mixture::AllButFirst => n != 0,
                Mixture::AllButLast => n != last,
                Mixture::EverySecond => n % 2 == 0,
                Mixture::Some => n != odd_one && (n + 1 == odd_one || n == odd_one + 1 || random.chance(50)),
            };
            if is_three {
                template.units = None;
            }
        }
    }
}

impl Damage {
    pub const ALL: [Damage; 6] = [
        Damage::KindThree,
        Damage::UnitsDropped,
        Damage::KindFive,
        Damage::UnitsTwice,
        Damage::UnitsBefore,
        Damage::UnitsBehind,
    ];

    fn of(self, template: &Template) -> Vec<u8> {
        let (head, units, body) = (&template.head[..], [template.units.expect("kind 4") as u8], &template.body[..]);
        let (before, declared) = head.split_at(head.len() - 2);
        match self {
            Damage::KindThree => build::record(3, &[head, &units, body]),
            Damage::UnitsDropped => build::record(4, &[head, body]),
            Damage::KindFive => build::record(5, &[head, &units, body]),
            Damage::UnitsTwice => build::record(4, &[head, &units, &units, body]),
            Damage::UnitsBefore => build::record(4, &[before, &units, declared, body]),
            Damage::UnitsBehind => build::record(4, &[head, body, &units]),
        }
    }
}

impl Plan {
    fn draw(random: &mut Random) -> Plan {
        match random.below(40) {
            0..=15 => Plan::AsMade,
            16..=18 => Plan::Least,
            19..=21 => Plan::Above,
            22..=26 => Plan::OneBelow,
            27..=30 => Plan::Given(random.pick(&[0, 127, MOST])),
            31 => Plan::Any,
            32 => Plan::Over(random.pick(&[MOST + 1, 255])),
            33 | 34 => Plan::Mixed(random.pick(&Mixture::ALL)),
            35..=37 => Plan::Damaged(random.pick(&Damage::ALL)),
            _ => Plan::Lower(random.between(1, 5) as u32),
        }
    }

    /// What the reference's own damages call it, if it is refused.
    pub fn aim(self) -> Aim {
        Aim::Agreement(match self {
            Plan::Mixed(_) => damage::Damage::MixedKinds,
            Plan::Over(_) => damage::Damage::UnitsAboveMost,
            Plan::Damaged(Damage::KindThree | Damage::KindFive) => damage::Damage::Kind,
            Plan::Damaged(Damage::UnitsDropped) => damage::Damage::ByteRemoved,
            Plan::Damaged(_) => damage::Damage::ByteInserted,
            Plan::Lower(1) => damage::Damage::Appended,
            Plan::Lower(2) => damage::Damage::NoTemplate,
            Plan::Lower(3) => damage::Damage::WrongType,
            Plan::Lower(4) => damage::Damage::SelfNaming,
            Plan::Lower(_) => damage::Damage::Wide,
            _ => damage::Damage::UnitsTooFew,
        })
    }

    /// The number of every entry, where the plan alone decides it.
    pub fn number(self) -> Option<u32> {
        match self {
            Plan::Over(_) | Plan::Mixed(_) => Some(2),
            Plan::Lower(number) => Some(number),
            _ => None,
        }
    }
}

/// An agreement made to a plan.
pub struct Planned {
    pub plan: Plan,
    /// What it is without a damage or a fault of a lower number.
    pub parts: Parts,
    pub bytes: Vec<u8>,
}

/// An agreement with at least one template, each of kind 4 or as the plan mixes or damages them.
pub fn planned(random: &mut Random) -> Planned {
    loop {
        let plan = Plan::draw(random);
        let base = base(random, plan);
        let Some(units) = units(random, plan, &base) else { continue };
        let mut parts = base.declaring(&units);
        if let Plan::Mixed(mixture) = plan {
            mixture.mix(random, &mut parts.templates);
        }
        let bytes = match plan {
            Plan::Damaged(damage) => damaged(random, &parts, damage),
            Plan::Lower(number) if parts.templates.len() < TEMPLATES => faulty(parts.clone(), number),
            Plan::Lower(_) => continue,
            _ => parts.bytes(),
        };
        if bytes.len() <= LONGEST {
            return Planned { plan, parts, bytes };
        }
    }
}

/// Templates and a main clause, with or without units.
fn base(random: &mut Random, plan: Plan) -> Parts {
    let mut parts = if random.chance(65) { shape(random) } else { Parts::of(&agreements::agreement(random)) };
    let least = if matches!(plan, Plan::Mixed(_)) { 2 } else { 1 };
    while parts.templates.len() < least {
        parts.templates.push(Template::new(build::fulfilled()));
    }
    parts
}

/// The units that a plan chooses; any, where none fit.
fn units(random: &mut Random, plan: Plan, parts: &Parts) -> Option<Vec<usize>> {
    let count = parts.templates.len();
    let chosen = random.below(count);
    let any: Vec<usize> = (0..count).map(|_| random.pick(&[0, 1, 2, 3, 20, 64, 127, MOST])).collect();
    let mut floors = vec![0; count];
    match plan {
        Plan::AsMade => {
            if let Some(made) = parts.templates.iter().map(|template| template.units).collect() {
                return Some(made);
            }
        }
        Plan::Any => return Some(any),
        Plan::Above => floors.fill_with(|| random.pick(&[0, 0, 1, 2, 5, 60])),
        Plan::Given(units) => floors[chosen] = units,
        _ => {}
    }
    let mut least = parts.least_units(&floors).unwrap_or(any);
    let below = plan == Plan::OneBelow || (matches!(plan, Plan::Lower(_)) && random.chance(50));
    match plan {
        Plan::Given(units) | Plan::Over(units) => least[chosen] = units,
        _ if below => {
            let needed: Vec<usize> = (0..count).filter(|n| least[*n] > 0).collect();
            least[random.any(&needed)?] -= 1;
        }
        _ => {}
    }
    Some(least)
}

/// One template or all of them damaged.
fn damaged(random: &mut Random, parts: &Parts, damage: Damage) -> Vec<u8> {
    let (all, chosen) = (random.chance(30), random.below(parts.templates.len()));
    parts.bytes_with(|n, template| match all || n == chosen {
        true => damage.of(template),
        false => template.bytes(),
    })
}

/// The agreement with a fault that this number has: a byte too many, or one template more.
fn faulty(mut parts: Parts, number: u32) -> Vec<u8> {
    let own = parts.templates.len() as u8;
    let body = match number {
        2 => build::instance(own + 1, &[], &[]),
        3 => Wait { condition: build::number(1), ..build::simple(60) }.obligation(0),
        4 => build::instance(own, &[], &[]),
        5 => tree(129, &build::fulfilled()),
        _ => return [parts.bytes(), vec![0]].concat(),
    };
    parts.templates.push(Template { units: Some(MOST), ..Template::new(body) });
    parts.bytes()
}
