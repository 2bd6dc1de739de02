//! Agreements whose needs are known as they are made: clauses made to a need, runs that grow to it, needs from the
//! deepest records, runs without end. Each is of one party, and its templates have no values and no parameters.

use crate::size::{Parts, Template};
use reference::agreement::{Operator, Type};
use reference::build::{self, Wait};
use reference::generate::agreements::{crowd, start};
use reference::generate::random::Random;

/// "The main clause, each template body and each `then` has width at most 256."
const WIDEST: usize = 256;
/// The deepest wait: its expressions nest three deep, and "Records nest at most 24 deep".
const DEEPEST: usize = 21;
/// So many values may be in sight of a wait whose `then` sees a reading's value and the remaining time: "At most 16".
const SIGHT: usize = 14;

/// An agreement with such a shape, and the units that its templates are made for.
pub fn shape(random: &mut Random) -> Parts {
    match random.below(10) {
        0..=4 => to_needs(random),
        5 | 6 => doubling(random),
        7 => renewing(random),
        8 => crowded(random),
        _ => deep(random),
    }
}

fn agreement(random: &mut Random, bodies: Vec<(usize, Vec<u8>)>, main: &[u8]) -> Parts {
    let readings = [build::reading_type(&[]), build::reading_type(&[Type::Number])];
    let mut parts = Parts::of(&build::agreement(start(random), 2, &readings, &[], main));
    let (units, bodies): (Vec<_>, Vec<_>) = bodies.into_iter().unzip();
    parts.templates = bodies.into_iter().map(|body| Template::new(body)).collect();
    parts.declaring(&units)
}

fn named(template: usize) -> Vec<u8> {
    build::instance(template as u8, &[], &[])
}

fn join(random: &mut Random, left: &[u8], right: &[u8]) -> Vec<u8> {
    if random.chance(75) {
        build::and(left, right)
    } else {
        build::or(left, right)
    }
}

/// A window that readings seldom leave.
const LONG: i32 = 100_000;

/// A wait for some reading where nothing is in sight, or nothing but numbers.
fn waits(random: &mut Random, then: Vec<u8>) -> Wait {
    let reading = random.pick(&READINGS);
    waits_for(random, reading, 0, then)
}

/// Type 1 has no values, type 2 a number.
const READINGS: [u8; 4] = [1, 1, 1, 2];

/// A wait, often for what comes soon, with so many values in sight before those of the reading.
fn waits_for(random: &mut Random, reading: u8, in_sight: usize, then: Vec<u8>) -> Wait {
    let condition = match reading {
        2 if random.chance(60) => {
            build::not(&build::binary(Operator::Less, &build::value(in_sight as u8), &build::number(250)))
        }
        _ => build::truth(1),
    };
    let after = build::number(random.pick(&[0, 0, 0, 0, 1, 5, -5]));
    let within = build::number(random.pick(&[-1, 0, 20, 60, 400, 400, LONG, LONG, LONG, LONG]));
    Wait { reading, condition, after, within, then }
}

/// Each body is made to the units of its template, the main clause to a need near an end.
fn to_needs(random: &mut Random) -> Parts {
    let count = random.pick(&[1, 1, 1, 2, 3, 5, 8, 32]);
    let most = if count > 5 { 8 } else { UNITS.len() };
    let some = [0; 3].map(|_| random.pick(&UNITS[..most]));
    let units: Vec<usize> = (0..count).map(|_| random.pick(&some)).collect();
    let need = random.pick(&[0, 1, 2, 3, 5, 8, 31, 64, 126, 127, 127, 128, 128, 128, 128, 129, 129, 129, 130, 300]);
    let widths = (0..count).map(|_| random.pick(&WIDTHS)).collect();
    let mut maker = Maker { random, units: units.clone(), widths, room: 0 };
    let bodies = (0..count).map(|n| (units[n], maker.body(n))).collect();
    let main = maker.main(need);
    agreement(random, bodies, &main)
}

/// The units of templates; the first of them where there are many.
const UNITS: [usize; 14] = [0, 1, 1, 1, 2, 3, 5, 7, 20, 63, 64, 127, 128, 128];
/// About the bytes of the main clause, and of all bodies.
const ROOM: usize = 10_000;
const ROOM_OF_BODIES: usize = 5_000;
/// The most that a body is wide.
const WIDTHS: [usize; 4] = [1, 5, 20, 60];

/// Where a clause is to stand.
#[derive(Clone, Copy)]
struct Spot {
    /// Instances name templates below this.
    below: usize,
    depth: usize,
    width: usize,
    sight: usize,
}

struct Maker<'r> {
    random: &'r mut Random,
    units: Vec<usize>,
    widths: Vec<usize>,
    /// About the bytes that are left for the body in the making.
    room: usize,
}

impl Maker<'_> {
    fn body(&mut self, template: usize) -> Vec<u8> {
        self.room = ROOM_OF_BODIES / self.units.len();
        let spot = Spot { below: template, depth: 3, width: self.widths[template], sight: 0 };
        self.outermost(self.units[template], spot)
    }

    fn main(&mut self, need: usize) -> Vec<u8> {
        self.room = ROOM;
        self.outermost(need, Spot { below: self.units.len(), depth: 2, width: WIDEST, sight: 0 })
    }

    /// Often of a kind whose need more than one of its clauses may make.
    fn outermost(&mut self, need: usize, spot: Spot) -> Vec<u8> {
        match self.random.below(8) {
            0 if need > 0 => self.wait(need, spot).obligation(0),
            1 | 2 if need > 0 && spot.width >= 2 => self.choice(need, spot),
            3 | 4 if spot.width >= 3 => self.either(need, spot),
            _ => self.clause(need, spot),
        }
    }

    /// A clause of this need, or of a smaller one where the spot has no room.
    fn clause(&mut self, need: usize, spot: Spot) -> Vec<u8> {
        self.room = self.room.saturating_sub(10);
        let roomy = self.room > 0 && spot.has_depth_below(need);
        let waits = need > 0 && spot.sight <= SIGHT && (roomy || (need == 1 && spot.depth < DEEPEST));
        let joins = need > 0 && spot.depth < DEEPEST && spot.width >= width(need).max(3);
        let named = self.instance(need, spot);
        let weights = [
            usize::from(need == 0),
            4 * usize::from(waits),
            3 * usize::from(waits && roomy && spot.width > width(need)),
            3 * usize::from(roomy && spot.width > 2 * width(need)),
            if need > 1 { 12 } else { 1 } * usize::from(joins),
            6 * usize::from(named.is_some()),
        ];
        if weights.iter().all(|weight| *weight == 0) {
            return build::fulfilled();
        }
        match self.random.weighted(&weights) {
            0 => build::fulfilled(),
            1 => self.wait(need, spot).obligation(0),
            2 => self.choice(need, spot),
            3 => self.either(need, spot),
            4 => self.joined(need, spot),
            _ => named.expect("a template of this need"),
        }
    }

    /// An instance of some template with these units.
    fn instance(&mut self, need: usize, spot: Spot) -> Option<Vec<u8>> {
        let fits = |n: &usize| self.units[*n] == need && self.widths[*n] < spot.width;
        let fitting: Vec<usize> = (0..spot.below).filter(fits).collect();
        self.random.any(&fitting).map(named)
    }

    fn wait(&mut self, need: usize, spot: Spot) -> Wait {
        self.room = self.room.saturating_sub(30);
        let need = if need == 1 { self.random.below(2) } else { need };
        let reading = self.random.pick(&READINGS);
        let sight = spot.sight + usize::from(reading); // its values and the remaining time
        let then = self.clause(need, Spot { below: self.units.len(), width: WIDEST, sight, ..inside(spot) });
        waits_for(self.random, reading, spot.sight, then)
    }

    /// This need and one that is not larger, in some order.
    fn with_smaller(&mut self, need: usize) -> (usize, usize) {
        let any = self.random.below(need + 1);
        let smaller = self.random.pick(&[0, need.min(1), any, need]);
        self.random.pick(&[(need, smaller), (smaller, need)])
    }

    /// Its `then`, its else or both decide its need, or itself.
    fn choice(&mut self, need: usize, spot: Spot) -> Vec<u8> {
        let (then, otherwise) = match need {
            1 if self.random.chance(40) => (0, 0),
            _ => self.with_smaller(need),
        };
        let otherwise = self.clause(otherwise, Spot { width: spot.width - 1, ..inside(spot) });
        self.wait(then, spot).choice(&otherwise)
    }

    /// One side or both decide its need.
    fn either(&mut self, need: usize, spot: Spot) -> Vec<u8> {
        let (left, right) = self.with_smaller(need);
        let inside = Spot { width: (spot.width - 1) / 2, ..inside(spot) };
        let (left, right) = (self.clause(left, inside), self.clause(right, inside));
        build::if_clause(&build::truth(self.random.below(2) as u8), &left, &right)
    }

    /// Both sides make up its need, each as wide as it must be.
    fn joined(&mut self, need: usize, spot: Spot) -> Vec<u8> {
        let rest = need - 1;
        let any = self.random.below(rest + 1);
        let left = if spot.has_depth_below(rest) { any } else { rest / 2 };
        let fits = |left: usize| width(left) + width(rest - left) < spot.width;
        let left = if fits(left) { left } else { left.abs_diff(1) };
        let right = rest - left;
        let spare = (spot.width - 1).saturating_sub(width(left) + width(right));
        let first = Spot { width: width(left) + spare / 2, ..inside(spot) };
        let second = Spot { width: spot.width - 1 - first.width, ..inside(spot) };
        let (left, right) = (self.clause(left, first), self.clause(right, second));
        join(self.random, &left, &right)
    }
}

impl Spot {
    /// Clauses of this need may stand one record further in, their waits joined in balance.
    fn has_depth_below(self, need: usize) -> bool {
        let joins = need.max(1).ilog2() as usize;
        self.depth + 1 + joins < DEEPEST
    }
}

/// The least width of joins that have this need: n waits have n - 1 joins, and one of fulfilled makes up an even need.
fn width(need: usize) -> usize {
    need | 1
}

/// The same spot one record further in.
fn inside(spot: Spot) -> Spot {
    Spot { depth: spot.depth + 1, ..spot }
}

/// Template n is a wait for two of template n - 1: as many readings leave 1, 3, 7, up to 127 units.
fn doubling(random: &mut Random) -> Parts {
    let levels = random.pick(&[2, 3, 4, 5, 6, 7, 7, 7]);
    let mut bodies = vec![(1, waits(random, build::fulfilled()).obligation(0))];
    for level in 1..levels {
        let (below, named) = (bodies[level - 1].0, named(level - 1));
        let then = join(random, &named, &named);
        let wait = waits(random, then);
        let body = if random.chance(80) { wait.obligation(0) } else { wait.choice(&named) };
        bodies.push((1 + 2 * below, body));
    }
    let last = named(levels - 1);
    let main = match random.below(5) {
        0 => join(random, &last, &build::fulfilled()),
        1 => join(random, &last, &named(0)),
        _ => last,
    };
    agreement(random, bodies, &main)
}

/// Waits that begin anew with each reading or when they are late: the units stay as many, without end.
fn renewing(random: &mut Random) -> Parts {
    let owed = waits(random, named(0)).obligation(0);
    let chosen = waits(random, named(1)).choice(&named(0));
    let count = random.pick(&[1, 2, 3, 8, 32, 64, 64, 65]);
    let main = crowd(random, count, &mut |random| named(random.below(2)));
    agreement(random, vec![(1, owed), (1, chosen)], &main)
}

/// So many obligations joined in balance, at the start or by a reading, as 128 units have room for, or more.
fn crowded(random: &mut Random) -> Parts {
    let count = random.pick(&[32, 63, 64, 64, 65, 66, 128]);
    let crowd = crowd(random, count, &mut |random| waits(random, build::fulfilled()).obligation(0));
    let main = match random.below(4) {
        0 => waits(random, crowd).obligation(0),
        1 => build::and(&crowd, &build::fulfilled()),
        2 => waits(random, build::fulfilled()).choice(&crowd),
        _ => crowd,
    };
    agreement(random, vec![(0, build::fulfilled())], &main)
}

/// The deepest record of a body or of the main clause decides the need.
fn deep(random: &mut Random) -> Parts {
    let mut nested = |depth: usize| {
        let last = if random.chance(50) {
            waits(random, build::fulfilled()).obligation(0)
        } else {
            (DEEPEST..24).fold(build::fulfilled(), |inner, _| build::and(&inner, &build::fulfilled()))
        };
        (depth..DEEPEST).fold(last, |inner, _| match random.below(5) {
            0 => build::and(&build::fulfilled(), &inner),
            1 => build::or(&inner, &build::fulfilled()),
            2 => build::if_clause(&build::truth(random.below(2) as u8), &inner, &build::fulfilled()),
            3 => waits(random, build::fulfilled()).choice(&inner),
            _ => join(random, &inner, &build::simple(60).obligation(0)),
        })
    };
    let (body, main) = (nested(3), nested(2));
    let main = if random.chance(50) { main } else { named(0) };
    agreement(random, vec![(0, body)], &main)
}
