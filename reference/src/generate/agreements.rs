//! Valid agreements, made so that check accepts them: every clause is made for the spot where it
//! stands, with its values in sight, possible parties, depth and width.

use super::eventful::{costly, eventful};
use super::random::Random;
use super::sized::{at_its_limits, sized};
use crate::agreement::{Operator, Type};
use crate::build;
use crate::check::FIRST_PARAMETER;

const DEEPEST: usize = 24;
const SIGHT: usize = 16;
pub const LONGEST: usize = 16_384;
const TYPES: [Type; 3] = [Type::Number, Type::Truth, Type::Party];

/// What an agreement is made to look like.
struct Shape {
    /// How often each clause of kinds 16 to 22 is taken.
    weights: [usize; 7],
    /// The most templates.
    templates: usize,
    /// About the most bytes of the whole.
    room: usize,
    /// The most width of the main clause and of a `then`.
    width: usize,
    /// The most operators above each other in an expression.
    fuel: usize,
}

const PLAIN: Shape = Shape { weights: [1, 6, 3, 2, 4, 3, 4], templates: 6, room: 1_500, width: 60, fuel: 2 };
const TINY: Shape = Shape { weights: [3, 6, 2, 2, 2, 2, 2], templates: 1, room: 120, width: 8, fuel: 1 };
const WIDE: Shape = Shape { weights: [1, 5, 1, 1, 20, 4, 2], templates: 3, room: 9_000, width: 256, fuel: 1 };
const DEEP: Shape = Shape { weights: [0, 8, 8, 3, 2, 2, 1], templates: 2, room: 4_000, width: 60, fuel: 22 };
const CHAINED: Shape = Shape { weights: [1, 3, 14, 2, 2, 2, 4], templates: 4, room: 2_500, width: 100, fuel: 1 };
const JOINED: Shape = Shape { weights: [0, 6, 2, 0, 5, 6, 2], templates: 2, room: 1_200, width: 40, fuel: 1 };
const MANY: Shape = Shape { weights: [1, 5, 2, 2, 3, 2, 9], templates: 32, room: 6_000, width: 200, fuel: 1 };

/// Makes a valid agreement, often a sized one.
pub fn agreement(random: &mut Random) -> Vec<u8> {
    if random.chance(8) {
        return at_its_limits(random);
    }
    let bytes = with_any_size(random);
    if random.chance(30) {
        sized(&bytes).unwrap_or(bytes)
    } else {
        bytes
    }
}

/// One whose templates, if it has any, are of kind 3.
fn with_any_size(random: &mut Random) -> Vec<u8> {
    match random.below(100) {
        0..=6 => return growing(random),
        7..=10 => return crowded(random),
        11..=18 => return renewing(random),
        19..=22 => return taking_turns(random),
        23..=29 => return opening_later(random),
        30..=35 => return early_unaltered(random),
        36..=43 => return eventful(random),
        44..=46 => return costly(random),
        _ => {}
    }
    let shape = [&PLAIN, &TINY, &WIDE, &DEEP, &CHAINED, &JOINED, &MANY][random.weighted(&[6, 3, 1, 2, 3, 4, 2])];
    let mut bytes = Maker::new(random, shape).agreement();
    while bytes.len() > LONGEST {
        bytes = Maker::new(random, &TINY).agreement();
    }
    bytes
}

/// Like P15: a template that names itself more than once in its `then`.
fn growing(random: &mut Random) -> Vec<u8> {
    let named = build::instance(0, &[], &[]);
    let join = |random: &mut Random, left: &[u8], right: &[u8]| match random.chance(75) {
        true => build::and(left, right),
        false => build::or(left, right),
    };
    let mut then = join(random, &named, &named);
    for _ in 0..random.below(3) {
        then = join(random, &then, &named);
    }
    let within = random.between(20, 400) as i32;
    let wait = build::Wait { then, ..build::simple(within) };
    let body = if random.chance(80) { wait.obligation(0) } else { wait.choice(&build::simple(within).obligation(0)) };
    let mut main = if random.chance(50) { named.clone() } else { join(random, &named, &named) };
    if random.chance(30) {
        // Every reading is too early for this one, also the one that needs too many units.
        main = build::and(&main, &opening(1_000, 60).obligation(0));
    }
    let template = build::template(&[], 0, 1, &body);
    build::agreement(start(random), 2, &[build::reading_type(&[])], &[template], &main)
}

/// Many obligations joined in balance, up to the greatest width: too many units, or nearly so.
fn crowded(random: &mut Random) -> Vec<u8> {
    let count = random.pick(&[20, 60, 64, 64, 65, 66, 100, 128]);
    let crowd = crowd(random, count, &mut owed_soon);
    let main = match random.below(4) {
        0 => build::Wait { then: crowd, ..build::simple(100) }.obligation(0),
        // The reading that brings the crowd also fulfils an `or` and drops what its other side activates.
        1 => {
            let crowding = build::Wait { then: crowd, ..build::simple(100) }.obligation(0);
            let owed = build::simple(30).obligation(0);
            let dropped = build::Wait { then: owed.clone(), ..build::simple(30) }.obligation(0);
            build::and(&build::or(&dropped, &owed), &crowding)
        }
        2 if count < 128 => build::or(&crowd, &build::simple(30).obligation(0)),
        _ => crowd,
    };
    build::agreement(start(random), 1, &[build::reading_type(&[]), build::reading_type(&[])], &[], &main)
}

fn owed_soon(random: &mut Random) -> Vec<u8> {
    let (reading, within) = (random.pick(&[1, 1, 2]), random.pick(&[0, 10, 60, 200]));
    build::Wait { reading, ..build::simple(within) }.obligation(0)
}

/// So many clauses joined in balance.
pub fn crowd(random: &mut Random, count: usize, clause: &mut impl FnMut(&mut Random) -> Vec<u8>) -> Vec<u8> {
    if count == 1 {
        return clause(random);
    }
    let left = crowd(random, count / 2, clause);
    let right = crowd(random, count - count / 2, clause);
    if random.chance(80) {
        build::and(&left, &right)
    } else {
        build::or(&left, &right)
    }
}

/// Two templates alike, each a wait that names itself or the other in its `then`: a reading at the time of activation
/// leaves the unit as it is, or alters its place, a value or a parameter; a later one alters its A.
fn renewing(random: &mut Random) -> Vec<u8> {
    let templates = [0, 1].map(|own| {
        let body = renewed(random, own);
        build::template(&[Type::Number, Type::Party], 2, 0b11, &body)
    });
    let given = [build::number(random.number()), build::party(random.below(2) as u8)];
    let blames = random.pick(&[[0, 1], [1, 0], [1, 1]]);
    let named = build::instance(0, &given, &blames);
    let main = match random.below(4) {
        0 => build::and(&named, &build::simple(300).obligation(0)),
        1 => build::and(&named, &build::instance(1, &given, &blames)),
        _ => named,
    };
    let readings = [build::reading_type(&[Type::Number]), build::reading_type(&[])];
    build::agreement(start(random), 2, &readings, &templates, &main)
}

/// The body of such a template, for parties 0 and 1. It sees a number and a party; `then` also sees the reading's
/// number, by which it picks the parameters, and the remaining time.
fn renewed(random: &mut Random, own: u8) -> Vec<u8> {
    const NUMBER: u8 = 0;
    const PARTY: u8 = 1;
    const READ: u8 = 2;
    const REMAINING: u8 = 3;
    const SAME: [u8; 2] = [FIRST_PARAMETER, FIRST_PARAMETER + 1];
    let next = random.pick(&[own, own, own, 1 - own]);
    let number = random.pick(&[NUMBER, NUMBER, NUMBER, READ, REMAINING]);
    let [low, high] = random.pick(&[[SAME, SAME], [[SAME[0], 0], [SAME[0], 1]], [SAME, [SAME[1], SAME[0]]]]);
    let named = |blames: &[u8]| build::instance(next, &[build::value(number), build::value(PARTY)], blames);
    let below_0 = build::binary(Operator::Less, &build::value(READ), &build::number(0));
    let then = build::if_clause(&below_0, &named(&low), &named(&high));
    let within = random.pick(&[0, 20, 60, 400]);
    let owed = build::Wait { then: then.clone(), ..build::simple(within) };
    match random.below(5) {
        0 => owed.choice(&build::simple(60).obligation(SAME[1])),
        // Its window is past at once: the else takes every reading.
        1 | 2 => build::Wait { then, ..build::simple(-1) }.choice(&owed.obligation(SAME[0])),
        _ => owed.obligation(SAME[0]),
    }
}

/// Template 0 is fulfilled by a reading that makes template 1 into both of them: at the time of activation the units
/// are the same as before, or only their join is another.
fn taking_turns(random: &mut Random) -> Vec<u8> {
    let (ends, stays) = (build::instance(0, &[], &[]), build::instance(1, &[], &[]));
    let (both, either) = (build::and(&ends, &stays), build::or(&ends, &stays));
    let within = random.between(20, 400) as i32;
    let owed = |then: Vec<u8>| build::Wait { then, ..build::simple(within) }.obligation(0);
    let turned = if random.chance(50) { both.clone() } else { either };
    let templates = [build::fulfilled(), turned].map(|then| build::template(&[], 0, 1, &owed(then)));
    build::agreement(start(random), 1, &[build::reading_type(&[])], &templates, &owed(both))
}

/// Waits for any reading of type 1 from so many minutes after its activation on for so long, then is fulfilled.
fn opening(after: i32, within: i32) -> build::Wait {
    build::Wait { after: build::number(after), ..build::simple(within) }
}

/// Waits joined, most of whose windows open minutes after their activation.
fn opening_later(random: &mut Random) -> Vec<u8> {
    let count = random.pick(&[1, 1, 2, 2, 3, 4, 8]);
    let main = crowd(random, count, &mut |random| later(random, 0, 2));
    let readings = [build::reading_type(&[Type::Number]), build::reading_type(&[Type::Number])];
    // Near the end of 32 bits no reading is later.
    let start = if random.chance(80) { random.pick(&[0, 100, 5_000_000]) } else { start(random) };
    build::agreement(start, 1, &readings, &[], &main)
}

/// Such a wait, with so many values in sight and so many waits in its `then` or else at most.
fn later(random: &mut Random, in_sight: u8, more: usize) -> Vec<u8> {
    let low = build::binary(Operator::Less, &build::value(in_sight), &build::number(250));
    let condition = match random.below(3) {
        0 => build::truth(1),
        1 => build::not(&low),
        _ => low,
    };
    let after = random.pick(&[-5, 0, 1, 5, 10, 20, 30, 60, 60, 500, 1_000_000]);
    let within = random.pick(&[0, 1, 5, 20, 60, 300, 300, 300, -1, -10]);
    let then = match more {
        1.. if random.chance(50) => later(random, in_sight + 2, more - 1),
        _ => build::fulfilled(),
    };
    let reading = random.pick(&[1, 1, 2]);
    let wait = build::Wait { reading, condition, then, ..opening(after, within) };
    match more {
        1.. if random.chance(40) => wait.choice(&later(random, in_sight, more - 1)),
        _ => wait.obligation(0),
    }
}

/// A reading in the minute of activation replaces units by equal ones, so that nothing alters, and it comes before the
/// window of some unit opens: of one beside them, of one that is past as well, of one that an `or` drops, or only of
/// one in an else.
fn early_unaltered(random: &mut Random) -> Vec<u8> {
    let named = |template| build::instance(template, &[], &[]);
    let minutes = random.pick(&[1, 2, 5, 60, 1_000]);
    let (open, to_open) = (opening(random.pick(&[0, 0, -5]), 300), opening(minutes, 300));
    let past_too = opening(minutes, -1 - minutes);
    let again = |then: &[u8]| build::Wait { then: then.to_vec(), ..opening(-2, 300) }.obligation(0);
    let (bodies, main) = match random.below(8) {
        0..=3 => beside_renewed(random, &to_open, again(&named(0))),
        4 => (vec![past_too.choice(&again(&named(0)))], named(0)),
        5 => {
            let main = build::or(&named(0), &named(1));
            (vec![past_too.obligation(0), again(&main)], main)
        }
        6 => {
            let main = build::and(&build::or(&named(0), &named(1)), &named(2));
            (vec![to_open.obligation(0), open.obligation(0), again(&main)], main)
        }
        _ => {
            let dropped = build::or(&to_open.obligation(0), &open.obligation(0));
            let otherwise = build::and(&dropped, &again(&named(0)));
            (vec![build::simple(-1).choice(&otherwise)], named(0))
        }
    };
    let templates: Vec<_> = bodies.iter().map(|body| build::template(&[], 0, 1, body)).collect();
    build::agreement(start(random), 1, &[build::reading_type(&[Type::Number])], &templates, &main)
}

/// A unit to open beside template 0, which a reading replaces by its equal through its `then` or through its else; or
/// template 0 alone.
fn beside_renewed(random: &mut Random, to_open: &build::Wait, renewed: Vec<u8>) -> (Vec<Vec<u8>>, Vec<u8>) {
    let named = build::instance(0, &[], &[]);
    let past = opening(random.pick(&[0, -5, -5]), -1);
    let body = if random.chance(40) { renewed } else { past.choice(&renewed) };
    let beside = if random.chance(50) { to_open.obligation(0) } else { to_open.choice(&build::fulfilled()) };
    let main = match random.below(6) {
        0 | 1 => build::and(&beside, &named),
        2 => build::and(&named, &beside),
        3 => build::or(&beside, &named),
        4 => build::or(&named, &beside),
        _ => named,
    };
    (vec![body], main)
}

/// A start time.
pub fn start(random: &mut Random) -> u32 {
    let any = random.draw() as u32;
    random.pick(&[0, 1, 100, 1_000, 5_000_000, 4_294_967_000, u32::MAX, any])
}

/// What a template says before its clause, and the width that its body keeps to.
struct Head {
    values: Vec<Type>,
    parameters: u8,
    declared: u16,
    width: usize,
}

/// Where a clause is to stand.
#[derive(Clone)]
struct Spot {
    sight: Vec<Type>,
    /// The blame bytes of the parties that it may have.
    members: Vec<u8>,
    /// Instances name templates below this.
    below: usize,
    depth: usize,
    width: usize,
}

struct Maker<'r> {
    random: &'r mut Random,
    shape: &'static Shape,
    parties: u8,
    readings: Vec<Vec<Type>>,
    heads: Vec<Head>,
    /// About the bytes that are left for the body in the making.
    room: usize,
}

impl<'r> Maker<'r> {
    fn new(random: &'r mut Random, shape: &'static Shape) -> Maker<'r> {
        let parties = random.pick(&[1, 2, 2, 3, 3, 4, 5, 8, 16]);
        let reading_count = random.pick(&[1, 1, 2, 2, 3, 4, 16]);
        let readings = (0..reading_count).map(|_| types(random, &[0, 1, 1, 2, 3, 4])).collect();
        let template_count = random.below(shape.templates + 1);
        let heads = (0..template_count).map(|_| head(random, shape, parties)).collect();
        Maker { random, shape, parties, readings, heads, room: 0 }
    }

    fn agreement(mut self) -> Vec<u8> {
        let share = self.shape.room / (self.heads.len() + 1);
        let templates: Vec<_> = (0..self.heads.len()).map(|n| self.template(n, share)).collect();
        self.room = share;
        let spot = Spot {
            sight: Vec::new(),
            members: self.main_members(),
            below: self.heads.len(),
            depth: 2,
            width: self.shape.width,
        };
        let main = self.main(&spot);
        let readings: Vec<_> = self.readings.iter().map(|types| build::reading_type(types)).collect();
        build::agreement(start(self.random), self.parties, &readings, &templates, &main)
    }

    /// Any clause, often one that begins with a join.
    fn main(&mut self, spot: &Spot) -> Vec<u8> {
        match self.random.below(10) {
            0..=3 => {
                let (left, right) = self.sides(spot);
                build::and(&left, &right)
            }
            4 | 5 => self.or(spot),
            _ => self.clause(spot),
        }
    }

    /// All parties, or some of them.
    fn main_members(&mut self) -> Vec<u8> {
        let all = (1u32 << self.parties) - 1;
        let bits = if self.random.chance(50) { all } else { self.random.subset(all) };
        constants(bits)
    }

    fn template(&mut self, n: usize, room: usize) -> Vec<u8> {
        self.room = room;
        let head = &self.heads[n];
        let parameters = (0..head.parameters).map(|p| FIRST_PARAMETER + p);
        let members = constants(u32::from(head.declared)).into_iter().chain(parameters).collect();
        let spot = Spot { sight: head.values.clone(), members, below: n, depth: 3, width: head.width };
        let body = self.clause(&spot);
        let head = &self.heads[n];
        build::template(&head.values, head.parameters, head.declared, &body)
    }

    fn spend(&mut self, bytes: usize) {
        self.room = self.room.saturating_sub(bytes);
    }

    fn clause(&mut self, spot: &Spot) -> Vec<u8> {
        self.spend(6);
        match self.kind(spot) {
            16 => build::fulfilled(),
            17 => {
                let blame = self.random.pick(&spot.members);
                self.wait(spot).obligation(blame)
            }
            18 => {
                let wait = self.wait(spot);
                let otherwise = self.clause(&Spot { width: spot.width - 1, ..inside(spot) });
                wait.choice(&otherwise)
            }
            19 => {
                let condition = self.expression(Type::Truth, &spot.sight, spot.depth + 1, self.shape.fuel);
                let (left, right) = self.sides(spot);
                build::if_clause(&condition, &left, &right)
            }
            20 => {
                let (left, right) = self.sides(spot);
                build::and(&left, &right)
            }
            21 => self.or(spot),
            _ => self.instance(spot),
        }
    }

    /// A kind that is possible at the spot; a short one once the room is used up.
    fn kind(&mut self, spot: &Spot) -> u16 {
        let mut weights = self.shape.weights;
        let inner = spot.depth < DEEPEST;
        let waits = inner && !self.fitting_readings(spot).is_empty();
        let roomy = self.room > 0;
        let possible = [
            true,
            waits && !spot.members.is_empty(),
            waits && spot.width >= 2 && roomy,
            inner && spot.width >= 3 && roomy,
            inner && spot.width >= 3 && roomy,
            inner && spot.width >= 3 && roomy,
            !self.candidates(spot).is_empty(),
        ];
        for (weight, possible) in weights.iter_mut().zip(possible) {
            *weight *= usize::from(possible);
        }
        if weights.iter().all(|weight| *weight == 0) {
            return 16;
        }
        16 + self.random.weighted(&weights) as u16
    }

    /// The reading types whose values and the remaining time may still come into sight.
    fn fitting_readings(&self, spot: &Spot) -> Vec<u8> {
        let fits = |types: &Vec<Type>| spot.sight.len() + types.len() < SIGHT;
        (1..).zip(&self.readings).filter(|(_, types)| fits(types)).map(|(number, _)| number).collect()
    }

    fn wait(&mut self, spot: &Spot) -> build::Wait {
        let fitting = self.fitting_readings(spot);
        let reading = self.random.pick(&fitting);
        let mut sight = spot.sight.clone();
        sight.extend(&self.readings[usize::from(reading) - 1]);
        let condition = self.condition(spot.sight.len(), &sight, spot.depth + 1);
        let after = self.after(&spot.sight, spot.depth + 1);
        let within = self.within(&spot.sight, spot.depth + 1);
        sight.push(Type::Number);
        build::Wait { reading, condition, after, within, then: self.then(spot, sight) }
    }

    fn then(&mut self, spot: &Spot, sight: Vec<Type>) -> Vec<u8> {
        if self.room == 0 || self.random.chance(20) {
            return build::fulfilled();
        }
        let width = 1 + self.random.below(self.shape.width);
        self.clause(&Spot { sight, width, below: self.heads.len(), ..inside(spot) })
    }

    /// Two clauses that share the width.
    fn sides(&mut self, spot: &Spot) -> (Vec<u8>, Vec<u8>) {
        let width = spot.width - 1;
        let left = if self.random.chance(60) { width / 2 } else { 1 + self.random.below(width - 1) };
        let first = self.clause(&Spot { width: left, ..inside(spot) });
        let second = self.clause(&Spot { width: width - left, ..inside(spot) });
        (first, second)
    }

    /// An `or`, whose sides have at most one member together.
    fn or(&mut self, spot: &Spot) -> Vec<u8> {
        let members = self.random.any(&spot.members).into_iter().collect();
        let (left, right) = self.sides(&Spot { members, ..spot.clone() });
        build::or(&left, &right)
    }

    /// The templates that may be named at the spot.
    fn candidates(&self, spot: &Spot) -> Vec<u8> {
        let allowed = |n: usize| {
            let head = &self.heads[n];
            let parties = constants(u32::from(head.declared)).iter().all(|party| spot.members.contains(party));
            let blames = head.parameters == 0 || !spot.members.is_empty();
            let deep = head.values.is_empty() || spot.depth < DEEPEST;
            parties && blames && deep && head.width < spot.width
        };
        (0..spot.below).filter(|n| allowed(*n)).map(|n| n as u8).collect()
    }

    fn instance(&mut self, spot: &Spot) -> Vec<u8> {
        let candidates = self.candidates(spot);
        let template = self.random.pick(&candidates);
        let head = &self.heads[usize::from(template)];
        let (types, parameters) = (head.values.clone(), head.parameters);
        let fuel = self.shape.fuel;
        let values: Vec<_> =
            types.iter().map(|wanted| self.expression(*wanted, &spot.sight, spot.depth + 1, fuel)).collect();
        let blames: Vec<_> = (0..parameters).map(|_| self.random.pick(&spot.members)).collect();
        build::instance(template, &values, &blames)
    }

    /// A `where`: often true, often about the reading's own values.
    fn condition(&mut self, own: usize, sight: &[Type], depth: usize) -> Vec<u8> {
        let numbers: Vec<_> = names(sight, Type::Number).into_iter().filter(|n| usize::from(*n) >= own).collect();
        let compared = self.random.any(&numbers).filter(|_| depth + 2 <= DEEPEST);
        match (self.random.below(10), compared) {
            (0..=3, _) => build::truth(1),
            (4..=6, Some(name)) => self.comparison(name),
            _ => self.expression(Type::Truth, sight, depth, self.shape.fuel),
        }
    }

    /// A value against a threshold.
    fn comparison(&mut self, name: u8) -> Vec<u8> {
        self.spend(30);
        let threshold = build::number(self.random.pick(&[0, 5, 10, 250, 250, -20, 999_999_999]));
        let operator = self.random.pick(&[Operator::Less, Operator::Less, Operator::Equal]);
        let compared = build::binary(operator, &build::value(name), &threshold);
        if self.random.chance(50) {
            build::not(&compared)
        } else {
            compared
        }
    }

    fn after(&mut self, sight: &[Type], depth: usize) -> Vec<u8> {
        let literal = self.random.pick(&[0, 0, 0, 0, 1, 5, 10, 30, 60, -1, -5, -20, -1_000_000_000]);
        self.duration(literal, sight, depth)
    }

    fn within(&mut self, sight: &[Type], depth: usize) -> Vec<u8> {
        let literal = self.random.pick(&[0, 1, 5, 10, 20, 50, 60, 60, 100, 200, 1_000, -1, -5, 1_000_000_000]);
        self.duration(literal, sight, depth)
    }

    fn duration(&mut self, literal: i32, sight: &[Type], depth: usize) -> Vec<u8> {
        self.spend(8);
        if self.random.chance(80) {
            build::number(literal)
        } else {
            self.expression(Type::Number, sight, depth, self.shape.fuel)
        }
    }

    fn expression(&mut self, wanted: Type, sight: &[Type], depth: usize, fuel: usize) -> Vec<u8> {
        self.spend(8);
        let leaf = fuel == 0 || depth == DEEPEST || self.room == 0 || wanted == Type::Party;
        if leaf || (fuel < 10 && self.random.chance(30)) {
            return self.leaf(wanted, sight);
        }
        let operator = match wanted {
            Type::Number => self.random.pick(&[Operator::Plus, Operator::Minus, Operator::Times, Operator::Quotient]),
            _ if self.random.chance(25) => {
                return build::not(&self.expression(Type::Truth, sight, depth + 1, fuel - 1));
            }
            _ => self.random.pick(&[Operator::And, Operator::Less, Operator::Equal]),
        };
        self.binary(operator, sight, depth, fuel - 1)
    }

    fn binary(&mut self, operator: Operator, sight: &[Type], depth: usize, fuel: usize) -> Vec<u8> {
        let operand = match operator {
            Operator::And => Type::Truth,
            Operator::Equal => self.random.pick(&TYPES),
            _ => Type::Number,
        };
        // One side may be long, the other stays short.
        let (short, long) = (fuel.min(1), fuel);
        let (first, second) = if self.random.chance(50) { (short, long) } else { (long, short) };
        let left = self.expression(operand, sight, depth + 1, first);
        let right = self.expression(operand, sight, depth + 1, second);
        build::binary(operator, &left, &right)
    }

    fn leaf(&mut self, wanted: Type, sight: &[Type]) -> Vec<u8> {
        let named = self.random.any(&names(sight, wanted));
        match (named, wanted) {
            (Some(name), _) if self.random.chance(60) => build::value(name),
            (_, Type::Number) => build::number(self.random.number()),
            (_, Type::Truth) => build::truth(self.random.below(2) as u8),
            (_, Type::Party) => build::party(self.random.below(usize::from(self.parties)) as u8),
        }
    }
}

/// The same spot one record further in.
fn inside(spot: &Spot) -> Spot {
    Spot { depth: spot.depth + 1, ..spot.clone() }
}

fn types(random: &mut Random, counts: &[usize]) -> Vec<Type> {
    (0..random.pick(counts)).map(|_| random.pick(&TYPES)).collect()
}

fn head(random: &mut Random, shape: &Shape, parties: u8) -> Head {
    let all = (1u32 << parties) - 1;
    let one = 1 << random.below(usize::from(parties));
    let some = random.subset(all);
    Head {
        values: types(random, &[0, 0, 1, 1, 2, 3, 5, 8]),
        parameters: random.pick(&[0, 0, 0, 1, 1, 2, 4]),
        declared: random.pick(&[0, one, one, one, some, all]) as u16,
        width: 1 + random.below(shape.width.min(40)),
    }
}

/// The blame bytes of constant parties.
fn constants(bits: u32) -> Vec<u8> {
    (0..16).filter(|party| bits >> party & 1 == 1).collect()
}

/// The values in sight that are of a type.
fn names(sight: &[Type], wanted: Type) -> Vec<u8> {
    (0..).zip(sight).filter(|(_, t)| **t == wanted).map(|(name, _)| name).collect()
}
