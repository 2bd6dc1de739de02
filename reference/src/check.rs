//! Typing, guards and widths, by the paper's section "Typing": refusals 3, 4 and 5; and the needs of
//! sized agreements, by paper 02, No. 7: refusal 15.

use crate::agreement::{Agreement, Clause, Expression, Instance, Late, Operator, Template, Type, Wait, MOST_UNITS};
use crate::Refusal;

/// "At most 16 are in sight."
pub const SIGHT: usize = 16;
/// "The main clause, each template body and each `then` has width at most 256."
const WIDEST: u32 = 256;
/// "128 to 131 for the template's party parameter 0 to 3"
pub const FIRST_PARAMETER: u8 = 128;

/// An agreement that none of check's conditions refuses.
pub struct Accepted<'a> {
    pub agreement: &'a Agreement,
    /// The main clause's parties by bit: those that the agreement can blame.
    pub parties: u32,
    /// Of a sized agreement: the main clause's need. "no residue reached from a sized agreement's
    /// start passes the main clause's need".
    pub need: Option<u32>,
    /// Every obligation and choice, in the order of their places.
    pub sites: Vec<Site<'a>>,
}

/// An obligation or choice and what holds where it stands.
pub struct Site<'a> {
    pub wait: &'a Wait,
    pub view: View,
    pub parties: Parties,
}

impl<'a> Accepted<'a> {
    /// The obligation or choice that begins at this byte place.
    pub fn site(&self, place: i64) -> Option<&Site<'a>> {
        let place = usize::try_from(place).ok()?;
        let index = self.sites.binary_search_by_key(&place, |site| site.wait.place).ok()?;
        Some(&self.sites[index])
    }
}

/// Decides 3, then 4, then 5, then 15.
pub fn accept(agreement: &Agreement) -> Result<Accepted<'_>, Refusal> {
    let mut typing = Typing { agreement, sites: Vec::new() };
    for template in &agreement.templates {
        typing.template(template)?;
    }
    let parties = typing.clause(&agreement.main, View::empty())?.constants();
    check_guards(agreement)?;
    check_widths(agreement)?;
    let need = check_needs(agreement)?;
    Ok(Accepted { agreement, parties, need, sites: typing.sites })
}

/// A set of parties: constant ones by bits 0 to 15, party parameters by bits 16 to 19.
#[derive(Clone, Copy, Debug, PartialEq, Eq)]
pub struct Parties(u32);

impl Parties {
    const NONE: Parties = Parties(0);

    fn declared(bits: u16) -> Parties {
        Parties(u32::from(bits))
    }

    fn union(self, other: Parties) -> Parties {
        Parties(self.0 | other.0)
    }

    /// Paper 02, No. 4: "use the count of ones that the language has, with no division or loop
    /// beside it". Every member, parameters too, is one bit.
    fn count(self) -> u32 {
        self.0.count_ones()
    }

    fn constants(self) -> u32 {
        self.0 & 0xFFFF
    }

    /// The parties by bit, once the parameters are known.
    pub fn resolve(self, parameters: &[i64; 4]) -> u32 {
        let given = (0..4).filter(|n| self.0 >> (16 + n) & 1 == 1).map(|n| 1 << parameters[n as usize]);
        given.fold(self.constants(), |bits, party: u32| bits | party)
    }
}

/// What is in sight: the types of the values, and the number of party parameters.
#[derive(Clone, Copy)]
pub struct View {
    types: [Type; SIGHT],
    count: usize,
    pub parameters: u8,
}

impl View {
    fn empty() -> View {
        View { types: [Type::Number; SIGHT], count: 0, parameters: 0 }
    }

    pub fn values(&self) -> &[Type] {
        &self.types[..self.count]
    }

    /// The same with further values bound after those in sight.
    fn with(mut self, bound: &[Type]) -> Result<View, Refusal> {
        let end = self.count + bound.len();
        self.types.get_mut(self.count..end).ok_or(Refusal::Typing)?.copy_from_slice(bound);
        self.count = end;
        Ok(self)
    }
}

struct Typing<'a> {
    agreement: &'a Agreement,
    sites: Vec<Site<'a>>,
}

impl<'a> Typing<'a> {
    /// "A template body's constant parties lie within its declared ones."
    fn template(&mut self, template: &'a Template) -> Result<(), Refusal> {
        let head = &template.head;
        let declared = u32::from(head.declared);
        ensure(declared >> self.agreement.parties == 0)?;
        let view = View { parameters: head.parameters, ..View::empty().with(&head.values)? };
        let parties = self.clause(&template.body, view)?;
        ensure(parties.constants() & !declared == 0)
    }

    /// The parties of a clause, if it is typed.
    fn clause(&mut self, clause: &'a Clause, view: View) -> Result<Parties, Refusal> {
        match clause {
            Clause::Fulfilled => Ok(Parties::NONE),
            Clause::Wait(wait) => self.wait(wait, view),
            Clause::If(condition, left, right) => {
                self.expect(Type::Truth, condition, &view)?;
                self.sides(left, right, view)
            }
            Clause::And(left, right) => self.sides(left, right, view),
            Clause::Or(left, right) => {
                let parties = self.sides(left, right, view)?;
                // "The two sides of an `or` together have at most one member; a parameter counts
                // as a member of its own."
                ensure(parties.count() <= 1)?;
                Ok(parties)
            }
            Clause::Instance(instance) => self.instance(instance, view),
        }
    }

    /// "of other clauses, those of their clause parts together"
    fn sides(&mut self, left: &'a Clause, right: &'a Clause, view: View) -> Result<Parties, Refusal> {
        Ok(self.clause(left, view)?.union(self.clause(right, view)?))
    }

    /// "`where` sees the reading's values too; `then` sees them and after them the remaining time.
    /// `after`, `within` and `else` see neither."
    fn wait(&mut self, wait: &'a Wait, view: View) -> Result<Parties, Refusal> {
        let types = self.reading_type(wait.reading)?;
        self.expect(Type::Number, &wait.after, &view)?;
        self.expect(Type::Number, &wait.within, &view)?;
        let seen = view.with(types)?;
        self.expect(Type::Truth, &wait.condition, &seen)?;
        let site = self.sites.len();
        self.sites.push(Site { wait, view, parties: Parties::NONE });
        let then = self.clause(&wait.then, seen.with(&[Type::Number])?)?;
        let late = match &wait.late {
            Late::Breach(blame) => self.blame(*blame, &view)?,
            Late::Else(otherwise) => self.clause(otherwise, view)?,
        };
        self.sites[site].parties = then.union(late);
        Ok(then.union(late))
    }

    /// "Parties and templates count from 0, reading types from 1."
    fn reading_type(&self, number: u8) -> Result<&'a [Type], Refusal> {
        let index = usize::from(number).checked_sub(1).ok_or(Refusal::Typing)?;
        self.agreement.readings.get(index).map(Vec::as_slice).ok_or(Refusal::Typing)
    }

    /// "A blame byte is a party below the party count, or 128 to 131 for the template's party
    /// parameter 0 to 3."
    fn blame(&self, blame: u8, view: &View) -> Result<Parties, Refusal> {
        if blame < FIRST_PARAMETER {
            ensure(blame < self.agreement.parties)?;
            return Ok(Parties(1 << blame));
        }
        let parameter = blame - FIRST_PARAMETER;
        ensure(parameter < view.parameters)?;
        Ok(Parties(1 << (16 + parameter)))
    }

    /// "of an instance, the template's declared parties and the instance's blames"
    fn instance(&self, instance: &Instance, view: View) -> Result<Parties, Refusal> {
        let head = &self.agreement.templates[instance.template].head;
        for (wanted, value) in head.values.iter().zip(&instance.values) {
            self.expect(*wanted, value, &view)?;
        }
        instance
            .blames
            .iter()
            .try_fold(Parties::declared(head.declared), |parties, blame| Ok(parties.union(self.blame(*blame, &view)?)))
    }

    fn expect(&self, wanted: Type, expression: &Expression, view: &View) -> Result<(), Refusal> {
        ensure(self.expression(expression, view)? == wanted)
    }

    fn expression(&self, expression: &Expression, view: &View) -> Result<Type, Refusal> {
        match expression {
            Expression::Number(number) => self.literal(Type::Number, i64::from(*number)),
            Expression::Truth(truth) => self.literal(Type::Truth, i64::from(*truth)),
            Expression::Party(party) => self.literal(Type::Party, i64::from(*party)),
            Expression::Value(name) => view.values().get(usize::from(*name)).copied().ok_or(Refusal::Typing),
            Expression::Not(operand) => {
                self.expect(Type::Truth, operand, view)?;
                Ok(Type::Truth)
            }
            Expression::Binary(operator, left, right) => self.binary(*operator, left, right, view),
        }
    }

    fn literal(&self, literal: Type, value: i64) -> Result<Type, Refusal> {
        ensure(literal.holds(value, self.agreement.parties))?;
        Ok(literal)
    }

    fn binary(&self, operator: Operator, left: &Expression, right: &Expression, view: &View) -> Result<Type, Refusal> {
        let operand = self.expression(left, view)?;
        self.expect(operand, right, view)?;
        let (wanted, result) = match operator {
            Operator::Plus | Operator::Minus | Operator::Times | Operator::Quotient => (Type::Number, Type::Number),
            Operator::And => (Type::Truth, Type::Truth),
            Operator::Less => (Type::Number, Type::Truth),
            // "43 equal (two of one type)"
            Operator::Equal => (operand, Type::Truth),
        };
        ensure(operand == wanted)?;
        Ok(result)
    }
}

fn ensure(condition: bool) -> Result<(), Refusal> {
    if condition {
        Ok(())
    } else {
        Err(Refusal::Typing)
    }
}

/// "In template n's body an unguarded instance names only a template below n."
fn check_guards(agreement: &Agreement) -> Result<(), Refusal> {
    let guarded = agreement.templates.iter().enumerate().all(|(n, template)| names_below(n, &template.body));
    if guarded {
        Ok(())
    } else {
        Err(Refusal::Guard)
    }
}

/// Whether the unguarded instances of a clause name only templates below n. "A position is guarded
/// if it lies in some `then` of kind 17 or 18": no `then` is looked into.
fn names_below(n: usize, clause: &Clause) -> bool {
    match clause {
        Clause::Fulfilled => true,
        Clause::Wait(wait) => match &wait.late {
            Late::Breach(_) => true,
            Late::Else(otherwise) => names_below(n, otherwise),
        },
        Clause::If(_, left, right) | Clause::And(left, right) | Clause::Or(left, right) => {
            names_below(n, left) && names_below(n, right)
        }
        Clause::Instance(instance) => instance.template < n,
    }
}

/// "The main clause, each template body and each `then` has width at most 256."
fn check_widths(agreement: &Agreement) -> Result<(), Refusal> {
    // Guards hold, so a body's width asks only for those of earlier bodies.
    let mut bodies = Vec::with_capacity(agreement.templates.len());
    for template in &agreement.templates {
        bodies.push(narrow(&template.body, &bodies)?);
    }
    narrow(&agreement.main, &bodies)?;
    agreement.templates.iter().try_for_each(|template| check_thens(&template.body, &bodies))?;
    check_thens(&agreement.main, &bodies)
}

/// The width of a clause, at most 256.
fn narrow(clause: &Clause, bodies: &[u32]) -> Result<u32, Refusal> {
    let width = width(clause, bodies);
    if width <= WIDEST {
        Ok(width)
    } else {
        Err(Refusal::Width)
    }
}

/// "Width: 1 for kinds 16 and 17; 1 and the else's for 18; 1 and both clauses' for 19, 20, 21; 1
/// and the body's for 22." No sum overflows: 16,384 bytes hold few clauses, each body is narrow.
fn width(clause: &Clause, bodies: &[u32]) -> u32 {
    match clause {
        Clause::Fulfilled => 1,
        Clause::Wait(wait) => match &wait.late {
            Late::Breach(_) => 1,
            Late::Else(otherwise) => 1 + width(otherwise, bodies),
        },
        Clause::If(_, left, right) | Clause::And(left, right) | Clause::Or(left, right) => {
            1 + width(left, bodies) + width(right, bodies)
        }
        Clause::Instance(instance) => 1 + bodies[instance.template],
    }
}

/// The width of every `then` in a clause.
fn check_thens(clause: &Clause, bodies: &[u32]) -> Result<(), Refusal> {
    match clause {
        Clause::Fulfilled | Clause::Instance(_) => Ok(()),
        Clause::Wait(wait) => {
            narrow(&wait.then, bodies)?;
            check_thens(&wait.then, bodies)?;
            match &wait.late {
                Late::Breach(_) => Ok(()),
                Late::Else(otherwise) => check_thens(otherwise, bodies),
            }
        }
        Clause::If(_, left, right) | Clause::And(left, right) | Clause::Or(left, right) => {
            check_thens(left, bodies)?;
            check_thens(right, bodies)
        }
    }
}

/// "in a sized agreement a body's need is above its declared units or the main clause's above 128".
/// Gives the main clause's need, if the agreement is sized.
fn check_needs(agreement: &Agreement) -> Result<Option<u32>, Refusal> {
    let Some(units) = agreement.declared_units() else { return Ok(None) };
    for (template, declared) in agreement.templates.iter().zip(&units) {
        need_within(&template.body, *declared, &units)?;
    }
    need_within(&agreement.main, MOST_UNITS, &units).map(Some)
}

/// The need of a clause, if it is not above the most.
fn need_within(clause: &Clause, most: u8, units: &[u8]) -> Result<u32, Refusal> {
    let need = need(clause, units);
    if need <= u32::from(most) {
        Ok(need)
    } else {
        Err(Refusal::Need)
    }
}

/// How many units a clause needs, the templates declaring these: "The need of fulfilled is 0. For an
/// obligation it is the larger of 1 and the need of `then`. For a choice it is the largest of 1 and
/// the needs of its two clauses. For an if it is the larger of both. For `and` and `or` it is 1 and
/// both together. An instance needs its template's units." No sum overflows: 16,384 bytes hold few
/// clauses.
pub fn need(clause: &Clause, units: &[u8]) -> u32 {
    match clause {
        Clause::Fulfilled => 0,
        Clause::Wait(wait) => {
            let then = need(&wait.then, units).max(1);
            match &wait.late {
                Late::Breach(_) => then,
                Late::Else(otherwise) => then.max(need(otherwise, units)),
            }
        }
        Clause::If(_, left, right) => need(left, units).max(need(right, units)),
        Clause::And(left, right) | Clause::Or(left, right) => 1 + need(left, units) + need(right, units),
        Clause::Instance(instance) => u32::from(units[instance.template]),
    }
}
