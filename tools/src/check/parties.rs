//! Parties: the rest of refusal 3. "A template body's constant parties lie within its declared ones. The two sides of
//! an `or` together have at most one member".

use super::sight::{Member, Sight};
use super::words::listed;
use crate::fault::Fault;
use crate::syntax::{Agreement, Clause, Form, Instance, Name, Template, Wait};

/// The number of this refusal.
const REFUSAL: u32 = 3;

/// Every `or` where two parties meet, and every party that a template does not declare.
pub fn faults(tree: &Agreement) -> Vec<Fault> {
    let mut meeting = Meeting { tree, faults: Vec::new() };
    for template in &tree.templates {
        let parties = meeting.clause(&template.body, &Sight::of_template(tree, template));
        meeting.declared(template, &parties);
    }
    meeting.clause(&tree.main, &Sight::of_main(tree));
    meeting.faults
}

/// A member of a clause's parties and the name that brings it in.
#[derive(Clone, Copy)]
struct Origin<'t> {
    member: Member,
    name: &'t Name,
    /// Whether the name is a template's, which declares the party.
    declared: bool,
}

/// Each member once, where it comes in first.
type Parties<'t> = Vec<Origin<'t>>;

fn add<'t>(parties: &mut Parties<'t>, more: impl IntoIterator<Item = Origin<'t>>) {
    for origin in more {
        if parties.iter().all(|known| known.member != origin.member) {
            parties.push(origin);
        }
    }
}

struct Meeting<'t> {
    tree: &'t Agreement,
    faults: Vec<Fault>,
}

impl<'t> Meeting<'t> {
    /// The parties of a clause.
    fn clause(&mut self, clause: &'t Clause, sight: &Sight<'t>) -> Parties<'t> {
        match &clause.form {
            Form::Fulfilment => Vec::new(),
            Form::Obligation(blame, wait) => {
                let mut parties = blamed(blame, sight).into_iter().collect();
                add(&mut parties, self.then(wait, sight));
                parties
            }
            Form::Choice(wait, otherwise) => {
                let mut parties = self.then(wait, sight);
                add(&mut parties, self.optional(otherwise.as_deref(), sight));
                parties
            }
            Form::If(_, then, otherwise) => {
                let mut parties = self.clause(then, sight);
                add(&mut parties, self.optional(otherwise.as_deref(), sight));
                parties
            }
            Form::And(left, right) => self.sides(left, right, sight),
            Form::Or(left, right) => self.or(clause, left, right, sight),
            Form::Instance(instance) => self.instance(instance, sight),
        }
    }

    fn optional(&mut self, clause: Option<&'t Clause>, sight: &Sight<'t>) -> Parties<'t> {
        clause.map(|clause| self.clause(clause, sight)).unwrap_or_default()
    }

    fn then(&mut self, wait: &'t Wait, sight: &Sight<'t>) -> Parties<'t> {
        self.optional(wait.then.as_deref(), &sight.after(wait))
    }

    fn sides(&mut self, left: &'t Clause, right: &'t Clause, sight: &Sight<'t>) -> Parties<'t> {
        let mut parties = self.clause(left, sight);
        add(&mut parties, self.clause(right, sight));
        parties
    }

    /// "of an instance, the template's declared parties and the instance's blames"
    fn instance(&self, instance: &'t Instance, sight: &Sight<'t>) -> Parties<'t> {
        let mut parties = Vec::new();
        let name = &instance.template;
        let known = self.tree.templates.iter().find(|template| template.name.text == name.text);
        let numbers = known.map(|template| self.numbers(template)).unwrap_or_default();
        let declared = numbers.into_iter().map(|party| Origin { member: Member::Party(party), name, declared: true });
        add(&mut parties, declared);
        add(&mut parties, instance.parties.iter().filter_map(|blame| blamed(blame, sight)));
        parties
    }

    /// The declared parties of a template.
    fn numbers(&self, template: &Template) -> Vec<usize> {
        let number = |name: &Name| self.tree.parties.iter().position(|party| party.text == name.text);
        template.declared.iter().filter_map(number).collect()
    }

    /// A fault where more than one party meet, unless all of them met in an `or` that is a side of this one.
    fn or(&mut self, or: &Clause, left: &'t Clause, right: &'t Clause, sight: &Sight<'t>) -> Parties<'t> {
        let (one, other) = (self.clause(left, sight), self.clause(right, sight));
        let met = [(left, &one), (right, &other)].map(|(side, parties)| match side.form {
            Form::Or(..) => parties.len(),
            _ => 0,
        });
        let mut parties = one;
        add(&mut parties, other);
        if parties.len() > 1 && !met.contains(&parties.len()) {
            let told: Vec<String> = parties.iter().map(|origin| origin_told(origin, sight)).collect();
            let what = format!("{} meet in this `or`, whose two sides together may have one party", listed(&told));
            self.faults.push(Fault::new(or.at, what).of_length("or".len()).refused(REFUSAL));
        }
        parties
    }

    fn declared(&mut self, template: &'t Template, parties: &[Origin<'t>]) {
        let declared = self.numbers(template);
        let is_missing = |origin: &&Origin| matches!(origin.member, Member::Party(n) if !declared.contains(&n));
        let missing: Vec<&Origin> = parties.iter().filter(is_missing).collect();
        let sight = Sight::of_template(self.tree, template);
        let names = template.declared.iter().map(|name| name.text.as_str());
        let all: Vec<&str> = names.chain(missing.iter().map(|origin| sight.name(origin.member))).collect();
        for origin in missing {
            let party = sight.name(origin.member);
            let how = if origin.declared { format!(", whom `{}` declares", origin.name.text) } else { String::new() };
            let what = format!(
                "`{}` does not declare `{party}`{how}: `declares {}` would do",
                template.name.text,
                all.join(", ")
            );
            self.faults.push(origin.name.fault(what).refused(REFUSAL));
        }
    }
}

fn blamed<'t>(name: &'t Name, sight: &Sight<'t>) -> Option<Origin<'t>> {
    sight.member(&name.text).map(|member| Origin { member, name, declared: false })
}

fn origin_told(origin: &Origin, sight: &Sight) -> String {
    let name = sight.name(origin.member);
    match origin {
        Origin { declared: true, name: template, .. } => {
            format!("`{name}` (declared by `{}`, {})", template.text, template.at)
        }
        Origin { member: Member::Parameter(_), name: blame, .. } => {
            format!("`{name}` (a party parameter, {})", blame.at)
        }
        Origin { name: blame, .. } => format!("`{name}` ({})", blame.at),
    }
}
