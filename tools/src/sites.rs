//! The obligations and choices of an agreement with what holds where they stand.

use crate::model::{Agreement, Blame, Clause, Late, Wait};
use crate::print::Sight;

pub struct Site<'a> {
    pub wait: &'a Wait,
    /// The names in sight there.
    pub sight: Sight,
}

/// All obligations and choices.
pub fn sites(agreement: &Agreement) -> Vec<Site<'_>> {
    let mut sites = Vec::new();
    for template in &agreement.templates {
        collect(&template.body, &Sight::of_template(&template.head), &mut sites);
    }
    collect(&agreement.main, &Sight::default(), &mut sites);
    sites
}

fn collect<'a>(clause: &'a Clause, sight: &Sight, sites: &mut Vec<Site<'a>>) {
    match clause {
        Clause::Fulfilled | Clause::Instance(_) => {}
        Clause::Wait(wait) => {
            sites.push(Site { wait, sight: sight.clone() });
            collect(&wait.then, &sight.after(wait), sites);
            if let Late::Else(otherwise) = &wait.late {
                collect(otherwise, sight, sites);
            }
        }
        Clause::If(_, left, right) | Clause::And(left, right) | Clause::Or(left, right) => {
            collect(left, sight, sites);
            collect(right, sight, sites);
        }
    }
}

/// The parties of a clause by bit, the party parameters being as given. "The parties of an
/// obligation are its blame and those of `then`; of an instance, the template's declared parties and
/// the instance's blames; of other clauses, those of their clause parts together."
pub fn parties(clause: &Clause, agreement: &Agreement, parameters: &[usize]) -> u32 {
    let of = |clause: &Clause| parties(clause, agreement, parameters);
    match clause {
        Clause::Fulfilled => 0,
        Clause::Wait(wait) => wait_parties(wait, agreement, parameters),
        Clause::If(_, left, right) | Clause::And(left, right) | Clause::Or(left, right) => of(left) | of(right),
        Clause::Instance(instance) => {
            let declared = agreement.templates.get(instance.template).map_or(0, |template| template.head.declared);
            let blamed = instance.blames.iter().fold(0, |bits, blame| bits | bit(*blame, parameters));
            u32::from(declared) | blamed
        }
    }
}

pub fn wait_parties(wait: &Wait, agreement: &Agreement, parameters: &[usize]) -> u32 {
    let late = match &wait.late {
        Late::Breach(blame) => bit(*blame, parameters),
        Late::Else(otherwise) => parties(otherwise, agreement, parameters),
    };
    late | parties(&wait.then, agreement, parameters)
}

/// The party that a blame stands for. A parameter that is not given stands for none.
pub fn blamed(blame: Blame, parameters: &[usize]) -> Option<usize> {
    match blame {
        Blame::Party(party) => Some(party),
        Blame::Parameter(parameter) => parameters.get(parameter).copied(),
    }
}

fn bit(blame: Blame, parameters: &[usize]) -> u32 {
    blamed(blame, parameters).map_or(0, |party| 1 << party)
}
