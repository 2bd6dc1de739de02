//! Sizes: refusal 15, "in a sized agreement a body's need is above its declared units or the main clause's above 128".

use super::needs::{declared, need};
use crate::fault::Fault;
use crate::limits;
use crate::syntax::Agreement;

/// The number of this refusal.
const REFUSAL: u32 = 15;

/// Every body that needs more than is declared, and the main clause where it needs too much.
pub fn faults(tree: &Agreement) -> Vec<Fault> {
    let Some(units) = declared(tree) else { return Vec::new() };
    let mut faults = Vec::new();
    for (template, declared) in tree.templates.iter().zip(&units) {
        let need = need(&template.body, tree, &units);
        if let (Some(over), Some(place)) = (over(need, *declared), &template.units) {
            let name = &template.name.text;
            let what = format!(
                "the body of `{name}` needs {need} units, {over} over the {declared} that it declares; \
                 `agreement sizes` tells how many would do"
            );
            faults.push(place.fault(what).refused(REFUSAL));
        }
    }
    let need = need(&tree.main, tree, &units);
    if let Some(over) = over(need, limits::UNITS) {
        let what = format!("the main clause needs {need} units, {over} over the {} there may be", limits::UNITS);
        faults.push(Fault::new(tree.main.from, what).refused(REFUSAL));
    }
    faults
}

fn over(need: usize, most: usize) -> Option<usize> {
    need.checked_sub(most).filter(|over| *over > 0)
}
