//! Text into a record.

use crate::encode::encode;
use crate::fault::{utf8, Fault};
use crate::model::Agreement;
use crate::parse::parse;
use crate::resolve::{resolve, Resolved};

/// An agreement from its text.
pub struct Assembled {
    /// With the names of the text, and with byte places.
    pub agreement: Agreement,
    /// Whether the start was written as a date, so that times are to be shown as dates too.
    pub dated: bool,
    /// The agreement record. `check` decides whether it is accepted.
    pub bytes: Vec<u8>,
}

/// Reads the text and keeps to the limits of the record; types, guards, widths and parties are not looked at.
/// Of several faults the first is told.
pub fn assemble(text: &[u8]) -> Result<Assembled, Fault> {
    let tree = parse(utf8(text)?)?;
    let Resolved { agreement, faults, .. } = resolve(&tree);
    match (agreement, faults.into_iter().next()) {
        (Some(agreement), None) => Ok(Assembled::of(agreement, tree.dated)),
        (_, Some(fault)) => Err(fault),
        // Only a fault keeps an agreement from being one.
        (None, None) => Fault::err(tree.main.from, "a text that stands for no record"),
    }
}

impl Assembled {
    pub(crate) fn of(mut agreement: Agreement, dated: bool) -> Assembled {
        let bytes = encode(&mut agreement);
        Assembled { agreement, dated, bytes }
    }
}
