//! A set of parties.

use std::fmt;

/// A set of parties: bit n stands for party n, and parties count from 0 to 15.
///
/// ```
/// let parties = givuntha::Parties::from_bits(0b101);
/// assert!(parties.contains(2));
/// assert_eq!(parties.iter().collect::<Vec<_>>(), [0, 2]);
/// assert_eq!(parties.to_string(), "0, 2");
/// ```
#[derive(Clone, Copy, Debug, Default, PartialEq, Eq, Hash)]
pub struct Parties(u16);

impl Parties {
    pub fn from_bits(bits: u16) -> Parties {
        Parties(bits)
    }

    pub fn bits(self) -> u16 {
        self.0
    }

    pub fn is_empty(self) -> bool {
        self.0 == 0
    }

    pub fn contains(self, party: u8) -> bool {
        party < 16 && self.0 >> party & 1 == 1
    }

    /// The parties in rising order.
    pub fn iter(self) -> impl Iterator<Item = u8> {
        (0..16).filter(move |&party| self.contains(party))
    }
}

impl fmt::Display for Parties {
    fn fmt(&self, f: &mut fmt::Formatter<'_>) -> fmt::Result {
        let names: Vec<_> = self.iter().map(|party| party.to_string()).collect();
        f.write_str(&names.join(", "))
    }
}
