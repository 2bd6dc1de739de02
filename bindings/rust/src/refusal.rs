//! Why an entry refuses.

use std::error::Error;
use std::fmt;

/// Why an entry refuses: the first that applies, in the order that they have here. That is the order of their numbers,
/// but for 15, which comes after 5 and before 6. A refusal leaves every table as it was.
///
/// [`check`](crate::check) refuses with 1 to 5 and 15, [`start`](crate::start) with these, 6 and 11,
/// [`reading`](crate::reading) and [`preview`](crate::preview) with all, as a [`Refused`](crate::Refused).
///
/// ```
/// let refusal = givuntha::check(&[]).unwrap_err();
/// assert_eq!(refusal, givuntha::Refusal::AgreementLength);
/// assert_eq!(refusal.number(), 1);
/// assert_eq!(
///     refusal.to_string(),
///     "agreement under 4 or over 16,384 bytes, or not as long as its length says"
/// );
/// ```
#[derive(Clone, Copy, Debug, PartialEq, Eq, PartialOrd, Ord, Hash)]
#[non_exhaustive]
pub enum Refusal {
    AgreementLength,
    AgreementForm,
    AgreementTyping,
    AgreementGuards,
    AgreementWidth,
    AgreementSize,
    TableLength,
    TableContent,
    ReadingForm,
    ReadingTyping,
    ReadingTime,
    Units,
    /// A number that this package does not know: the library is newer than it.
    Unknown(u32),
}

impl Refusal {
    /// All refusals that are known, in their order.
    pub const ALL: [Refusal; 12] = [
        Refusal::AgreementLength,
        Refusal::AgreementForm,
        Refusal::AgreementTyping,
        Refusal::AgreementGuards,
        Refusal::AgreementWidth,
        Refusal::AgreementSize,
        Refusal::TableLength,
        Refusal::TableContent,
        Refusal::ReadingForm,
        Refusal::ReadingTyping,
        Refusal::ReadingTime,
        Refusal::Units,
    ];

    /// The paper's number, from 1 on.
    pub fn number(self) -> u32 {
        match self {
            Refusal::AgreementLength => 1,
            Refusal::AgreementForm => 2,
            Refusal::AgreementTyping => 3,
            Refusal::AgreementGuards => 4,
            Refusal::AgreementWidth => 5,
            Refusal::AgreementSize => 15,
            Refusal::TableLength => 6,
            Refusal::TableContent => 7,
            Refusal::ReadingForm => 8,
            Refusal::ReadingTyping => 9,
            Refusal::ReadingTime => 10,
            Refusal::Units => 11,
            Refusal::Unknown(number) => number,
        }
    }

    /// The refusal with this number.
    ///
    /// ```
    /// assert_eq!(givuntha::Refusal::of(11), givuntha::Refusal::Units);
    /// assert_eq!(givuntha::Refusal::of(15), givuntha::Refusal::AgreementSize);
    /// assert_eq!(givuntha::Refusal::of(99).number(), 99);
    /// ```
    pub fn of(number: u32) -> Refusal {
        let known = Refusal::ALL.iter().find(|refusal| refusal.number() == number);
        known.copied().unwrap_or(Refusal::Unknown(number))
    }

    /// What an entry's answer says.
    pub(crate) fn answer(number: u32) -> Result<(), Refusal> {
        match number {
            0 => Ok(()),
            _ => Err(Refusal::of(number)),
        }
    }

    fn words(self) -> &'static str {
        match self {
            Refusal::AgreementLength => "agreement under 4 or over 16,384 bytes, or not as long as its length says",
            Refusal::AgreementForm => {
                "record, count, type byte or nesting not as under Records, templates of kinds 3 and 4 mixed, units \
                 above 128, or an instance naming no template"
            }
            Refusal::AgreementTyping => {
                "not typed; name, literal, blame or declared party out of range; over 16 in sight"
            }
            Refusal::AgreementGuards => "unguarded instance of its own or a later template",
            Refusal::AgreementWidth => "a width over 256",
            Refusal::AgreementSize => {
                "in a sized agreement a body's need above its declared units, or the main clause's above 128"
            }
            Refusal::TableLength => "table not 3,080 cells",
            Refusal::TableContent => {
                "table breaks its layout or typing, the time it last moved or a waiting unit's A not from start to \
                 last reading time, running without units, or a breach without party, with one not of the main \
                 clause, or with a time outside start to last reading"
            }
            Refusal::ReadingForm => {
                "reading not one whole record of kind 64: time (4 bytes), type (1), 0 to 4 values of 4 bytes, signed"
            }
            Refusal::ReadingTyping => {
                "type over the reading count, wrong value count, or value not of its type or out of its range (party \
                 below the party count, number as under Sources)"
            }
            Refusal::ReadingTime => "time below the last reading time",
            Refusal::Units => "the residue by the rules needs over 128 units",
            Refusal::Unknown(_) => "a refusal that this package does not know",
        }
    }
}

impl fmt::Display for Refusal {
    fn fmt(&self, f: &mut fmt::Formatter<'_>) -> fmt::Result {
        f.write_str(self.words())
    }
}

impl Error for Refusal {}
