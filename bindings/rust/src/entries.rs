//! The four entries on lent memory.
//!
//! Why the calls are right, for each of them alike: a slice's pointer is not null and aligned, also where the slice is
//! empty, and the slice is as long as its length says; what is lent as `&mut` overlaps nothing else and nobody else
//! uses it meanwhile; nobody writes what is lent as `&`; the library keeps no pointer and has no state. Too small a
//! stack stops the program, since the library touches each page that it takes. This is all that `include/givuntha.h`
//! asks of a caller: every content is allowed, the contracts require nothing of it.

use crate::parties::Parties;
use crate::raw;
use crate::refusal::Refusal;
use crate::refused::Refused;

/// No reading costs more: it is at most 65,792 for each of 128 units.
pub const MOST_COST: u64 = 8_421_376;

/// A breach: its time in minutes, and who is to blame, at least one party.
///
/// The forecast of a table is what its run comes to without further readings, a breach or none: [`start`], [`reading`]
/// and [`preview`] tell it of the table that they write. Of a breached table it is the verdict, of a fulfilled one
/// none.
#[derive(Clone, Copy, Debug, PartialEq, Eq, Hash)]
pub struct Breach {
    /// A forecast time may exceed 32 bits.
    pub time: u64,
    pub parties: Parties,
}

/// What is told of a reading that was accepted, or would be.
///
/// ```
/// use givuntha::{record, Breach, Parties, Table, Taken};
///
/// // From minute 100 on; party 0 owes the reading after 100 minutes within 60, that is from 200 to 260.
/// let agreement = [
///     47, 0, 1, 0, 100, 0, 0, 0, 1, 1, 0, 5, 0, 2, 0, 0, 31, 0, 17, 0, 0, 1, 5, 0, 33, 0, 1, 8, 0, 32, 0, 100, 0, 0,
///     0, 8, 0, 32, 0, 60, 0, 0, 0, 4, 0, 16, 0,
/// ];
/// let (mut table, ahead) = Table::start(&agreement)?;
/// assert_eq!(ahead, Some(Breach { time: 260, parties: Parties::from_bits(1) }));
/// // One unit is read; then it is read once more, and fulfilled is activated.
/// assert_eq!(table.reading(&agreement, &record::reading(140, 1, &[]))?, Taken { ahead, early: true, cost: 1 });
/// assert_eq!(table.reading(&agreement, &record::reading(200, 1, &[]))?, Taken { ahead: None, early: false, cost: 2 });
/// # Ok::<(), givuntha::Refusal>(())
/// ```
#[derive(Clone, Copy, Debug, PartialEq, Eq, Hash)]
pub struct Taken {
    /// The forecast of the table that the reading leaves, or would; of a breached one the verdict.
    pub ahead: Option<Breach>,
    /// Whether it came too early: the run was running, no unit or state altered, and at least one waiting unit wants
    /// this type, finds `where` true, and has a window that opens later than the reading. The reading does not count
    /// for that window.
    pub early: bool,
    /// What it cost: one for each unit in use, and one for each clause activated. An else that follows the same reading
    /// is not counted again for that; sides that are later dropped count. On a fulfilled or breached table it is 0. It
    /// is at most 65,792 for each unit in use, so at most [`MOST_COST`].
    pub cost: u64,
}

/// The library's version: 10,000 times its first number, 100 times its second, and its third.
///
/// ```
/// assert_eq!(givuntha::version(), 100);
/// ```
pub fn version() -> u32 {
    // SAFETY: nothing is lent.
    unsafe { raw::givuntha_version() }
}

/// Checks an agreement of any bytes, and answers the parties that it can blame.
///
/// ```
/// assert_eq!(givuntha::check(&[4, 0, 1, 0]), Err(givuntha::Refusal::AgreementForm));
/// ```
pub fn check(agreement: &[u8]) -> Result<Parties, Refusal> {
    let mut parties = 0;
    // SAFETY: `agreement` and `parties` are borrowed for the call, apart from each other; see above.
    let answer = unsafe { raw::givuntha_check(agreement.as_ptr(), agreement.len(), &mut parties) };
    Refusal::answer(answer)?;
    Ok(party_set(parties))
}

/// Starts a run in lent cells, whatever they held before, and answers the forecast: the breach that comes without
/// readings, or none. A refusal leaves the cells.
///
/// ```
/// // Fulfilled from the start, so no breach is ahead.
/// let agreement = [20, 0, 1, 0, 100, 0, 0, 0, 1, 1, 0, 5, 0, 2, 0, 0, 4, 0, 16, 0];
/// assert_eq!(givuntha::start(&agreement, &mut [0; 3080]), Ok(None));
/// assert_eq!(givuntha::start(&agreement, &mut [0; 3079]), Err(givuntha::Refusal::TableLength));
/// ```
pub fn start(agreement: &[u8], table: &mut [i64]) -> Result<Option<Breach>, Refusal> {
    let (mut time, mut parties) = (0, 0);
    // SAFETY: all four are borrowed for the call, `table` and the two results apart from all else; see above.
    let answer = unsafe {
        raw::givuntha_start(
            agreement.as_ptr(),
            agreement.len(),
            table.as_mut_ptr(),
            table.len(),
            &mut time,
            &mut parties,
        )
    };
    Refusal::answer(answer)?;
    Ok(ahead(time, parties))
}

/// Gives the run in lent cells a reading of any bytes, and answers the forecast of the cells afterwards, whether the
/// reading came too early and what it cost. A refusal leaves the cells; once breached, so does an accepted reading.
///
/// ```
/// use givuntha::{reading, record, start, State, Taken, Times};
///
/// // Fulfilled from the start; there is one type of reading, without values.
/// let agreement = [20, 0, 1, 0, 100, 0, 0, 0, 1, 1, 0, 5, 0, 2, 0, 0, 4, 0, 16, 0];
/// let mut cells = vec![0; givuntha::CELLS];
/// start(&agreement, &mut cells)?;
/// let taken = reading(&agreement, &mut cells, &record::reading(120, 1, &[]))?;
/// assert_eq!(taken, Taken { ahead: None, early: false, cost: 0 });
/// assert_eq!(State::of(&cells), Some(State::Fulfilled));
/// assert_eq!(Times::of(&cells), Some(Times { last_reading: 120, last_moved: 100 }));
/// # Ok::<(), givuntha::Refusal>(())
/// ```
pub fn reading(agreement: &[u8], table: &mut [i64], reading: &[u8]) -> Result<Taken, Refused> {
    let (mut time, mut parties, mut early, mut cost) = (0, 0, 0, 0);
    // SAFETY: all seven are borrowed for the call, `table` and the four results apart from all else; see above.
    let answer = unsafe {
        raw::givuntha_reading(
            agreement.as_ptr(),
            agreement.len(),
            table.as_mut_ptr(),
            table.len(),
            reading.as_ptr(),
            reading.len(),
            &mut time,
            &mut parties,
            &mut early,
            &mut cost,
        )
    };
    taken(answer, time, parties, early, cost)
}

/// Tells what a reading of any bytes would do to the run in lent cells, which are only read: it writes the cells of the
/// run after the reading into the second ones, and answers what [`reading`] would answer on a copy of the first. To go
/// on with the second cells is to have entered the reading. A refusal leaves them; what they held does not matter.
/// Either is refused with 6 where it is not as long as a table.
///
/// ```
/// use givuntha::{preview, reading, record, start, Refusal, Refused, State};
///
/// // From minute 100 on; party 0 owes the reading after 100 minutes within 60, that is from 200 to 260.
/// let agreement = [
///     47, 0, 1, 0, 100, 0, 0, 0, 1, 1, 0, 5, 0, 2, 0, 0, 31, 0, 17, 0, 0, 1, 5, 0, 33, 0, 1, 8, 0, 32, 0, 100, 0, 0,
///     0, 8, 0, 32, 0, 60, 0, 0, 0, 4, 0, 16, 0,
/// ];
/// let mut cells = vec![0; givuntha::CELLS];
/// start(&agreement, &mut cells)?;
/// let mut second = vec![-1; givuntha::CELLS];
/// assert!(preview(&agreement, &cells, &record::reading(140, 1, &[]), &mut second)?.early);
/// let given = record::reading(200, 1, &[]);
/// let foreseen = preview(&agreement, &cells, &given, &mut second)?;
/// assert_eq!((State::of(&second), State::of(&cells)), (Some(State::Fulfilled), Some(State::Running)));
/// assert_eq!(reading(&agreement, &mut cells, &given)?, foreseen);
/// assert_eq!(cells, second);
/// let short = preview(&agreement, &cells, &given, &mut second[1..]);
/// assert_eq!(short, Err(Refused::Other(Refusal::TableLength)));
/// # Ok::<(), givuntha::Refusal>(())
/// ```
pub fn preview(agreement: &[u8], table: &[i64], reading: &[u8], second: &mut [i64]) -> Result<Taken, Refused> {
    let (mut time, mut parties, mut early, mut cost) = (0, 0, 0, 0);
    // SAFETY: all eight are borrowed for the call, `second` and the four results apart from all else; see above.
    let answer = unsafe {
        raw::givuntha_preview(
            agreement.as_ptr(),
            agreement.len(),
            table.as_ptr(),
            table.len(),
            reading.as_ptr(),
            reading.len(),
            second.as_mut_ptr(),
            second.len(),
            &mut time,
            &mut parties,
            &mut early,
            &mut cost,
        )
    };
    taken(answer, time, parties, early, cost)
}

/// What the answer to a reading or to a preview says with its four results.
fn taken(answer: u32, time: u64, parties: u64, early: u64, cost: u64) -> Result<Taken, Refused> {
    Refused::answer(answer, cost)?;
    Ok(Taken { ahead: ahead(time, parties), early: is_set(early), cost })
}

/// A breach has always a party, so without one there is none ahead.
fn ahead(time: u64, parties: u64) -> Option<Breach> {
    let parties = party_set(parties);
    (!parties.is_empty()).then_some(Breach { time, parties })
}

/// A mark is 1 or 0; another number would break the entries' proved contracts.
fn is_set(mark: u64) -> bool {
    assert!(mark <= 1, "a mark of 1 or 0");
    mark == 1
}

/// An agreement has at most 16 parties, so more bits would break the entries' proved contracts.
fn party_set(bits: u64) -> Parties {
    Parties::from_bits(u16::try_from(bits).expect("parties below 16"))
}
