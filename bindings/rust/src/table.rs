//! A table of one's own.

use crate::entries::{self, Breach, Taken};
use crate::refusal::Refusal;
use crate::refused::Refused;
use crate::state::{State, Times};

/// How many cells a table has.
pub const CELLS: usize = 3080;

/// A table of one's own: the state of a run, which needs nothing else but the agreement's bytes.
///
/// It may be made of stored cells, and these may be anything: each call judges them.
///
/// ```
/// use givuntha::{record, Refusal, Refused, Table};
///
/// let mut damaged = Table::default();
/// damaged.cells_mut()[0] = 9;
/// let agreement = [20, 0, 1, 0, 9, 0, 0, 0, 1, 1, 0, 5, 0, 2, 0, 0, 4, 0, 16, 0];
/// let refused = damaged.reading(&agreement, &record::mark(9));
/// assert_eq!(refused, Err(Refused::Other(Refusal::TableContent)));
/// ```
#[derive(Clone, Debug, PartialEq, Eq)]
pub struct Table(Box<[i64; CELLS]>);

impl Table {
    /// The table of an agreement at its start, and its forecast: the breach that comes without readings, or none; see
    /// [`start`](crate::start).
    pub fn start(agreement: &[u8]) -> Result<(Table, Option<Breach>), Refusal> {
        let mut table = Table::default();
        let ahead = entries::start(agreement, table.cells_mut())?;
        Ok((table, ahead))
    }

    /// Gives the run a reading, and answers the forecast of the table afterwards, whether the reading came too early
    /// and what it cost; see [`reading`](crate::reading).
    pub fn reading(&mut self, agreement: &[u8], reading: &[u8]) -> Result<Taken, Refused> {
        entries::reading(agreement, self.cells_mut(), reading)
    }

    /// Tells what a reading would do, and the table that the run would have after it; this one stays as it is. To go on
    /// with the other is to have entered the reading. See [`preview`](crate::preview).
    ///
    /// ```
    /// use givuntha::{record, State, Table};
    ///
    /// // From minute 100 on; party 0 owes the reading after 100 minutes within 60, that is from 200 to 260.
    /// let agreement = [
    ///     47, 0, 1, 0, 100, 0, 0, 0, 1, 1, 0, 5, 0, 2, 0, 0, 31, 0, 17, 0, 0, 1, 5, 0, 33, 0, 1, 8, 0, 32, 0, 100, 0,
    ///     0, 0, 8, 0, 32, 0, 60, 0, 0, 0, 4, 0, 16, 0,
    /// ];
    /// let (mut table, _) = Table::start(&agreement)?;
    /// let (_, late) = table.preview(&agreement, &record::mark(261))?;
    /// assert!(matches!(late.state(), Some(State::Breached(breach)) if breach.time == 260));
    /// let given = record::reading(200, 1, &[]);
    /// let (foreseen, after) = table.preview(&agreement, &given)?;
    /// assert_eq!((after.state(), table.state()), (Some(State::Fulfilled), Some(State::Running)));
    /// assert_eq!(table.reading(&agreement, &given)?, foreseen);
    /// assert_eq!(table, after);
    /// # Ok::<(), givuntha::Refusal>(())
    /// ```
    pub fn preview(&self, agreement: &[u8], reading: &[u8]) -> Result<(Taken, Table), Refused> {
        let mut after = Table::default();
        let taken = entries::preview(agreement, self.cells(), reading, after.cells_mut())?;
        Ok((taken, after))
    }

    /// What the head says; see [`State::of`].
    pub fn state(&self) -> Option<State> {
        State::of(self.cells())
    }

    /// When the run was last read and when it last moved; see [`Times::of`].
    pub fn times(&self) -> Option<Times> {
        Times::of(self.cells())
    }

    pub fn cells(&self) -> &[i64; CELLS] {
        &self.0
    }

    pub fn cells_mut(&mut self) -> &mut [i64; CELLS] {
        &mut self.0
    }
}

/// All zeros: no run's table.
impl Default for Table {
    fn default() -> Table {
        Table(Box::new([0; CELLS]))
    }
}

impl From<Box<[i64; CELLS]>> for Table {
    fn from(cells: Box<[i64; CELLS]>) -> Table {
        Table(cells)
    }
}
