//! The proved library's entries, as include/givuntha.h declares them, given a call of the reference's generators.

use reference::generate::{Answer, Call, Entry};
use reference::{Checked, Forecast, Started, Taken};
use std::ffi::{c_int, c_void};

extern "C" {
    fn givuntha_check(agreement: *const u8, bytes: usize, parties: *mut u64) -> u32;
    fn givuntha_start(
        agreement: *const u8,
        bytes: usize,
        table: *mut i64,
        cells: usize,
        time: *mut u64,
        parties: *mut u64,
    ) -> u32;
    fn givuntha_reading(
        agreement: *const u8,
        bytes: usize,
        table: *mut i64,
        cells: usize,
        reading: *const u8,
        reading_bytes: usize,
        time: *mut u64,
        parties: *mut u64,
        early: *mut u64,
        cost: *mut u64,
    ) -> u32;
    fn givuntha_preview(
        agreement: *const u8,
        bytes: usize,
        table: *const i64,
        cells: usize,
        reading: *const u8,
        reading_bytes: usize,
        second: *mut i64,
        second_cells: usize,
        time: *mut u64,
        parties: *mut u64,
        early: *mut u64,
        cost: *mut u64,
    ) -> u32;
}

/// What a result holds before a call that must write it.
const UNWRITTEN: u64 = 0x5555_5555_5555_5555;

pub fn check(agreement: &[u8]) -> Checked {
    let mut parties = UNWRITTEN;
    // SAFETY: the pointers come from references, valid for the lengths beside them and apart from each other.
    let number = unsafe { givuntha_check(agreement.as_ptr(), agreement.len(), &mut parties) };
    Checked { number, parties: small(parties) }
}

pub fn start(agreement: &[u8], table: &mut [i64]) -> Started {
    let (mut time, mut parties) = (UNWRITTEN, UNWRITTEN);
    let (bytes, cells) = (agreement.len(), table.len());
    let (agreement, table) = (agreement.as_ptr(), table.as_mut_ptr());
    // SAFETY: as in `check`.
    let number = unsafe { givuntha_start(agreement, bytes, table, cells, &mut time, &mut parties) };
    Started { number, forecast: told(time, parties) }
}

pub fn reading(agreement: &[u8], table: &mut [i64], reading: &[u8]) -> Taken {
    let [mut time, mut parties, mut early, mut cost] = [UNWRITTEN; 4];
    // SAFETY: as in `check`.
    let number = unsafe {
        givuntha_reading(
            agreement.as_ptr(),
            agreement.len(),
            table.as_mut_ptr(),
            table.len(),
            reading.as_ptr(),
            reading.len(),
            &mut time,
            &mut parties,
            &mut early,
            &mut cost,
        )
    };
    Taken { number, early: small(early), cost, forecast: told(time, parties) }
}

pub fn preview(agreement: &[u8], table: &[i64], reading: &[u8], second: &mut [i64]) -> Taken {
    let [mut time, mut parties, mut early, mut cost] = [UNWRITTEN; 4];
    // SAFETY: as in `check`.
    let number = unsafe {
        givuntha_preview(
            agreement.as_ptr(),
            agreement.len(),
            table.as_ptr(),
            table.len(),
            reading.as_ptr(),
            reading.len(),
            second.as_mut_ptr(),
            second.len(),
            &mut time,
            &mut parties,
            &mut early,
            &mut cost,
        )
    };
    Taken { number, early: small(early), cost, forecast: told(time, parties) }
}

/// What the reference never gives, where the result is too large.
fn small(result: u64) -> u32 {
    u32::try_from(result).unwrap_or(u32::MAX)
}

/// None only where both are 0, so that one without the other, and any on a refusal, is what the reference never gives.
fn told(time: u64, parties: u64) -> Forecast {
    let breach = (i64::try_from(time).unwrap_or(i64::MAX), small(parties));
    (breach != (0, 0)).then_some(breach)
}

/// What the proved library answers to a call. A result that is not zero where it should be, or that no
/// `Answer` can hold, becomes one that the reference never gives.
pub fn answer(call: &Call) -> Answer {
    let agreement = &call.agreement;
    match &call.entry {
        Entry::Check => Answer::Check(check(agreement)),
        Entry::Start { table } => {
            let (Started { number, forecast }, table) = lend(table, |cells| start(agreement, cells));
            Answer::Start { number, forecast, table }
        }
        Entry::Reading { table, reading: bytes } => {
            let (taken, table) = lend(table, |cells| reading(agreement, cells, bytes));
            let Taken { number, early, cost, forecast } = taken;
            Answer::Reading { number, early, cost, forecast, table }
        }
        Entry::Preview { table, reading, second } => {
            let previewed = |cells: &mut [i64]| lend_to_read(table, |first| preview(agreement, first, reading, cells));
            let (taken, second) = lend(second, previewed);
            let Taken { number, early, cost, forecast } = taken;
            Answer::Preview { number, early, cost, forecast, second }
        }
    }
}

/// Cells before and after a lent table, which no call may alter.
const FENCE: usize = 32;

/// Lends a table from the middle of a longer run of cells. A cell altered outside it is an abort: nothing
/// that follows could be trusted.
fn lend<T>(table: &[i64], call: impl FnOnce(&mut [i64]) -> T) -> (T, Vec<i64>) {
    let mut cells = vec![i64::MIN; table.len() + 2 * FENCE];
    let end = FENCE + table.len();
    cells[FENCE..end].copy_from_slice(table);
    let answer = call(&mut cells[FENCE..end]);
    let outside = cells[..FENCE].iter().chain(&cells[end..]);
    assert!(outside.into_iter().all(|cell| *cell == i64::MIN), "a cell outside the lent table was altered");
    (answer, cells[FENCE..end].to_vec())
}

/// The cells of a page of memory.
const PAGE: usize = 512;
/// What a page allows, as Linux numbers it.
const READ: c_int = 1;
const WRITE: c_int = 2;

extern "C" {
    /// The C library's: what whole pages allow from now on.
    fn mprotect(start: *mut c_void, bytes: usize, access: c_int) -> c_int;
}

/// Lends a table that is only read, from the middle of pages that allow no more meanwhile: a call that writes a cell of
/// it, or one beside it, ends the program, even if it writes what stands there.
fn lend_to_read<T>(table: &[i64], call: impl FnOnce(&[i64]) -> T) -> T {
    let length = (table.len() + 2 * FENCE).next_multiple_of(PAGE);
    let mut cells = vec![i64::MIN; length + PAGE];
    let start = cells.as_ptr().align_offset(PAGE * size_of::<i64>());
    let pages = &mut cells[start..start + length];
    pages[FENCE..FENCE + table.len()].copy_from_slice(table);
    allow(pages, READ);
    let answer = call(&pages[FENCE..FENCE + table.len()]);
    allow(pages, READ | WRITE);
    answer
}

fn allow(pages: &mut [i64], access: c_int) {
    let (start, bytes) = (pages.as_mut_ptr().cast(), size_of_val(pages));
    // SAFETY: whole pages, which nothing else uses while these cells are borrowed.
    let failed = unsafe { mprotect(start, bytes, access) };
    assert_eq!(failed, 0, "the access to a page cannot be changed");
}
