//! The C functions, as `include/givuntha.h` declares them.

extern "C" {
    pub fn givuntha_version() -> u32;

    pub fn givuntha_check(agreement: *const u8, agreement_bytes: usize, parties: *mut u64) -> u32;

    pub fn givuntha_start(
        agreement: *const u8,
        agreement_bytes: usize,
        table: *mut i64,
        table_cells: usize,
        time: *mut u64,
        parties: *mut u64,
    ) -> u32;

    pub fn givuntha_reading(
        agreement: *const u8,
        agreement_bytes: usize,
        table: *mut i64,
        table_cells: usize,
        reading: *const u8,
        reading_bytes: usize,
        time: *mut u64,
        parties: *mut u64,
        early: *mut u64,
        cost: *mut u64,
    ) -> u32;

    pub fn givuntha_preview(
        agreement: *const u8,
        agreement_bytes: usize,
        table: *const i64,
        table_cells: usize,
        reading: *const u8,
        reading_bytes: usize,
        second: *mut i64,
        second_cells: usize,
        time: *mut u64,
        parties: *mut u64,
        early: *mut u64,
        cost: *mut u64,
    ) -> u32;
}
