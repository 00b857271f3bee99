//! The calls as include/bahrufaz.h declares them.

extern "C" {
    pub fn bahrufaz_build(
        draft: *const u8,
        draft_length: usize,
        room: *mut u8,
        room_length: usize,
        results: *mut u32,
    ) -> u32;

    pub fn bahrufaz_admit(store: *const u8, store_length: usize) -> u32;

    pub fn bahrufaz_plan(
        store: *const u8,
        store_length: usize,
        pattern: *const u8,
        pattern_length: usize,
        room: *mut u32,
        room_length: usize,
        results: *mut u32,
    ) -> u32;

    pub fn bahrufaz_list(
        store: *const u8,
        store_length: usize,
        pattern: *const u8,
        pattern_length: usize,
        work: *mut u32,
        work_length: usize,
        room: *mut u32,
        room_length: usize,
        results: *mut u32,
    ) -> u32;
}

/// Bytes of stack that building and admitting take at most.
pub const BUILD_STACK: usize = 4 << 20;
/// Bytes of stack that planning and listing take at most.
pub const PLAN_STACK: usize = 64 << 10;
/// Always enough words for the rows of a plan.
pub const PLAN_WORDS: usize = 512;
/// Words of a plan row.
pub const PLAN_ROW: usize = 8;
/// What stands for a chosen node that there is not.
pub const NO_CHOSEN: u32 = 255;
/// The result of listing that has the upper 32 bits of the matches.
pub const MATCHES_UPPER: usize = 7;
