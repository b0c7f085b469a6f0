//! The library as C and Rust call it: the functions of include/siren.h and of include/siren_firmware.h.
//!
//! Each answers the number of the refusal, 0 if there is none, and writes four numbers to `out`: the place of the
//! refusal, then the values.

/// `siren_call`: one call of a list, as a record. Four bytes of a list, in their order, are one.
#[repr(C)]
pub struct Call {
    pub kind: u8,
    pub from: u8,
    pub to: u8,
    pub side: u8,
}

extern "C" {
    pub fn siren_table_check(table: *const u64, length: usize, out: *mut u64) -> u64;
    pub fn siren_image_read(image: *const u8, length: usize, room: *mut u64, room_length: usize, out: *mut u64) -> u64;
    pub fn siren_image_write(table: *const u64, length: usize, room: *mut u8, room_length: usize, out: *mut u64)
        -> u64;
    pub fn siren_quorum(table: *const u64, length: usize, set: u64, out: *mut u64) -> u64;
    pub fn siren_largest(table: *const u64, length: usize, set: u64, out: *mut u64) -> u64;
    pub fn siren_blocks(table: *const u64, length: usize, set: u64, site: u64, out: *mut u64) -> u64;
    pub fn siren_shared(table: *const u64, length: usize, out: *mut u64) -> u64;
    pub fn siren_intact(table: *const u64, length: usize, faulty: u64, out: *mut u64) -> u64;
    pub fn siren_sound(
        table: *const u64,
        length: usize,
        faulty: u64,
        state: *const u64,
        state_length: usize,
        out: *mut u64,
    ) -> u64;
    pub fn siren_step(
        table: *const u64,
        length: usize,
        faulty: u64,
        state: *mut u64,
        state_length: usize,
        kind: u8,
        from: u8,
        to: u8,
        side: u8,
        out: *mut u64,
    ) -> u64;
    pub fn siren_run(
        table: *const u64,
        length: usize,
        faulty: u64,
        calls: *const u8,
        calls_length: usize,
        state: *mut u64,
        state_length: usize,
        answers: *mut u8,
        answers_length: usize,
        out: *mut u64,
    ) -> u64;
    pub fn siren_run_records(
        table: *const u64,
        length: usize,
        faulty: u64,
        calls: *const Call,
        count: usize,
        state: *mut u64,
        state_length: usize,
        answers: *mut u8,
        answers_length: usize,
        out: *mut u64,
    ) -> u64;
    pub fn siren_journal_check(journal: *const u8, length: usize, out: *mut u64) -> u64;
    pub fn siren_journal_write(
        calls: *const u8,
        calls_length: usize,
        room: *mut u8,
        room_length: usize,
        out: *mut u64,
    ) -> u64;
    pub fn siren_journal_list(
        journal: *const u8,
        length: usize,
        room: *mut u8,
        room_length: usize,
        out: *mut u64,
    ) -> u64;
    pub fn siren_journal_next(journal: *const u8, length: usize, place: u64, out: *mut u64) -> u64;
    pub fn siren_block_check(block: *const u8, length: usize) -> u8;
    pub fn siren_site_mark(site: u64, confirmed_drill: u64, confirmed_live: u64) -> u8;
}
