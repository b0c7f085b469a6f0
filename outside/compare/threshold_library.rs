//! The calls over tables of thresholds, as C and Rust call them: those of the list form, with an image in place of the table
//! in memory; and the translation, where the archive has it (`--cfg translation`).

use crate::library::Call;

extern "C" {
    pub fn siren_threshold_check(image: *const u8, length: usize, out: *mut u64) -> u64;
    pub fn siren_threshold_quorum(image: *const u8, length: usize, set: u64, out: *mut u64) -> u64;
    pub fn siren_threshold_largest(image: *const u8, length: usize, set: u64, out: *mut u64) -> u64;
    pub fn siren_threshold_blocks(image: *const u8, length: usize, set: u64, site: u64, out: *mut u64) -> u64;
    pub fn siren_threshold_shared(image: *const u8, length: usize, out: *mut u64) -> u64;
    pub fn siren_threshold_intact(image: *const u8, length: usize, faulty: u64, out: *mut u64) -> u64;
    pub fn siren_threshold_sound(
        image: *const u8,
        length: usize,
        faulty: u64,
        state: *const u64,
        state_length: usize,
        out: *mut u64,
    ) -> u64;
    pub fn siren_threshold_step(
        image: *const u8,
        length: usize,
        faulty: u64,
        state: *mut u64,
        state_length: usize,
        kind: u8,
        from: u8,
        to: u8,
        side: u8,
        out: *mut u64,
    ) -> u64;
    pub fn siren_threshold_run(
        image: *const u8,
        length: usize,
        faulty: u64,
        calls: *const u8,
        calls_length: usize,
        state: *mut u64,
        state_length: usize,
        answers: *mut u8,
        answers_length: usize,
        out: *mut u64,
    ) -> u64;
    pub fn siren_threshold_run_records(
        image: *const u8,
        length: usize,
        faulty: u64,
        calls: *const Call,
        count: usize,
        state: *mut u64,
        state_length: usize,
        answers: *mut u8,
        answers_length: usize,
        out: *mut u64,
    ) -> u64;
    #[cfg(translation)]
    pub fn siren_threshold_translate(
        image: *const u8,
        length: usize,
        room: *mut u64,
        room_length: usize,
        out: *mut u64,
    ) -> u64;
}

/// Where the archive has no translation, the model's stands in: the calls of both forms are compared over the table that the
/// model gives, and the translation itself is not compared with anything.
#[cfg(not(translation))]
pub unsafe fn siren_threshold_translate(
    image: *const u8,
    length: usize,
    room: *mut u64,
    room_length: usize,
    out: *mut u64,
) -> u64 {
    let lent = |length: usize| length != 0;
    let image = if lent(length) { std::slice::from_raw_parts(image, length) } else { &[] };
    let room = if lent(room_length) { std::slice::from_raw_parts_mut(room, room_length) } else { &mut [] };
    let answer = crate::model::thresholds::translate(image, room);
    let [first, second, third] = answer.values;
    std::slice::from_raw_parts_mut(out, 4).copy_from_slice(&[answer.place, first, second, third]);
    answer.number
}
