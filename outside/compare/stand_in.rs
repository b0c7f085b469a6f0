//! A stand-in for the library: the fast functions of the benchmark behind the library's functions for C. With it the
//! comparison can be tried without the library, and with mistakes put in on purpose: see the script `selftest`.

#![allow(clippy::missing_safety_doc)]

#[path = "../bench/fast.rs"]
mod fast;
#[path = "../model/model.rs"]
mod model;
mod threshold_stand_in;

use model::Answer;
use std::slice::{from_raw_parts as lent, from_raw_parts_mut as room};

unsafe fn give(answer: Answer, out: *mut u64) -> u64 {
    let [first, second, third] = answer.values;
    room(out, 4).copy_from_slice(&[answer.place, first, second, third]);
    answer.number
}

#[no_mangle]
pub unsafe extern "C" fn siren_table_check(table: *const u64, length: usize, out: *mut u64) -> u64 {
    give(fast::table_check(lent(table, length)), out)
}

#[no_mangle]
pub unsafe extern "C" fn siren_image_read(
    image: *const u8,
    length: usize,
    cells: *mut u64,
    cells_length: usize,
    out: *mut u64,
) -> u64 {
    give(fast::image_read(lent(image, length), room(cells, cells_length)), out)
}

#[no_mangle]
pub unsafe extern "C" fn siren_image_write(
    table: *const u64,
    length: usize,
    bytes: *mut u8,
    bytes_length: usize,
    out: *mut u64,
) -> u64 {
    give(fast::image_write(lent(table, length), room(bytes, bytes_length)), out)
}

#[no_mangle]
pub unsafe extern "C" fn siren_quorum(table: *const u64, length: usize, set: u64, out: *mut u64) -> u64 {
    give(fast::quorum(lent(table, length), set), out)
}

#[no_mangle]
pub unsafe extern "C" fn siren_largest(table: *const u64, length: usize, set: u64, out: *mut u64) -> u64 {
    give(fast::largest(lent(table, length), set), out)
}

#[no_mangle]
pub unsafe extern "C" fn siren_blocks(table: *const u64, length: usize, set: u64, site: u64, out: *mut u64) -> u64 {
    give(fast::blocks(lent(table, length), set, site), out)
}

#[no_mangle]
pub unsafe extern "C" fn siren_shared(table: *const u64, length: usize, out: *mut u64) -> u64 {
    give(fast::shared(lent(table, length)), out)
}

#[no_mangle]
pub unsafe extern "C" fn siren_intact(table: *const u64, length: usize, faulty: u64, out: *mut u64) -> u64 {
    give(fast::intact(lent(table, length), faulty), out)
}

#[no_mangle]
pub unsafe extern "C" fn siren_sound(
    table: *const u64,
    length: usize,
    faulty: u64,
    state: *const u64,
    state_length: usize,
    out: *mut u64,
) -> u64 {
    give(fast::sound(lent(table, length), faulty, lent(state, state_length)), out)
}

#[no_mangle]
pub unsafe extern "C" fn siren_step(
    table: *const u64,
    length: usize,
    faulty: u64,
    state: *mut u64,
    state_length: usize,
    kind: u8,
    from: u8,
    to: u8,
    side: u8,
    out: *mut u64,
) -> u64 {
    give(fast::step(lent(table, length), faulty, room(state, state_length), [kind, from, to, side]), out)
}

#[no_mangle]
pub unsafe extern "C" fn siren_run(
    table: *const u64,
    length: usize,
    faulty: u64,
    calls: *const u8,
    calls_length: usize,
    state: *mut u64,
    state_length: usize,
    answers: *mut u8,
    answers_length: usize,
    out: *mut u64,
) -> u64 {
    let (table, calls) = (lent(table, length), lent(calls, calls_length));
    give(fast::run(table, faulty, calls, room(state, state_length), room(answers, answers_length)), out)
}

#[no_mangle]
pub unsafe extern "C" fn siren_run_records(
    table: *const u64,
    length: usize,
    faulty: u64,
    calls: *const [u8; 4],
    count: usize,
    state: *mut u64,
    state_length: usize,
    answers: *mut u8,
    answers_length: usize,
    out: *mut u64,
) -> u64 {
    let (table, calls) = (lent(table, length), lent(calls, count));
    give(fast::run_records(table, faulty, calls, room(state, state_length), room(answers, answers_length)), out)
}

#[no_mangle]
pub unsafe extern "C" fn siren_journal_check(journal: *const u8, length: usize, out: *mut u64) -> u64 {
    give(fast::journal_check(lent(journal, length)), out)
}

#[no_mangle]
pub unsafe extern "C" fn siren_journal_write(
    calls: *const u8,
    calls_length: usize,
    bytes: *mut u8,
    bytes_length: usize,
    out: *mut u64,
) -> u64 {
    give(fast::journal_write(lent(calls, calls_length), room(bytes, bytes_length)), out)
}

#[no_mangle]
pub unsafe extern "C" fn siren_journal_list(
    journal: *const u8,
    length: usize,
    bytes: *mut u8,
    bytes_length: usize,
    out: *mut u64,
) -> u64 {
    give(fast::journal_list(lent(journal, length), room(bytes, bytes_length)), out)
}

#[no_mangle]
pub unsafe extern "C" fn siren_journal_next(journal: *const u8, length: usize, place: u64, out: *mut u64) -> u64 {
    give(fast::journal_next(lent(journal, length), place), out)
}

#[no_mangle]
pub unsafe extern "C" fn siren_block_check(block: *const u8, length: usize) -> u8 {
    fast::block_check(lent(block, length))
}

#[no_mangle]
pub extern "C" fn siren_site_mark(site: u64, confirmed_drill: u64, confirmed_live: u64) -> u8 {
    fast::mark(site, confirmed_drill, confirmed_live)
}
