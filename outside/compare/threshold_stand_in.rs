//! A stand-in for the library's calls over tables of thresholds: those of the benchmark behind the library's functions for C.

use crate::fast::thresholds::{self as fast, BY_LIST, BY_SEARCH, IN_LANES};
use crate::give;
use std::slice::{from_raw_parts as lent, from_raw_parts_mut as room};

#[no_mangle]
pub unsafe extern "C" fn siren_threshold_check(image: *const u8, length: usize, out: *mut u64) -> u64 {
    give(fast::check(lent(image, length), IN_LANES), out)
}

#[no_mangle]
pub unsafe extern "C" fn siren_threshold_quorum(image: *const u8, length: usize, set: u64, out: *mut u64) -> u64 {
    give(fast::quorum(lent(image, length), set), out)
}

#[no_mangle]
pub unsafe extern "C" fn siren_threshold_largest(image: *const u8, length: usize, set: u64, out: *mut u64) -> u64 {
    give(fast::largest(lent(image, length), set, IN_LANES), out)
}

#[no_mangle]
pub unsafe extern "C" fn siren_threshold_blocks(
    image: *const u8,
    length: usize,
    set: u64,
    site: u64,
    out: *mut u64,
) -> u64 {
    give(fast::blocks(lent(image, length), set, site), out)
}

#[no_mangle]
pub unsafe extern "C" fn siren_threshold_shared(image: *const u8, length: usize, out: *mut u64) -> u64 {
    give(fast::shared(lent(image, length), IN_LANES), out)
}

#[no_mangle]
pub unsafe extern "C" fn siren_threshold_intact(image: *const u8, length: usize, faulty: u64, out: *mut u64) -> u64 {
    give(fast::intact(lent(image, length), faulty, IN_LANES), out)
}

#[no_mangle]
pub unsafe extern "C" fn siren_threshold_sound(
    image: *const u8,
    length: usize,
    faulty: u64,
    state: *const u64,
    state_length: usize,
    out: *mut u64,
) -> u64 {
    give(fast::sound(lent(image, length), faulty, lent(state, state_length)), out)
}

#[no_mangle]
pub unsafe extern "C" fn siren_threshold_step(
    image: *const u8,
    length: usize,
    faulty: u64,
    state: *mut u64,
    state_length: usize,
    kind: u8,
    from: u8,
    to: u8,
    side: u8,
    out: *mut u64,
) -> u64 {
    give(fast::step(lent(image, length), faulty, room(state, state_length), [kind, from, to, side]), out)
}

#[no_mangle]
pub unsafe extern "C" fn siren_threshold_run(
    image: *const u8,
    length: usize,
    faulty: u64,
    calls: *const u8,
    calls_length: usize,
    state: *mut u64,
    state_length: usize,
    answers: *mut u8,
    answers_length: usize,
    out: *mut u64,
) -> u64 {
    let (image, calls) = (lent(image, length), lent(calls, calls_length));
    let (state, answers) = (room(state, state_length), room(answers, answers_length));
    give(fast::run(image, faulty, calls, state, answers, (IN_LANES, BY_SEARCH)), out)
}

/// Over a list of all sets where there is one, so that both ways are compared.
#[no_mangle]
pub unsafe extern "C" fn siren_threshold_run_records(
    image: *const u8,
    length: usize,
    faulty: u64,
    calls: *const [u8; 4],
    count: usize,
    state: *mut u64,
    state_length: usize,
    answers: *mut u8,
    answers_length: usize,
    out: *mut u64,
) -> u64 {
    let (image, calls) = (lent(image, length), lent(calls, count));
    let (state, answers) = (room(state, state_length), room(answers, answers_length));
    let passes = if length <= 12 * 512 { BY_LIST } else { BY_SEARCH };
    give(fast::run_records(image, faulty, calls, state, answers, (IN_LANES, passes)), out)
}

#[no_mangle]
pub unsafe extern "C" fn siren_threshold_translate(
    image: *const u8,
    length: usize,
    cells: *mut u64,
    cells_length: usize,
    out: *mut u64,
) -> u64 {
    give(fast::translate(lent(image, length), room(cells, cells_length)), out)
}
