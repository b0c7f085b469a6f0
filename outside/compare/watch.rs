//! Says where the comparison stands if the library does not come back: if it touches memory that it may not, stops the
//! program, or works for too long. Then the input cannot be made smaller, and is printed as it is.

use crate::input::Input;
use std::ffi::c_int;
use std::ptr::null_mut;
use std::sync::atomic::{AtomicPtr, Ordering::Relaxed};

extern "C" {
    fn signal(number: c_int, handler: extern "C" fn(c_int)) -> usize;
    fn alarm(seconds: u32) -> u32;
    fn _exit(status: c_int) -> !;
}

const ILLEGAL: c_int = 4;
const ABORT: c_int = 6;
const BUS: c_int = 7;
const ARITHMETIC: c_int = 8;
const MEMORY: c_int = 11;
const TIME: c_int = 14;
/// The longest that one input may take.
const SECONDS: u32 = 120;

/// The input that the library is working at, null if it is at none.
static INPUT: AtomicPtr<Input> = AtomicPtr::new(null_mut());

pub fn begin() {
    for number in [ILLEGAL, ABORT, BUS, ARITHMETIC, MEMORY, TIME] {
        // SAFETY: the handler prints what it has and ends the program.
        unsafe { signal(number, stopped) };
    }
}

/// Puts an input to the library, and watches meanwhile.
pub fn over<T>(input: &Input, ask: impl FnOnce() -> T) -> T {
    INPUT.store((input as *const Input).cast_mut(), Relaxed);
    // SAFETY: sets a clock.
    unsafe { alarm(SECONDS) };
    let answer = ask();
    INPUT.store(null_mut(), Relaxed);
    answer
}

extern "C" fn stopped(number: c_int) {
    let why = match number {
        TIME => "the time is up",
        MEMORY | BUS => "memory was touched that was not lent",
        _ => "the program was stopped",
    };
    println!("compare: DIFFERENCE: {why}");
    // SAFETY: the pointer is null or of an input that `over` has borrowed and is still working at. The library holds no
    // lock and allocates nothing, so that printing is no risk here; after it the program ends.
    unsafe {
        if let Some(input) = INPUT.load(Relaxed).as_ref() {
            println!("the library was at work on\n{input}");
        }
        _exit(1)
    }
}
