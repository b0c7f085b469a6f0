//! The fuzz target: each string of bytes is one input, put to the library and to the model. Where the two differ, the
//! input is printed and the program dies, which the fuzzer takes down.

#[path = "../compare/generate.rs"]
mod generate;
#[path = "../compare/input.rs"]
mod input;
#[path = "../compare/library.rs"]
mod library;
#[path = "../model/model.rs"]
mod model;
#[path = "../compare/outcome.rs"]
mod outcome;
#[path = "../compare/page.rs"]
mod page;
#[path = "../compare/shrink.rs"]
mod shrink;

mod decode;

pub use input::Question;
use input::{ask_model, Lender};
use outcome::difference;
use std::cell::RefCell;

thread_local! {
    static LENDER: RefCell<Lender> = RefCell::new(Lender::new());
}

/// How the library and the model differ on the input that the bytes stand for; or the question and its answer's number.
pub fn compare(bytes: &[u8]) -> Result<(Question, u64), String> {
    let input = decode::decode(bytes);
    let library = LENDER.with(|lender| lender.borrow_mut().ask_library(&input));
    let model = ask_model(&input);
    if library == model {
        Ok((input.question, model.number))
    } else {
        Err(format!("{}\n{input}", difference(&library, &model)))
    }
}

/// What the fuzzer calls.
///
/// # Safety
/// `size` bytes stand at `data`.
#[no_mangle]
pub unsafe extern "C" fn LLVMFuzzerTestOneInput(data: *const u8, size: usize) -> i32 {
    let bytes = if size == 0 { &[] } else { std::slice::from_raw_parts(data, size) };
    if let Err(difference) = compare(bytes) {
        eprintln!("fuzz: {difference}");
        std::process::abort();
    }
    0
}
