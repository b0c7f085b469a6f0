//! What a call did, of whichever side, and the memory that it was lent.

use std::fmt;

/// What a call did: its number, the four cells of `out` and the rooms, each with the cells before and behind that were
/// not lent, and whether everything that was lent to be read has kept its value.
#[derive(PartialEq)]
pub struct Outcome {
    pub number: u64,
    pub out: [u64; 6],
    pub cells: Vec<u64>,
    pub bytes: Vec<u8>,
    pub kept: bool,
}

/// What a cell of `out` holds before the call.
pub const UNWRITTEN: u64 = 0xa5a5_a5a5_5a5a_5a5a;
/// The cells before and behind a room. It is odd, so that a room of bytes has no alignment.
pub const GUARD: usize = 5;

/// Room for numbers with cells on both sides, no two alike.
pub fn cells(length: usize) -> Vec<u64> {
    (1..=(length + 2 * GUARD) as u64).map(|i| i.wrapping_mul(0x9e37_79b9_7f4a_7c15)).collect()
}

/// Room for bytes with bytes on both sides.
pub fn bytes(length: usize) -> Vec<u8> {
    (1..=length + 2 * GUARD).map(|i| (i.wrapping_mul(0x9d) >> 1) as u8 | 1).collect()
}

/// Room for numbers that holds a state.
pub fn cells_with(state: &[u64]) -> Vec<u64> {
    let mut room = cells(state.len());
    room[GUARD..GUARD + state.len()].copy_from_slice(state);
    room
}

/// The part of a room that is lent.
pub fn lent<T>(room: &mut [T]) -> &mut [T] {
    let end = room.len() - GUARD;
    &mut room[GUARD..end]
}

/// How two outcomes differ, in words.
pub fn difference(library: &Outcome, model: &Outcome) -> String {
    if library.number != model.number {
        return format!("the library answers {}, the model {}", library.number, model.number);
    }
    if library.out != model.out {
        return format!(
            "out (with a cell on each side) is {:x?} by the library, {:x?} by the model",
            library.out, model.out
        );
    }
    if !library.kept {
        return "the library changed memory that was lent to be read".into();
    }
    if let Some(i) = (0..model.cells.len()).find(|i| library.cells[*i] != model.cells[*i]) {
        let (library, model, at) = (library.cells[i], model.cells[i], i as isize - GUARD as isize);
        return format!("cell {at} of the room of numbers is {library:#x} by the library, {model:#x} by the model");
    }
    match (0..model.bytes.len()).find(|i| library.bytes[*i] != model.bytes[*i]) {
        Some(i) => {
            let (library, model, at) = (library.bytes[i], model.bytes[i], i as isize - GUARD as isize);
            format!("byte {at} of the room of bytes is {library} by the library, {model} by the model")
        }
        None => "no difference".into(),
    }
}

/// Numbers in a line.
pub struct Inline<'a>(pub &'a [u64]);

impl fmt::Debug for Inline<'_> {
    fn fmt(&self, f: &mut fmt::Formatter) -> fmt::Result {
        self.0.iter().try_for_each(|number| write!(f, "{number:#x} "))
    }
}

pub fn hexadecimal(bytes: &[u8]) -> String {
    bytes.iter().map(|byte| format!("{byte:02x} ")).collect()
}
