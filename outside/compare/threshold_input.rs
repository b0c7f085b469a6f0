//! One input of the comparison over tables of thresholds: a public call with everything that is lent to it, asked of the
//! library and of the model; and the same call of the list form, over the translated table.

use crate::library::*;
use crate::model::{self, thresholds};
use crate::outcome::{bytes, cells, cells_with, hexadecimal, lent, Outcome, GUARD, UNWRITTEN};
use crate::page::Page;
use crate::threshold_library::*;
use std::fmt;

/// The public calls.
#[derive(Clone, Copy, Debug, PartialEq, Eq, PartialOrd, Ord)]
pub enum Question {
    Check,
    Quorum,
    Largest,
    Blocks,
    Shared,
    Intact,
    Sound,
    Step,
    Run,
    RunRecords,
    Translate,
}

/// A public call and its arguments. A question looks at those that it has; the others are empty or zero.
#[derive(Clone)]
pub struct Input {
    pub question: Question,
    pub image: Vec<u8>,
    /// The list of calls.
    pub list: Vec<u8>,
    /// The state, lent to be read by `Sound` and to be changed by `Step`.
    pub state: Vec<u64>,
    /// The set that is asked about, or the faulty set.
    pub set: u64,
    pub site: u64,
    pub call: [u8; 4],
    /// The room lent for numbers, and for bytes.
    pub cells_room: usize,
    pub bytes_room: usize,
    /// How many bytes before the forbidden page the image and the list end.
    pub gap: usize,
}

impl Input {
    pub fn of(question: Question, image: &[u8]) -> Input {
        Input {
            question,
            image: image.to_vec(),
            list: Vec::new(),
            state: Vec::new(),
            set: 0,
            site: 0,
            call: [0; 4],
            cells_room: 0,
            bytes_room: 0,
            gap: 0,
        }
    }

    fn calls(&self) -> Vec<[u8; 4]> {
        self.list.as_chunks().0.to_vec()
    }
}

/// The rooms that an input lends: numbers and bytes.
fn rooms(input: &Input) -> (Vec<u64>, Vec<u8>) {
    match input.question {
        Question::Step => (cells_with(&input.state), Vec::new()),
        Question::Run | Question::RunRecords => (cells(input.cells_room), bytes(input.bytes_room)),
        Question::Translate => (cells(input.cells_room), Vec::new()),
        _ => (Vec::new(), Vec::new()),
    }
}

/// The model's outcome.
pub fn ask_model(input: &Input) -> Outcome {
    let Input { image, list, state, set, site, call, .. } = input;
    let (mut cells, mut room) = rooms(input);
    let answer = match input.question {
        Question::Check => thresholds::check(image),
        Question::Quorum => thresholds::quorum(image, *set),
        Question::Largest => thresholds::largest(image, *set),
        Question::Blocks => thresholds::blocks(image, *set, *site),
        Question::Shared => thresholds::shared(image),
        Question::Intact => thresholds::intact(image, *set),
        Question::Sound => thresholds::sound(image, *set, state),
        Question::Step => thresholds::step(image, *set, lent(&mut cells), *call),
        Question::Run => thresholds::run(image, *set, list, lent(&mut cells), lent(&mut room)),
        Question::RunRecords => thresholds::run_records(image, *set, &input.calls(), lent(&mut cells), lent(&mut room)),
        Question::Translate => thresholds::translate(image, lent(&mut cells)),
    };
    let [first, second, third] = answer.values;
    let out = [UNWRITTEN, answer.place, first, second, third, UNWRITTEN];
    Outcome { number: answer.number, out, cells, bytes: room, kept: true }
}

/// The memory that is lent to the library to be read.
pub struct Lender {
    image: Page,
    table: Page,
    list: Page,
    state: Page,
}

impl Lender {
    pub fn new() -> Lender {
        Lender { image: Page::new(), table: Page::new(), list: Page::new(), state: Page::new() }
    }

    /// The library's outcome over the image.
    pub fn ask_library(&mut self, input: &Input) -> Outcome {
        let (image, length) = (self.image.put(&input.image, input.gap), input.image.len());
        let mut outcome = self.ask(input, |input, lent| {
            let Lent { list, list_length, state, state_length, cells, cells_length, room, room_length, out } = lent;
            let Input { set, site, call: [kind, from, to, side], .. } = *input;
            // SAFETY: each pointer goes with the length of what it points to, which nothing else refers to during the
            // call.
            unsafe {
                match input.question {
                    Question::Check => siren_threshold_check(image, length, out),
                    Question::Quorum => siren_threshold_quorum(image, length, set, out),
                    Question::Largest => siren_threshold_largest(image, length, set, out),
                    Question::Blocks => siren_threshold_blocks(image, length, set, site, out),
                    Question::Shared => siren_threshold_shared(image, length, out),
                    Question::Intact => siren_threshold_intact(image, length, set, out),
                    Question::Sound => siren_threshold_sound(image, length, set, state, state_length, out),
                    Question::Step => {
                        siren_threshold_step(image, length, set, cells, cells_length, kind, from, to, side, out)
                    }
                    Question::Run => siren_threshold_run(
                        image,
                        length,
                        set,
                        list,
                        list_length,
                        cells,
                        cells_length,
                        room,
                        room_length,
                        out,
                    ),
                    Question::RunRecords => {
                        let (calls, count) = (list.cast::<Call>(), list_length / 4);
                        siren_threshold_run_records(
                            image,
                            length,
                            set,
                            calls,
                            count,
                            cells,
                            cells_length,
                            room,
                            room_length,
                            out,
                        )
                    }
                    Question::Translate => siren_threshold_translate(image, length, cells, cells_length, out),
                }
            }
        });
        outcome.kept &= self.image.holds(&input.image, input.gap);
        outcome
    }

    /// The library's outcome of the same call of the list form, over a table in memory in place of the image. The check of
    /// the table stands beside that of the image; the translation has none beside it.
    pub fn ask_list_form(&mut self, input: &Input, memory: &[u64]) -> Option<Outcome> {
        if input.question == Question::Translate {
            return None;
        }
        let (table, length) = (self.table.put(memory, 0), memory.len());
        let mut outcome = self.ask(input, |input, lent| {
            let Lent { list, list_length, state, state_length, cells, cells_length, room, room_length, out } = lent;
            let Input { set, site, call: [kind, from, to, side], .. } = *input;
            // SAFETY: as above.
            unsafe {
                match input.question {
                    Question::Check | Question::Translate => siren_table_check(table, length, out),
                    Question::Quorum => siren_quorum(table, length, set, out),
                    Question::Largest => siren_largest(table, length, set, out),
                    Question::Blocks => siren_blocks(table, length, set, site, out),
                    Question::Shared => siren_shared(table, length, out),
                    Question::Intact => siren_intact(table, length, set, out),
                    Question::Sound => siren_sound(table, length, set, state, state_length, out),
                    Question::Step => siren_step(table, length, set, cells, cells_length, kind, from, to, side, out),
                    Question::Run => {
                        siren_run(table, length, set, list, list_length, cells, cells_length, room, room_length, out)
                    }
                    Question::RunRecords => {
                        let (calls, count) = (list.cast::<Call>(), list_length / 4);
                        siren_run_records(table, length, set, calls, count, cells, cells_length, room, room_length, out)
                    }
                }
            }
        });
        outcome.kept &= self.table.holds(memory, 0);
        Some(outcome)
    }

    /// The table in memory that the library translates an image into; nothing if it refuses.
    pub fn translated(&mut self, image: &[u8]) -> Option<Vec<u64>> {
        let mut table = cells(model::ROW * (image.len() / model::BLOCK));
        let mut out = [0; 4];
        let (bytes, length) = (self.image.put(image, 0), image.len());
        let (room, room_length) = pointer(&mut table);
        // SAFETY: as above.
        let number = unsafe { siren_threshold_translate(bytes, length, room, room_length, out.as_mut_ptr()) };
        (number == 0).then(|| lent(&mut table).to_vec())
    }

    fn ask(&mut self, input: &Input, call: impl FnOnce(&Input, Lent) -> u64) -> Outcome {
        let (mut cells, mut room) = rooms(input);
        let mut out = [UNWRITTEN; 6];
        let (list, list_length) = (self.list.put(&input.list, input.gap), input.list.len());
        let (state, state_length) = (self.state.put(&input.state, 0), input.state.len());
        let (cells_at, cells_length) = pointer(&mut cells);
        let (room_at, room_length) = pointer(&mut room);
        let lent = Lent {
            list,
            list_length,
            state,
            state_length,
            cells: cells_at,
            cells_length,
            room: room_at,
            room_length,
            out: out[1..5].as_mut_ptr(),
        };
        let number = call(input, lent);
        let kept = self.list.holds(&input.list, input.gap) && self.state.holds(&input.state, 0);
        Outcome { number, out, cells, bytes: room, kept }
    }
}

/// What is lent beside the table.
struct Lent {
    list: *const u8,
    list_length: usize,
    state: *const u64,
    state_length: usize,
    cells: *mut u64,
    cells_length: usize,
    room: *mut u8,
    room_length: usize,
    out: *mut u64,
}

/// The lent part of a room; null for no room.
fn pointer<T>(room: &mut [T]) -> (*mut T, usize) {
    match room.len() {
        0 => (std::ptr::null_mut(), 0),
        length => (lent(room).as_mut_ptr(), length - 2 * GUARD),
    }
}

impl fmt::Display for Input {
    fn fmt(&self, f: &mut fmt::Formatter) -> fmt::Result {
        writeln!(f, "question {:?}", self.question)?;
        writeln!(f, "image of {} bytes", self.image.len())?;
        for (place, block) in self.image.chunks(model::BLOCK).enumerate() {
            let Some((head, rest)) = block.split_first_chunk::<8>().filter(|_| block.len() == model::BLOCK) else {
                writeln!(f, "  block {place}: {}", hexadecimal(block))?;
                continue;
            };
            let check = if model::block_check(block).number == 0 { "" } else { ", the check differs" };
            writeln!(f, "  block {place}: head {}{check}", hexadecimal(head))?;
            let used = rest[..496].iter().rposition(|byte| *byte != 0).map_or(0, |last| last / thresholds::SET + 1);
            for bytes in rest[..496].chunks(thresholds::SET).take(used) {
                match bytes.len() {
                    thresholds::SET => {
                        let set = thresholds::Written::of(bytes);
                        writeln!(f, "    {} of {:#x} and {} inner sets", set.threshold, set.plain, set.inner)?;
                    }
                    _ => writeln!(f, "    {}", hexadecimal(bytes))?,
                }
            }
        }
        if matches!(self.question, Question::Run | Question::RunRecords) {
            writeln!(f, "calls: {} bytes (kind, from, to, side)", self.list.len())?;
            for call in self.list.chunks(4) {
                writeln!(f, "  {call:?}")?;
            }
        }
        writeln!(f, "set {:#x}, site {}", self.set, self.site)?;
        if matches!(self.question, Question::Sound | Question::Step) {
            writeln!(f, "state of {} numbers, call {:?}", self.state.len(), self.call)?;
            for (at, cell) in self.state.iter().enumerate().filter(|(_, cell)| **cell != 0) {
                writeln!(f, "  cell {at}: {cell:#x}")?;
            }
        }
        write!(f, "room for {} numbers and {} bytes", self.cells_room, self.bytes_room)
    }
}
