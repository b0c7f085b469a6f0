//! One input of a comparison: a public call with everything that is lent to it, asked of the library and of the model.

use crate::library::*;
use crate::model::{self, Answer};
use crate::outcome::{bytes, cells, cells_with, hexadecimal, lent, Inline, Outcome, GUARD, UNWRITTEN};
use crate::page::Page;
use std::fmt;

/// The public calls.
#[derive(Clone, Copy, Debug, PartialEq, Eq, PartialOrd, Ord)]
pub enum Question {
    TableCheck,
    ImageRead,
    ImageWrite,
    RoundTrip,
    BlockCheck,
    Mark,
    Quorum,
    Largest,
    Blocks,
    Shared,
    Intact,
    Sound,
    Step,
    Run,
    RunRecords,
    JournalCheck,
    JournalWrite,
    JournalList,
    JournalNext,
    JournalTrip,
}

/// A public call and its arguments. A question looks at those that it has; the others are empty or zero.
#[derive(Clone)]
pub struct Input {
    pub question: Question,
    /// The table in memory.
    pub table: Vec<u64>,
    /// The image, the lone block, the list of calls or the journal.
    pub bytes: Vec<u8>,
    /// The state, lent to be read by `Sound` and to be changed by `Step`.
    pub state: Vec<u64>,
    /// The set that is asked about, or the faulty set.
    pub set: u64,
    pub site: u64,
    /// The confirmed masks of a mark.
    pub confirmed: [u64; 2],
    pub call: [u8; 4],
    /// The place in a journal, counted in calls.
    pub place: u64,
    /// The room lent for numbers, and for bytes.
    pub cells_room: usize,
    pub bytes_room: usize,
    /// How many bytes before the forbidden page the lent bytes end.
    pub gap: usize,
}

impl Input {
    pub fn new(question: Question) -> Input {
        Input {
            question,
            table: Vec::new(),
            bytes: Vec::new(),
            state: Vec::new(),
            set: 0,
            site: 0,
            confirmed: [0; 2],
            call: [0; 4],
            place: 0,
            cells_room: 0,
            bytes_room: 0,
            gap: 0,
        }
    }

    pub fn of(question: Question, table: &[u64]) -> Input {
        Input { table: table.to_vec(), ..Input::new(question) }
    }

    pub fn with(question: Question, bytes: &[u8]) -> Input {
        Input { bytes: bytes.to_vec(), ..Input::new(question) }
    }

    /// The bytes that the blocks of a journal take, if the input's bytes are its list.
    pub fn journal_bytes(&self) -> usize {
        model::BLOCK * self.calls().len().div_ceil(model::CALLS_OF_A_BLOCK)
    }

    pub fn calls(&self) -> Vec<[u8; 4]> {
        self.bytes.as_chunks().0.to_vec()
    }
}

/// The rooms that an input lends: numbers and bytes.
fn rooms(input: &Input) -> (Vec<u64>, Vec<u8>) {
    match input.question {
        Question::ImageRead => (cells(input.cells_room), Vec::new()),
        Question::ImageWrite => (Vec::new(), bytes(input.bytes_room)),
        Question::RoundTrip => (cells(input.cells_room), bytes(input.bytes_room)),
        Question::Step => (cells_with(&input.state), Vec::new()),
        Question::Run | Question::RunRecords => (cells(input.cells_room), bytes(input.bytes_room)),
        Question::JournalWrite | Question::JournalList => (Vec::new(), bytes(input.bytes_room)),
        Question::JournalTrip => (Vec::new(), bytes(input.journal_bytes() + input.bytes.len())),
        _ => (Vec::new(), Vec::new()),
    }
}

/// The model's outcome.
pub fn ask_model(input: &Input) -> Outcome {
    let Input { table, bytes, state, set, site, .. } = input;
    let (mut cells, mut room) = rooms(input);
    let answer = match input.question {
        Question::TableCheck => model::table_check(table),
        Question::ImageRead => model::image_read(bytes, lent(&mut cells)),
        Question::ImageWrite => model::image_write(table, lent(&mut room)),
        Question::RoundTrip => {
            let written = model::image_write(table, lent(&mut room));
            let read = model::image_read(lent(&mut room), lent(&mut cells));
            lent(&mut room).fill(0);
            let again = model::image_write(lent(&mut cells), lent(&mut room));
            Answer { values: [written.number, read.number, again.number], ..written }
        }
        Question::BlockCheck | Question::Mark => {
            let number = match input.question {
                Question::BlockCheck => model::block_check(bytes).number,
                _ => {
                    let answer = model::mark(*site, input.confirmed[0], input.confirmed[1]);
                    answer.number + answer.values[0]
                }
            };
            return Outcome { number, out: [UNWRITTEN; 6], cells, bytes: room, kept: true };
        }
        Question::Quorum => model::quorum(table, *set),
        Question::Largest => model::largest(table, *set),
        Question::Blocks => model::blocks(table, *set, *site),
        Question::Shared => model::shared(table),
        Question::Intact => model::intact(table, *set),
        Question::Sound => model::sound(table, *set, state),
        Question::Step => model::step(table, *set, lent(&mut cells), input.call),
        Question::Run => model::run(table, *set, bytes, lent(&mut cells), lent(&mut room)),
        Question::RunRecords => model::run_records(table, *set, &input.calls(), lent(&mut cells), lent(&mut room)),
        Question::JournalCheck => model::journal_check(bytes),
        Question::JournalWrite => model::journal_write(bytes, lent(&mut room)),
        Question::JournalList => model::journal_list(bytes, lent(&mut room)),
        Question::JournalNext => model::journal_next(bytes, input.place),
        // The journal stands in the first part of the room, the list that is read from it in the second; then the
        // journal is written once more, from that list.
        Question::JournalTrip => {
            let (journal, list) = lent(&mut room).split_at_mut(input.journal_bytes());
            let written = model::journal_write(bytes, journal);
            let read = model::journal_list(journal, list);
            journal.fill(0);
            let again = model::journal_write(list, journal);
            Answer { values: [written.number, read.number, again.number], ..written }
        }
    };
    let [first, second, third] = answer.values;
    let out = [UNWRITTEN, answer.place, first, second, third, UNWRITTEN];
    Outcome { number: answer.number, out, cells, bytes: room, kept: true }
}

/// The memory that is lent to the library to be read.
pub struct Lender {
    table: Page,
    bytes: Page,
    state: Page,
}

impl Lender {
    pub fn new() -> Lender {
        Lender { table: Page::new(), bytes: Page::new(), state: Page::new() }
    }

    /// The library's outcome.
    pub fn ask_library(&mut self, input: &Input) -> Outcome {
        let (mut cells, mut room) = rooms(input);
        let mut out = [UNWRITTEN; 6];
        let (table, length) = (self.table.put(&input.table, 0), input.table.len());
        let (bytes, bytes_length) = (self.bytes.put(&input.bytes, input.gap), input.bytes.len());
        let (state, state_length) = (self.state.put(&input.state, 0), input.state.len());
        let Input { set, site, call: [kind, from, to, side], .. } = *input;
        // SAFETY: each pointer goes with the length of what it points to, which nothing else refers to during the call.
        let number = unsafe {
            let out = out[1..5].as_mut_ptr();
            let (cells, cells_length) = match cells.as_mut_slice() {
                [] => (std::ptr::null_mut(), 0),
                room => (lent(room).as_mut_ptr(), room.len() - 2 * GUARD),
            };
            let (room, room_length) = match room.as_mut_slice() {
                [] => (std::ptr::null_mut(), 0),
                room => (lent(room).as_mut_ptr(), room.len() - 2 * GUARD),
            };
            match input.question {
                Question::TableCheck => siren_table_check(table, length, out),
                Question::ImageRead => siren_image_read(bytes, bytes_length, cells, cells_length, out),
                Question::ImageWrite => siren_image_write(table, length, room, room_length, out),
                Question::RoundTrip => {
                    let written = siren_image_write(table, length, room, room_length, out);
                    let place = *out;
                    let read = siren_image_read(room, room_length, cells, cells_length, out);
                    room.write_bytes(0, room_length);
                    let again = siren_image_write(cells, cells_length, room, room_length, out);
                    [place, written, read, again].as_ptr().copy_to(out, 4);
                    written
                }
                Question::BlockCheck => siren_block_check(bytes, bytes_length).into(),
                Question::Mark => siren_site_mark(site, input.confirmed[0], input.confirmed[1]).into(),
                Question::Quorum => siren_quorum(table, length, set, out),
                Question::Largest => siren_largest(table, length, set, out),
                Question::Blocks => siren_blocks(table, length, set, site, out),
                Question::Shared => siren_shared(table, length, out),
                Question::Intact => siren_intact(table, length, set, out),
                Question::Sound => siren_sound(table, length, set, state, state_length, out),
                Question::Step => siren_step(table, length, set, cells, cells_length, kind, from, to, side, out),
                Question::Run => {
                    siren_run(table, length, set, bytes, bytes_length, cells, cells_length, room, room_length, out)
                }
                Question::RunRecords => {
                    let (calls, count) = (bytes.cast::<Call>(), bytes_length / 4);
                    siren_run_records(table, length, set, calls, count, cells, cells_length, room, room_length, out)
                }
                Question::JournalCheck => siren_journal_check(bytes, bytes_length, out),
                Question::JournalWrite => siren_journal_write(bytes, bytes_length, room, room_length, out),
                Question::JournalList => siren_journal_list(bytes, bytes_length, room, room_length, out),
                Question::JournalNext => siren_journal_next(bytes, bytes_length, input.place, out),
                Question::JournalTrip => {
                    let part = input.journal_bytes();
                    let list = room.add(part);
                    let written = siren_journal_write(bytes, bytes_length, room, part, out);
                    let place = *out;
                    let read = siren_journal_list(room, part, list, room_length - part, out);
                    room.write_bytes(0, part);
                    let again = siren_journal_write(list, room_length - part, room, part, out);
                    [place, written, read, again].as_ptr().copy_to(out, 4);
                    written
                }
            }
        };
        let kept = self.table.holds(&input.table, 0)
            && self.bytes.holds(&input.bytes, input.gap)
            && self.state.holds(&input.state, 0);
        Outcome { number, out, cells, bytes: room, kept }
    }
}

impl fmt::Display for Input {
    fn fmt(&self, f: &mut fmt::Formatter) -> fmt::Result {
        writeln!(f, "question {:?}", self.question)?;
        if !self.table.is_empty() {
            writeln!(f, "table of {} numbers", self.table.len())?;
            for (site, row) in self.table.chunks(model::ROW).enumerate() {
                let used = row.iter().rposition(|cell| *cell != 0).map_or(0, |last| last + 1);
                writeln!(f, "  row {site}: {:#x?}", Inline(&row[..used]))?;
            }
        }
        match self.question {
            Question::ImageRead
            | Question::BlockCheck
            | Question::JournalCheck
            | Question::JournalList
            | Question::JournalNext => {
                writeln!(f, "bytes: {}", self.bytes.len())?;
                for (place, block) in self.bytes.chunks(model::BLOCK).enumerate() {
                    for (at, bytes) in block.chunks(8).enumerate().filter(|(_, bytes)| bytes.iter().any(|b| *b != 0)) {
                        writeln!(f, "  block {place} byte {}: {}", 8 * at, hexadecimal(bytes))?;
                    }
                }
            }
            Question::Run | Question::RunRecords | Question::JournalWrite | Question::JournalTrip => {
                writeln!(f, "calls: {} bytes (kind, from, to, side)", self.bytes.len())?;
                for call in self.bytes.chunks(4) {
                    writeln!(f, "  {call:?}")?;
                }
            }
            _ => {}
        }
        writeln!(f, "set {:#x}, site {}, confirmed {:#x?}", self.set, self.site, Inline(&self.confirmed))?;
        if matches!(self.question, Question::Sound | Question::Step) {
            writeln!(f, "state of {} numbers, call {:?}", self.state.len(), self.call)?;
            for (at, cell) in self.state.iter().enumerate().filter(|(_, cell)| **cell != 0) {
                writeln!(f, "  cell {at}: {cell:#x}")?;
            }
        }
        if self.question == Question::JournalNext {
            writeln!(f, "place {}", self.place)?;
        }
        write!(f, "room for {} numbers and {} bytes", self.cells_room, self.bytes_room)
    }
}
