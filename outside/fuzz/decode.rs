//! From the bytes of the fuzzer to one input of a comparison. Every string of bytes is an input: what is missing at its
//! end is zero. Most of the bytes say what is sound and some what is wrong with it, so that small changes lead past the
//! first refusals.

use crate::generate::{damage_row, mend, ROW_FAULTS};
use crate::input::{Input, Question};
use crate::model::{self, BLOCK, CALLS_OF_A_BLOCK, MOST_CALLS, MOST_SITES, MOST_SLICES, ROW};

/// The questions, chosen by the first byte: it is a place in this list, and if it is none it goes round among the first
/// questions, so that kept inputs stay what they are when the list grows.
pub const QUESTIONS: [Question; 18] = [
    Question::ImageRead,
    Question::Step,
    Question::Run,
    Question::RunRecords,
    Question::Sound,
    Question::TableCheck,
    Question::ImageWrite,
    Question::BlockCheck,
    Question::Quorum,
    Question::Largest,
    Question::Blocks,
    Question::Shared,
    Question::Intact,
    Question::Mark,
    Question::JournalCheck,
    Question::JournalWrite,
    Question::JournalList,
    Question::JournalNext,
];
const FIRST_QUESTIONS: usize = 14;

/// The second byte: what is put right, and the rooms.
pub mod ways {
    /// Images and journals: the bytes are the image or the journal itself.
    pub const RAW: u8 = 1;
    /// Images, journals and blocks: the sums of each whole block are put right.
    pub const SUMS: u8 = 2;
    /// Lists: each call is brought into range.
    pub const RANGE: u8 = 2;
    /// The faulty set, or the set that is asked about, is cut to the sites that there are.
    pub const CUT: u8 = 4;
    /// The room of numbers is too short by one, or longer than needed.
    pub const SHORT_CELLS: u8 = 8;
    pub const LONG_CELLS: u8 = 16;
    /// So the room of bytes.
    pub const SHORT_BYTES: u8 = 32;
    pub const LONG_BYTES: u8 = 64;
    /// Lists: said again and again, up to 4,096 calls and over.
    pub const AGAIN: u8 = 128;
}

/// The flags of a table.
pub mod flags {
    /// Each row is put right: the owner put in, no site that there is not, ascending, a count that fits.
    pub const MENDED: u8 = 1;
    /// One number more.
    pub const LONGER: u8 = 2;
    /// With up to three faults.
    pub const PATCHED: u8 = 4;
}

/// Bytes that are read one after the other, and zeros behind them.
struct Reader<'a>(&'a [u8]);

impl Reader<'_> {
    fn byte(&mut self) -> u8 {
        match self.0.split_first() {
            Some((first, rest)) => {
                self.0 = rest;
                *first
            }
            None => 0,
        }
    }

    fn number(&mut self, width: usize) -> u64 {
        (0..width).map(|i| u64::from(self.byte()) << (8 * i)).sum()
    }
}

/// How many bytes a set of n sites takes.
fn width(n: usize) -> usize {
    match n {
        0..=8 => 1,
        9..=16 => 2,
        _ => 8,
    }
}

fn sites(n: usize) -> u64 {
    model::all_sites(n.min(MOST_SITES))
}

/// A table of 0 to 66 sites in memory. For a verdict, none of 7 to 12: the model takes its time over those.
fn table(reader: &mut Reader, verdict: bool) -> Vec<u64> {
    let n = usize::from(reader.byte()) % (MOST_SITES + 3);
    let n = if verdict && (7..=12).contains(&n) { n - 6 } else { n };
    let kind = reader.byte();
    let mut table = Vec::new();
    for site in 0..n {
        let count = reader.byte();
        let mut row = Vec::new();
        if kind & flags::MENDED != 0 {
            for _ in 0..usize::from(count) % MOST_SLICES + 1 {
                row.push(reader.number(width(n)) & sites(n) | model::only(site % MOST_SITES));
            }
            row.sort();
            row.dedup();
            row.insert(0, row.len() as u64);
        } else {
            row.push(count.into());
            (0..usize::from(count).min(MOST_SLICES)).for_each(|_| row.push(reader.number(width(n))));
        }
        row.resize(ROW, 0);
        table.extend(row);
    }
    if kind & flags::LONGER != 0 {
        table.push(0);
    }
    if kind & flags::PATCHED != 0 && n > 0 {
        for _ in 0..reader.byte() % 4 {
            damage(reader, &mut table, n);
        }
    }
    table
}

/// One fault in a table: at a site, at one of its places or at any, of the faults that the comparison draws from, or any
/// bits changed.
fn damage(reader: &mut Reader, table: &mut [u64], n: usize) {
    let site = usize::from(reader.byte()) % n.min(MOST_SITES);
    let place = usize::from(reader.byte());
    let used = (table[ROW * site] as usize).clamp(1, MOST_SLICES);
    let place = if place < 128 { place % used } else { place % MOST_SLICES };
    match usize::from(reader.byte()) % (ROW_FAULTS + 1) {
        ROW_FAULTS => table[ROW * site + 1 + place] ^= reader.number(8),
        fault => damage_row(table, site, place, fault),
    }
}

fn set(reader: &mut Reader, n: usize, way: u8) -> u64 {
    let set = reader.number(width(n));
    if way & ways::CUT != 0 {
        set & sites(n)
    } else {
        set
    }
}

/// A call brought into range.
fn in_range(call: [u8; 4], n: usize) -> [u8; 4] {
    let n = n.clamp(1, MOST_SITES) as u8;
    let to = call[2] % n;
    let kind = call[0] % 3;
    [kind, if kind == 0 { to } else { call[1] % n }, to, call[3] % 2]
}

/// A state: the one that some calls lead to, then bits changed.
fn state(reader: &mut Reader, memory: &[u64], faulty: u64) -> Vec<u64> {
    let n = memory.len() / ROW;
    let mut state = vec![0; model::state_length(n)];
    let calls = reader.byte() % 64;
    let checked = model::table_in_memory(memory);
    for _ in 0..calls {
        let call = [reader.byte(), reader.byte(), reader.byte(), reader.byte()];
        if let Ok(table) = &checked {
            model::take(table, faulty, &mut state, in_range(call, n));
        }
    }
    for _ in 0..reader.byte() % 32 {
        let at = reader.number(2) as usize % (state.len() + 1);
        let mask = reader.number(width(n));
        match state.get_mut(at) {
            Some(cell) => *cell ^= mask,
            None => state.resize(mask as usize % 300, 0),
        }
    }
    state
}

/// The list of calls: the bytes that are left. A long list over a large table is cut: the model takes its time over it.
fn list(reader: &mut Reader, n: usize, way: u8) -> Vec<u8> {
    let mut bytes = reader.0[..reader.0.len().min(4 * MOST_CALLS + 8)].to_vec();
    if way & ways::RANGE != 0 {
        bytes.as_chunks_mut::<4>().0.iter_mut().for_each(|call| *call = in_range(*call, n));
    }
    if way & ways::AGAIN != 0 && !bytes.is_empty() {
        let times = 4 * MOST_CALLS / bytes.len() + usize::from(bytes[0]) % 2;
        bytes = bytes.repeat(times.max(1));
    }
    if bytes.len() <= 4 * MOST_CALLS && n > 8 {
        bytes.truncate(4 * if n > 16 { 160 } else { 600 });
    }
    bytes
}

/// A room of a length that is needed, by the way.
fn room(needed: usize, way: u8, short: u8, long: u8) -> usize {
    let longer = if way & long != 0 { needed + 7 } else { needed };
    if way & short != 0 {
        needed.saturating_sub(1)
    } else {
        longer
    }
}

pub fn decode(bytes: &[u8]) -> Input {
    let mut reader = Reader(bytes);
    let first = usize::from(reader.byte());
    let question = QUESTIONS[if first < QUESTIONS.len() { first } else { first % FIRST_QUESTIONS }];
    let way = reader.byte();
    let mut input = Input::new(question);
    match question {
        Question::JournalWrite => {
            input.bytes = list(&mut reader, 8, way);
            input.bytes_room = room(input.journal_bytes(), way, ways::SHORT_BYTES, ways::LONG_BYTES);
            return input;
        }
        Question::JournalCheck | Question::JournalList | Question::JournalNext => {
            journal(&mut reader, &mut input, way);
            return input;
        }
        _ => {}
    }
    if matches!(question, Question::ImageRead | Question::BlockCheck) {
        image(&mut reader, &mut input, way);
        return input;
    }
    if question == Question::Mark {
        input.site = reader.number(if way & ways::CUT != 0 { 1 } else { 8 });
        input.confirmed = [reader.number(8), reader.number(8)];
        return input;
    }
    input.table = table(&mut reader, matches!(question, Question::Shared | Question::Intact));
    let n = input.table.len() / ROW;
    input.set = set(&mut reader, n, way);
    match question {
        Question::Sound | Question::Step => {
            input.call = [reader.byte(), reader.byte(), reader.byte(), reader.byte()];
            let faulty = input.set & sites(n);
            input.state = state(&mut reader, &input.table, faulty);
        }
        Question::Run | Question::RunRecords => {
            input.bytes = list(&mut reader, n, way);
            if question == Question::RunRecords {
                input.bytes.truncate(input.bytes.len() / 4 * 4);
            }
            input.cells_room = room(model::state_length(n), way, ways::SHORT_CELLS, ways::LONG_CELLS);
            input.bytes_room = room(input.bytes.len() / 4, way, ways::SHORT_BYTES, ways::LONG_BYTES);
        }
        Question::ImageWrite => input.bytes_room = room(BLOCK * n, way, ways::SHORT_BYTES, ways::LONG_BYTES),
        _ => input.site = reader.number(1),
    }
    input
}

/// An image: the bytes themselves, or a table on file with bytes changed.
fn image(reader: &mut Reader, input: &mut Input, way: u8) {
    input.gap = usize::from(way >> 5);
    let mut bytes = if way & ways::RAW != 0 {
        reader.0.to_vec()
    } else {
        let memory = table(reader, false);
        let n = memory.len() / ROW;
        let row = |row: &[u64]| {
            let mut slices = row[1..].to_vec();
            slices.truncate(row[0].min(MOST_SLICES as u64) as usize);
            slices
        };
        let rows = memory.as_chunks::<ROW>().0.iter().enumerate();
        let mut bytes: Vec<u8> = rows.flat_map(|(site, cells)| model::block_on_file(site, n, &row(cells))).collect();
        change(reader, &mut bytes);
        bytes
    };
    bytes.truncate(BLOCK * (MOST_SITES + 2));
    put_sums_right(&mut bytes, way);
    input.cells_room = room(bytes.len() / BLOCK * ROW, way, ways::SHORT_CELLS, ways::LONG_CELLS);
    input.bytes = bytes;
}

/// Up to 31 bytes changed, or the length.
fn change(reader: &mut Reader, bytes: &mut Vec<u8>) {
    for _ in 0..reader.byte() % 32 {
        let at = reader.number(2) as usize % (bytes.len() + 1);
        let value = reader.byte();
        match bytes.get_mut(at) {
            Some(byte) => *byte ^= value,
            None => bytes.resize(at.saturating_sub(value.into()), 1),
        }
    }
}

fn put_sums_right(bytes: &mut [u8], way: u8) {
    if way & ways::SUMS != 0 {
        bytes.as_chunks_mut::<BLOCK>().0.iter_mut().for_each(|block| mend(block));
    }
}

/// A journal and a place in it: the bytes themselves, or blocks full of calls, the last with a number of its own, with
/// bytes changed. The calls are numbers one above the other.
fn journal(reader: &mut Reader, input: &mut Input, way: u8) {
    input.gap = usize::from(way >> 3 & 3);
    input.place = reader.number(if way & ways::CUT != 0 { 2 } else { 8 });
    let mut bytes = if way & ways::RAW != 0 {
        reader.0.to_vec()
    } else {
        let (blocks, last) = (usize::from(reader.byte()) % 36, usize::from(reader.byte()));
        let mut call = reader.number(4) as u32;
        let mut bytes = Vec::new();
        for place in 0..blocks {
            let count = if place + 1 == blocks { last } else { CALLS_OF_A_BLOCK };
            let calls: Vec<[u8; 4]> = (call..).take(count.min(CALLS_OF_A_BLOCK)).map(u32::to_le_bytes).collect();
            call = call.wrapping_add(count as u32);
            let mut block = model::journal_block(place, &calls);
            block[2] = count as u8;
            mend(&mut block);
            bytes.extend(block);
        }
        change(reader, &mut bytes);
        bytes
    };
    bytes.truncate(BLOCK * 36);
    put_sums_right(&mut bytes, way);
    let needed = model::journal_calls(&bytes).map_or(bytes.len(), |calls| 4 * calls.len());
    input.bytes_room = room(needed, way, ways::SHORT_BYTES, ways::LONG_BYTES);
    input.bytes = bytes;
}
