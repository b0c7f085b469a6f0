//! From an input that shows a difference to a smaller one: calls, sites, slices and bits are dropped one after the
//! other, as long as some difference stays.

use crate::generate::mend;
use crate::input::{Input, Question};
use crate::model::{self, BLOCK, CALLS_OF_A_BLOCK, ROW};
use std::time::{Duration, Instant};

/// The smallest input found for which `differs` holds.
pub fn shrink(input: &Input, mut differs: impl FnMut(&Input) -> bool) -> Input {
    let end = Instant::now() + Duration::from_secs(30);
    let mut smallest = input.clone();
    loop {
        let before = smallest.clone();
        let found = smaller(&before).into_iter().find_map(|make| {
            let candidate = make();
            (Instant::now() < end && differs(&candidate)).then_some(candidate)
        });
        match found {
            Some(candidate) => smallest = candidate,
            None => return smallest,
        }
    }
}

type Make<'a> = Box<dyn Fn() -> Input + 'a>;

/// The inputs one step smaller, the greatest steps first.
fn smaller(input: &Input) -> Vec<Make<'_>> {
    let mut steps: Vec<Make> = Vec::new();
    drop_calls(input, &mut steps);
    drop_blocks(input, &mut steps);
    drop_sites(input, &mut steps);
    drop_slices(input, &mut steps);
    clear_bits(input, &mut steps);
    tighten_rooms(input, &mut steps);
    steps
}

fn is_list(input: &Input) -> bool {
    matches!(input.question, Question::Run | Question::RunRecords)
}

/// The bytes are the blocks of a journal.
fn is_journal(input: &Input) -> bool {
    matches!(input.question, Question::JournalCheck | Question::JournalList | Question::JournalNext)
}

/// Half of the calls, a quarter, and so on down to each single one. The rooms shrink with the list, so that they stay
/// as they fit.
fn drop_calls<'a>(input: &'a Input, steps: &mut Vec<Make<'a>>) {
    let kept = matches!(input.question, Question::JournalWrite | Question::JournalTrip);
    if !is_list(input) && !kept {
        return;
    }
    let calls = input.bytes.len() / 4;
    let mut part = calls.div_ceil(2);
    while part > 0 {
        for first in (0..calls).step_by(part) {
            let last = (first + part).min(calls);
            steps.push(Box::new(move || {
                let mut less = input.clone();
                less.bytes.drain(4 * first..4 * last);
                let needed = if kept { input.journal_bytes() - less.journal_bytes() } else { last - first };
                less.bytes_room = less.bytes_room.saturating_sub(needed);
                less
            }));
        }
        part /= 2;
    }
}

/// Half of the blocks of an image or a journal less, a quarter, and so on down to each single one, the others numbered
/// anew; and half of a block's bytes cleared, an eighth, down to each eight bytes.
fn drop_blocks<'a>(input: &'a Input, steps: &mut Vec<Make<'a>>) {
    let journal = is_journal(input);
    if input.question != Question::ImageRead && input.question != Question::BlockCheck && !journal {
        return;
    }
    let blocks = input.bytes.len() / BLOCK;
    let mut part = if input.question == Question::BlockCheck { 0 } else { blocks.div_ceil(2) };
    while part > 0 {
        for first in (0..blocks).step_by(part) {
            let last = (first + part).min(blocks);
            steps.push(Box::new(move || without_blocks(input, first, last)));
        }
        part /= 2;
    }
    // The sums of a block whose check is right follow from the rest.
    for part in [256, 64, 8] {
        for at in (0..blocks * BLOCK).step_by(part) {
            let (start, inside) = (at / BLOCK * BLOCK, at % BLOCK);
            let right = model::block_check(&input.bytes[start..start + BLOCK]).number == 0;
            let end = (inside + part).min(if right { 504 } else { BLOCK });
            if inside < end && input.bytes[at..start + end].iter().any(|byte| *byte != 0) {
                steps.push(Box::new(move || {
                    let mut less = input.clone();
                    let block = &mut less.bytes[start..start + BLOCK];
                    block[inside..end].fill(0);
                    if right {
                        mend(block);
                    }
                    less
                }));
            }
        }
    }
}

/// The input without some blocks of its image or journal.
fn without_blocks(input: &Input, first: usize, last: usize) -> Input {
    let mut less = input.clone();
    let (blocks, gone) = (input.bytes.len() / BLOCK, last - first);
    less.bytes.drain(BLOCK * first..BLOCK * last);
    less.cells_room = less.cells_room.saturating_sub(ROW * gone);
    less.bytes_room = less.bytes_room.saturating_sub(4 * CALLS_OF_A_BLOCK * gone);
    less.place = less.place.saturating_sub((CALLS_OF_A_BLOCK * gone) as u64);
    for (k, block) in less.bytes.chunks_mut(BLOCK).enumerate().filter(|(_, block)| block.len() == BLOCK) {
        let right = model::block_check(block).number == 0;
        if u16::from_le_bytes([block[0], block[1]]) as usize == k + gone && k >= first {
            block[0..2].copy_from_slice(&(k as u16).to_le_bytes());
        }
        if !is_journal(input) && u16::from_le_bytes([block[2], block[3]]) as usize == blocks {
            block[2..4].copy_from_slice(&((blocks - gone) as u16).to_le_bytes());
        }
        if right {
            mend(block);
        }
    }
    less
}

/// The mask without a site, those above it numbered one less.
fn without(mask: u64, site: usize) -> u64 {
    let below = (1 << site) - 1;
    mask & below | mask >> 1 & !below
}

/// One site less everywhere: in the table, the sets, the state and the calls.
fn drop_sites<'a>(input: &'a Input, steps: &mut Vec<Make<'a>>) {
    let n = input.table.len() / ROW;
    if input.table.len() != ROW * n || n > 64 {
        return;
    }
    for site in 0..n {
        steps.push(Box::new(move || {
            let mut less = input.clone();
            less.table.drain(ROW * site..ROW * (site + 1));
            for row in less.table.chunks_mut(ROW) {
                row[1..].iter_mut().for_each(|slice| *slice = without(*slice, site));
            }
            less.set = without(less.set, site);
            less.site -= u64::from(less.site > site as u64);
            if less.state.len() >= 4 * (site + 1) {
                less.state.drain(4 * site..4 * (site + 1));
                less.state.iter_mut().for_each(|mask| *mask = without(*mask, site));
            }
            let renumber = |at: &mut u8| *at -= u8::from(usize::from(*at) > site);
            renumber(&mut less.call[1]);
            renumber(&mut less.call[2]);
            if is_list(input) {
                for call in less.bytes.chunks_exact_mut(4) {
                    renumber(&mut call[1]);
                    renumber(&mut call[2]);
                }
                less.cells_room = less.cells_room.saturating_sub(4);
            } else {
                less.cells_room = less.cells_room.saturating_sub(ROW);
                less.bytes_room = less.bytes_room.saturating_sub(BLOCK);
            }
            less
        }));
    }
}

/// One slice of a site less.
fn drop_slices<'a>(input: &'a Input, steps: &mut Vec<Make<'a>>) {
    for (site, row) in input.table.chunks_exact(ROW).enumerate() {
        if row[0] < 2 || row[0] > 62 {
            continue;
        }
        for i in 1..=row[0] as usize {
            steps.push(Box::new(move || {
                let mut less = input.clone();
                let row = &mut less.table[ROW * site..ROW * (site + 1)];
                row[i..].rotate_left(1);
                row[ROW - 1] = 0;
                row[0] -= 1;
                less
            }));
        }
    }
}

/// One bit less in a slice, in the sets and in the state.
fn clear_bits<'a>(input: &'a Input, steps: &mut Vec<Make<'a>>) {
    let bits = |mask: u64| (0..64).rev().filter(move |bit| mask >> bit & 1 == 1);
    for bit in bits(input.set) {
        steps.push(Box::new(move || Input { set: input.set & !(1 << bit), ..input.clone() }));
    }
    for at in 0..input.state.len() {
        for bit in bits(input.state[at]) {
            steps.push(Box::new(move || {
                let mut less = input.clone();
                less.state[at] &= !(1 << bit);
                less
            }));
        }
    }
    for at in (0..input.table.len()).filter(|at| at % ROW != 0) {
        for bit in bits(input.table[at]) {
            steps.push(Box::new(move || {
                let mut less = input.clone();
                less.table[at] &= !(1 << bit);
                less
            }));
        }
    }
}

/// Rooms that are longer than they need to be cut to what is needed, bytes that need not stand apart from the forbidden
/// page, and a lower place in a journal.
fn tighten_rooms<'a>(input: &'a Input, steps: &mut Vec<Make<'a>>) {
    let n = input.table.len() / ROW;
    let (cells, bytes) = match input.question {
        Question::ImageRead => (ROW * (input.bytes.len() / BLOCK), 0),
        Question::ImageWrite => (0, BLOCK * n),
        Question::RoundTrip => (ROW * n, BLOCK * n),
        Question::Run | Question::RunRecords => (4 * n + 6, input.bytes.len() / 4),
        Question::JournalWrite => (0, input.journal_bytes()),
        Question::JournalList => (0, model::journal_calls(&input.bytes).map_or(0, |calls| 4 * calls.len())),
        _ => (0, 0),
    };
    if input.cells_room > cells {
        steps.push(Box::new(move || Input { cells_room: cells, ..input.clone() }));
    }
    if input.bytes_room > bytes {
        steps.push(Box::new(move || Input { bytes_room: bytes, ..input.clone() }));
    }
    if input.gap > 0 {
        steps.push(Box::new(move || Input { gap: 0, ..input.clone() }));
    }
    if input.place > 0 {
        steps.push(Box::new(move || Input { place: input.place / 2, ..input.clone() }));
    }
}
