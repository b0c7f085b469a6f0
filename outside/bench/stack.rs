//! The deepest stack of each public call. Before a call the stack below the caller is painted; behind it, the lowest
//! cell that has lost its paint says how deep the call went: its arguments on the stack, the return address, and
//! everything that the library and the C functions it calls put there.
//!
//! Prints a row each: the function, the bytes, and the input of those tried that went deepest.

#[allow(dead_code)]
mod inputs;
#[allow(dead_code)]
#[path = "../compare/library.rs"]
mod library;
#[path = "../model/model.rs"]
mod model;
#[cfg(thresholds)]
#[allow(dead_code)]
mod threshold_inputs;
#[cfg(thresholds)]
#[allow(dead_code)]
#[path = "../compare/threshold_library.rs"]
mod threshold_library;

use inputs::{memory, Rng};
use library::*;
use std::arch::asm;

/// How much of the stack is painted: many times what any call takes.
const PAINTED: usize = 1 << 20;
const PAINT: u64 = 0x5a17_e55a_17e5_5a17;

/// The depth of a call, in bytes. It stands in the measuring function itself, so that no frame comes between.
macro_rules! depth {
    ($call:expr) => {{
        let top: usize;
        // SAFETY: the register is read, and nothing else is done.
        #[cfg(target_arch = "x86_64")]
        unsafe { asm!("mov {}, rsp", out(reg) top, options(nomem, nostack, preserves_flags)) };
        // SAFETY: as above.
        #[cfg(target_arch = "aarch64")]
        unsafe { asm!("mov {}, sp", out(reg) top, options(nomem, nostack, preserves_flags)) };
        let bottom = top - PAINTED;
        // SAFETY: the thread has more stack than is painted, and a function that calls others keeps nothing below its
        // stack pointer.
        unsafe {
            let mut at = bottom;
            while at < top {
                (at as *mut u64).write_volatile(PAINT);
                at += 8;
            }
        }
        let _ = $call;
        let mut at = bottom;
        // SAFETY: as above; the cells are read only.
        while at < top && unsafe { (at as *const u64).read_volatile() } == PAINT {
            at += 8;
        }
        let depth = top - at;
        assert!(depth < PAINTED, "the call went below the paint");
        depth
    }};
}

/// The rows of the table, in the order of their first measure.
struct Depths(Vec<(&'static str, usize, String)>);

impl Depths {
    fn note(&mut self, function: &'static str, depth: usize, input: &str) {
        match self.0.iter_mut().find(|row| row.0 == function) {
            Some(row) if row.1 >= depth => {}
            Some(row) => (row.1, row.2) = (depth, input.into()),
            None => self.0.push((function, depth, input.into())),
        }
    }
}

fn main() {
    let measure = std::thread::Builder::new().stack_size(4 * PAINTED).spawn(measure).expect("a thread");
    let depths = measure.join().expect("the measure");
    println!("| {:<27} | {:>6} | {:<48} |", "function", "bytes", "deepest on");
    println!("|{:-<29}|{:->7}:|{:-<50}|", "", "", "");
    for (function, depth, input) in depths.0 {
        println!("| {:<27} | {depth:>6} | {input:<48} |", function);
    }
}

#[inline(never)]
fn measure() -> Depths {
    let mut depths = Depths(Vec::new());
    let mut out = [0u64; 4];
    let out = out.as_mut_ptr();
    let (mut cells, mut bytes) = (vec![0u64; 63 * 64], vec![0u8; 512 * 64]);
    let (room, room_length) = (cells.as_mut_ptr(), cells.len());
    let (byte_room, byte_room_length) = (bytes.as_mut_ptr(), bytes.len());

    // SAFETY (all calls): each pointer goes with the length of what it points to.
    let tables = [
        ("62 slices, 64 sites", inputs::full(64)),
        ("a costly chain, 64 sites", inputs::costly_chain(64)),
        ("a block chain, 64 sites", inputs::block_chain(64)),
        ("one site", vec![vec![1]]),
        ("9 sites, 6 slices", inputs::random(&mut Rng(77), 9, 6, 2)),
    ];
    for (name, rows) in &tables {
        let n = rows.len();
        let table = memory(rows);
        let (table, length) = (table.as_slice().as_ptr(), table.len());
        let mut image = Vec::new();
        for (site, slices) in rows.iter().enumerate() {
            image.extend(model::block_on_file(site, n, slices));
        }
        let all = model::all_sites(n);
        let block = &image[..512];
        depths.note("siren_block_check", depth!(unsafe { siren_block_check(block.as_ptr(), block.len()) }), name);
        depths.note("siren_site_mark", depth!(unsafe { siren_site_mark(63, all, 0) }), "any");
        depths.note("siren_table_check", depth!(unsafe { siren_table_check(table, length, out) }), name);
        depths.note(
            "siren_image_read",
            depth!(unsafe { siren_image_read(image.as_ptr(), image.len(), room, room_length, out) }),
            name,
        );
        depths.note(
            "siren_image_write",
            depth!(unsafe { siren_image_write(table, length, byte_room, byte_room_length, out) }),
            name,
        );
        for set in [all, all & !1, 0] {
            depths.note("siren_quorum", depth!(unsafe { siren_quorum(table, length, set, out) }), name);
            depths.note("siren_largest", depth!(unsafe { siren_largest(table, length, set, out) }), name);
            depths.note("siren_blocks", depth!(unsafe { siren_blocks(table, length, set, 0, out) }), name);
        }
    }

    for (name, rows, faulty) in inputs::twelve_sites() {
        let table = memory(&rows);
        let (table, length) = (table.as_slice().as_ptr(), table.len());
        depths.note("siren_shared", depth!(unsafe { siren_shared(table, length, out) }), name);
        depths.note("siren_intact", depth!(unsafe { siren_intact(table, length, faulty, out) }), name);
    }

    for (name, rows, faulty, calls) in inputs::states() {
        let table = memory(&rows);
        let checked = model::table_in_memory(&table).expect("a table");
        let (table, length) = (table.as_slice().as_ptr(), table.len());
        let mut state = vec![0; model::state_length(rows.len())];
        for call in &calls {
            model::take(&checked, faulty, &mut state, *call);
        }
        let [kind, from, to, side] = inputs::one_more(rows.len(), faulty, &state);
        let (cells, cells_length) = (state.as_mut_ptr(), state.len());
        depths.note(
            "siren_sound",
            depth!(unsafe { siren_sound(table, length, faulty, cells, cells_length, out) }),
            name,
        );
        depths.note(
            "siren_step",
            depth!(unsafe { siren_step(table, length, faulty, cells, cells_length, kind, from, to, side, out) }),
            name,
        );
    }

    for (name, rows, faulty, calls, _) in inputs::lists() {
        let table = memory(&rows);
        let (table, length) = (table.as_slice().as_ptr(), table.len());
        macro_rules! note {
            ($run:ident, $list:expr, $many:expr) => {
                let many = $many;
                let depth = depth!(unsafe {
                    $run(table, length, faulty, $list, many, room, room_length, byte_room, byte_room_length, out)
                });
                depths.note(stringify!($run), depth, name);
            };
        }
        let list = calls.as_flattened();
        note!(siren_run, list.as_ptr(), list.len());
        note!(siren_run_records, calls.as_ptr().cast::<Call>(), calls.len());
    }

    let calls = inputs::kept_calls();
    let lists = [("33 blocks", calls.len()), ("2 blocks", 4 * 130), ("1 block", 4), ("no block", 0)];
    for (name, length) in lists {
        let (list, blocks) = (calls.as_ptr(), length.div_ceil(500));
        let mut journal = vec![0; 512 * blocks];
        assert_eq!(model::journal_write(&calls[..length], &mut journal).number, 0);
        let (journal, bytes) = (journal.as_slice().as_ptr(), 512 * blocks);
        depths.note("siren_journal_check", depth!(unsafe { siren_journal_check(journal, bytes, out) }), name);
        depths.note(
            "siren_journal_write",
            depth!(unsafe { siren_journal_write(list, length, byte_room, byte_room_length, out) }),
            name,
        );
        depths.note(
            "siren_journal_list",
            depth!(unsafe { siren_journal_list(journal, bytes, byte_room, byte_room_length, out) }),
            name,
        );
        for place in [0, 4095, u64::MAX] {
            depths.note("siren_journal_next", depth!(unsafe { siren_journal_next(journal, bytes, place, out) }), name);
        }
    }
    #[cfg(thresholds)]
    thresholds(&mut depths);
    depths
}

/// The calls over tables of thresholds.
#[cfg(thresholds)]
#[inline(never)]
fn thresholds(depths: &mut Depths) {
    use threshold_inputs as inputs;
    use threshold_library::*;

    let mut out = [0u64; 4];
    let out = out.as_mut_ptr();
    let (mut cells, mut bytes) = (vec![0u64; 63 * 64], vec![0u8; 4096]);
    let (room, room_length) = (cells.as_mut_ptr(), cells.len());
    let (byte_room, byte_room_length) = (bytes.as_mut_ptr(), bytes.len());
    macro_rules! note {
        ($call:ident($($argument:expr),*), $name:expr) => {
            // SAFETY: as above.
            depths.note(stringify!($call), depth!(unsafe { $call($($argument),*) }), $name)
        };
    }
    for (name, image, set) in &inputs::questions() {
        let (image, length, set) = (image.as_ptr(), image.len(), *set);
        note!(siren_threshold_check(image, length, out), name);
        note!(siren_threshold_quorum(image, length, set, out), name);
        note!(siren_threshold_largest(image, length, set, out), name);
        note!(siren_threshold_blocks(image, length, set, 0, out), name);
    }
    for (name, image, faulty) in &inputs::twelve_sites() {
        let (image, length, faulty) = (image.as_ptr(), image.len(), *faulty);
        note!(siren_threshold_shared(image, length, out), name);
        note!(siren_threshold_intact(image, length, faulty, out), name);
        #[cfg(translation)]
        note!(siren_threshold_translate(image, length, room, room_length, out), name);
    }
    for (name, image, calls) in &inputs::lists() {
        let table = model::thresholds::table_on_file(image).expect("a table");
        let (image, length) = (image.as_ptr(), image.len());
        let (list, many) = (calls.as_flattened().as_ptr(), 4 * calls.len());
        note!(
            siren_threshold_run(image, length, 0, list, many, room, room_length, byte_room, byte_room_length, out),
            name
        );
        let (list, many) = (calls.as_ptr().cast::<Call>(), calls.len());
        note!(
            siren_threshold_run_records(
                image,
                length,
                0,
                list,
                many,
                room,
                room_length,
                byte_room,
                byte_room_length,
                out
            ),
            name
        );
        let mut state = vec![0; model::state_length(table.roots.len())];
        for call in &calls[..calls.len() / 2] {
            model::take(&table, 0, &mut state, *call);
        }
        let [kind, from, to, side] = crate::inputs::one_more(table.roots.len(), 0, &state);
        let (state, state_length) = (state.as_mut_ptr(), state.len());
        note!(siren_threshold_sound(image, length, 0, state, state_length, out), name);
        note!(siren_threshold_step(image, length, 0, state, state_length, kind, from, to, side, out), name);
    }
}
