//! The library against the best Rust for the same answer (fast.rs), side by side in one run. Where Rust has several ways
//! to an answer, all are timed and the fastest counts: its name stands at the end of the row. Before a row is timed the
//! library and each way are compared, and where the model takes no more than a moment all with the model. Of several
//! repetitions, taken in turn, the best counts.
//!
//! Prints a table: of each row the name, the library's nanoseconds, those of the best Rust, their ratio, and the way;
//! then which rows are above the limit. A second table has rows that are no measure, since the rules name the form. With
//! arguments, only the rows whose names contain one of them; with `agree` alone, nothing is timed.

mod fast;
#[allow(dead_code)]
mod inputs;
#[allow(dead_code)]
#[path = "../compare/library.rs"]
mod library;
#[path = "../model/model.rs"]
mod model;
#[cfg(thresholds)]
mod threshold_inputs;
#[cfg(thresholds)]
#[allow(dead_code)]
#[path = "../compare/threshold_library.rs"]
mod threshold_library;
#[cfg(thresholds)]
mod threshold_rows;

use inputs::{memory, Rng};
use library::*;
use model::Answer;
use std::cell::{Cell, RefCell};
use std::hint::black_box;
use std::time::Instant;

/// How long a row is worked at before it is timed anew: short, so that some repetition is not disturbed; and how often
/// it is at most and at least, within how much time for each side.
const REPETITION: f64 = 1e5;
const MOST_REPETITIONS: usize = 400;
const FEWEST_REPETITIONS: usize = 10;
const ENOUGH: f64 = 4e7;

/// A ratio that a row should not be above.
const LIMIT: f64 = 1.25;

/// One side of a row. All are called in the same way, so that none grows into the loop that times it.
type Side<'a> = Box<dyn FnMut() -> Answer + 'a>;

/// The name of a way to the answer, empty if there is one only, and the way.
type Way<'a> = (&'static str, Side<'a>);

fn way<'a>(name: &'static str, side: impl FnMut() -> Answer + 'a) -> Way<'a> {
    (name, Box::new(side))
}

/// The only way.
fn only<'a>(side: impl FnMut() -> Answer + 'a) -> Vec<Way<'a>> {
    vec![way("", side)]
}

/// One side while it is timed: a number of calls that fills a repetition, a number of repetitions, and the nanoseconds
/// of one call in the best of them.
struct Timed<'a> {
    side: Side<'a>,
    calls: usize,
    repetitions: usize,
    best: f64,
}

impl Timed<'_> {
    fn new(mut side: Side) -> Timed {
        let mut calls = 1;
        loop {
            let time = time(&mut side, calls) * calls as f64;
            if time >= REPETITION / 2.0 {
                let repetitions = ((ENOUGH / time) as usize).clamp(FEWEST_REPETITIONS, MOST_REPETITIONS);
                return Timed { side, calls, repetitions, best: f64::INFINITY };
            }
            calls *= 2;
        }
    }

    fn repeat(&mut self, repetition: usize) {
        if repetition < self.repetitions {
            self.best = self.best.min(time(&mut self.side, self.calls));
        }
    }
}

/// The nanoseconds of one call, over a number of calls.
fn time(side: &mut Side, calls: usize) -> f64 {
    let start = Instant::now();
    for _ in 0..calls {
        black_box(side());
    }
    start.elapsed().as_nanos() as f64 / calls as f64
}

/// What was measured of a row.
struct Measured {
    library: f64,
    rust: f64,
    way: &'static str,
}

impl Measured {
    fn ratio(&self) -> f64 {
        self.library / self.rust
    }

    fn row(&self, name: &str) -> String {
        let Measured { library, rust, way } = self;
        format!("| {name:<58} | {library:>12.1} | {rust:>13.1} | {:>6.2} | {way:<6} |", self.ratio())
    }
}

#[derive(Default)]
struct Bench {
    wanted: Vec<String>,
    /// Whether the rows are timed, or compared only.
    timed: bool,
    /// How many ways were compared, in how many rows.
    compared: Cell<(usize, usize)>,
    /// The rows above the limit, each with its ratio.
    above: RefCell<Vec<String>>,
    /// The rows of the second table.
    apart: RefCell<Vec<String>>,
}

impl Bench {
    fn wants(&self, name: &str) -> bool {
        self.wanted.is_empty() || self.wanted.iter().any(|word| name.contains(word.as_str()))
    }

    /// Compares all sides, and with the model's answer if there is one; then times them in turn and prints the row.
    fn row(&self, name: &str, model: Option<Answer>, library: Side, ways: Vec<Way>) {
        if let Some(measured) = self.measured(name, model, library, ways) {
            println!("{}", measured.row(name));
            if measured.ratio() > LIMIT {
                self.above.borrow_mut().push(format!("{name} ({:.2})", measured.ratio()));
            }
        }
    }

    /// The same for a row of the second table.
    fn row_apart(&self, name: &str, model: Option<Answer>, library: Side, ways: Vec<Way>) {
        let measured = self.measured(name, model, library, ways);
        self.apart.borrow_mut().extend(measured.map(|measured| measured.row(name)));
    }

    fn measured(&self, name: &str, model: Option<Answer>, mut library: Side, mut ways: Vec<Way>) -> Option<Measured> {
        let answer = library();
        for (way, side) in &mut ways {
            assert_eq!(answer, side(), "{name}: the library and the best Rust differ, {way}");
        }
        if let Some(model) = model {
            assert_eq!(answer, model, "{name}: all differ from the model");
        }
        let (compared, rows) = self.compared.get();
        self.compared.set((compared + ways.len(), rows + 1));
        if !self.timed {
            return None;
        }
        let mut library = Timed::new(library);
        let mut ways: Vec<_> = ways.into_iter().map(|(name, side)| (name, Timed::new(side))).collect();
        let most = ways.iter().map(|(_, timed)| timed.repetitions).max();
        for repetition in 0..most.max(Some(library.repetitions)).unwrap() {
            library.repeat(repetition);
            ways.iter_mut().for_each(|(_, timed)| timed.repeat(repetition));
            // A way that is far behind is not timed on.
            if repetition == FEWEST_REPETITIONS {
                let best = ways.iter().map(|(_, timed)| timed.best).fold(f64::INFINITY, f64::min);
                ways.retain(|(_, timed)| timed.best < 1.5 * best);
            }
        }
        let (way, rust) = ways.into_iter().min_by(|one, other| one.1.best.total_cmp(&other.1.best)).unwrap();
        Some(Measured { library: library.best, rust: rust.best, way })
    }

    /// What stands below the rows: which are above the limit, and the second table.
    fn end(&self) {
        match self.above.borrow().as_slice() {
            [] => println!("\nNo row is above {LIMIT}."),
            rows => println!("\nAbove {LIMIT}, {} rows: {}.", rows.len(), rows.join("; ")),
        }
        if !self.apart.borrow().is_empty() {
            println!("\n{APART}\n");
            heading("Rust, ns");
            self.apart.borrow().iter().for_each(|row| println!("{row}"));
        }
    }
}

const APART: &str = "Apart, and no measure: the rules name both running sums, word after word, and here Rust adds in \
eight lanes; and the C call for the next call of a journal keeps nothing, so that it checks the journal each time, and here \
Rust checks it once.";

fn heading(rust: &str) {
    println!("| {:<58} | {:>12} | {rust:>13} | {:>6} | {:<6} |", "what", "library, ns", "ratio", "way");
    println!("|{:-<60}|{:->13}:|{:->14}:|{:->7}:|{:-<8}|", "", "", "", "", "");
}

/// An answer as the functions for C give it.
fn answer(call: impl FnOnce(*mut u64) -> u64) -> Answer {
    let mut out = [0; 4];
    let number = call(out.as_mut_ptr());
    Answer { number, place: out[0], values: [out[1], out[2], out[3]] }
}

/// An answer that is a number alone.
fn only_number(number: u8) -> Answer {
    Answer { number: number.into(), place: 0, values: [0; 3] }
}

fn main() {
    let wanted: Vec<String> = std::env::args().skip(1).collect();
    let timed = wanted != ["agree"];
    let wanted = if timed { wanted } else { Vec::new() };
    let bench = Bench { wanted, timed, ..Bench::default() };
    if timed {
        heading("best Rust, ns");
    }
    blocks_and_images(&bench);
    set_questions(&bench);
    states_and_steps(&bench);
    runs(&bench);
    verdicts(&bench);
    journals(&bench);
    #[cfg(thresholds)]
    threshold_rows::rows(&bench);
    if timed {
        bench.end();
    } else {
        let (ways, rows) = bench.compared.get();
        println!("bench: the library, the best Rust and the model agree on {rows} rows, Rust in {ways} ways");
    }
}

/// The rows of a call whose time is that of the block's sums: against Rust that adds in order, as the rules name it; and
/// apart, against Rust that adds in lanes. All are called also if no row is wanted, so that the rooms can be compared.
fn rows_of_sums(
    bench: &Bench,
    name: &str,
    model: Answer,
    mut library: impl FnMut() -> Answer,
    mut in_order: impl FnMut() -> Answer,
    mut in_lanes: impl FnMut() -> Answer,
) {
    (library(), in_order(), in_lanes());
    let row = format!("{name}, adding in order");
    if bench.wants(&row) {
        bench.row(&row, Some(model), Box::new(&mut library), only(in_order));
    }
    let row = format!("{name}, in eight lanes");
    if bench.wants(&row) {
        bench.row_apart(&row, Some(model), Box::new(&mut library), only(in_lanes));
    }
}

fn blocks_and_images(bench: &Bench) {
    let table = memory(&inputs::full(64));
    let mut image = vec![0; 512 * 64];
    assert_eq!(model::image_write(&table, &mut image).number, 0);
    let block = &image[512..1024];

    // SAFETY (here and below): each pointer goes with the length of what it points to.
    rows_of_sums(
        bench,
        "block check",
        model::block_check(block),
        || only_number(unsafe { siren_block_check(black_box(block).as_ptr(), block.len()) }),
        || only_number(fast::block_check_in_order(black_box(block))),
        || only_number(fast::block_check(black_box(block))),
    );

    let room = |number: u64| vec![number; table.len()];
    let (mut one, mut other, mut third, mut fourth) = (room(1), room(2), room(3), room(4));
    rows_of_sums(
        bench,
        "read of 64 blocks",
        model::image_read(&image, &mut fourth),
        || answer(|out| unsafe { siren_image_read(image.as_ptr(), image.len(), one.as_mut_ptr(), one.len(), out) }),
        || fast::image_read_in_order(black_box(&image), &mut other),
        || fast::image_read(black_box(&image), &mut third),
    );
    assert!([one, other, third, fourth].iter().all(|room| *room == table), "read of 64 blocks: the rooms differ");

    let room = |byte: u8| vec![byte; image.len()];
    let (mut one, mut other, mut third, mut fourth) = (room(1), room(2), room(3), room(4));
    rows_of_sums(
        bench,
        "write of 64 blocks",
        model::image_write(&table, &mut fourth),
        || answer(|out| unsafe { siren_image_write(table.as_ptr(), table.len(), one.as_mut_ptr(), one.len(), out) }),
        || fast::image_write_in_order(black_box(&table), &mut other),
        || fast::image_write(black_box(&table), &mut third),
    );
    assert!([one, other, third, fourth].iter().all(|room| *room == image), "write of 64 blocks: the rooms differ");

    let name = "memory check of 64 sites, 62 slices";
    if bench.wants(name) {
        let library = || answer(|out| unsafe { siren_table_check(table.as_ptr(), table.len(), out) });
        let rust = || fast::table_check(black_box(&table));
        bench.row(name, Some(model::table_check(&table)), Box::new(library), only(rust));
    }
}

fn set_questions(bench: &Bench) {
    // 63 rounds: one site goes each round. Easy: all sites of a table that is full of slices, and nobody goes.
    let questions = [
        ("largest quorum, 63 rounds", memory(&inputs::costly_chain(64)), !1),
        ("largest quorum, no round, 62 slices", memory(&inputs::full(64)), !0),
        ("largest quorum, 9 sites", memory(&inputs::random(&mut Rng(77), 9, 6, 2)), 0x1f7),
    ];
    for (name, table, set) in &questions {
        if bench.wants(name) {
            let library = || answer(|out| unsafe { siren_largest(table.as_ptr(), table.len(), black_box(*set), out) });
            let rust = || fast::largest(black_box(table), black_box(*set));
            bench.row(name, Some(model::largest(table, *set)), Box::new(library), only(rust));
        }
    }
}

fn states_and_steps(bench: &Bench) {
    for (name, table, faulty, calls) in inputs::states() {
        let memory = memory(&table);
        let mut state = vec![0; 4 * table.len() + 6];
        let mut answers = vec![0; calls.len()];
        assert_eq!(fast::run_records(&memory, faulty, &calls, &mut state, &mut answers).number, 0);
        let fits = model::sound(&memory, faulty, &state);
        assert_eq!(fits.number, 0, "{name}: the state is not sound");

        let row = format!("soundness, {name}");
        if bench.wants(&row) {
            let library = || {
                answer(|out| unsafe {
                    siren_sound(memory.as_ptr(), memory.len(), faulty, state.as_ptr(), state.len(), out)
                })
            };
            let rust = || fast::sound(black_box(&memory), faulty, &state);
            bench.row(&row, Some(fits), Box::new(library), only(rust));
        }

        // The step starts from the same state each time; the last call of the list has been heard, so one more is asked
        // for.
        let row = format!("step, {name}");
        if bench.wants(&row) {
            let call = inputs::one_more(table.len(), faulty, &state);
            let [kind, from, to, on] = call;
            let (mut one, mut other, mut third) = (state.clone(), state.clone(), state.clone());
            let expected = model::step(&memory, faulty, &mut third, call);
            let library = || {
                one.copy_from_slice(&state);
                answer(|out| unsafe {
                    let (cells, length) = (one.as_mut_ptr(), one.len());
                    siren_step(memory.as_ptr(), memory.len(), faulty, cells, length, kind, from, to, on, out)
                })
            };
            let rust = || {
                other.copy_from_slice(&state);
                fast::step(black_box(&memory), faulty, &mut other, call)
            };
            bench.row(&row, Some(expected), Box::new(library), only(rust));
            assert!(one == third && other == third, "{row}: the states differ");
        }
    }
}

/// A run of the library, over a list of bytes or of records.
type Run<T> =
    unsafe extern "C" fn(*const u64, usize, u64, *const T, usize, *mut u64, usize, *mut u8, usize, *mut u64) -> u64;

/// A run in Rust over the same calls.
type Told = fn(&[u64], u64, &[[u8; 4]], &mut [u64], &mut [u8]) -> Answer;

/// The rows of a kind of run: all lists, or those over which the model does not take too long. `list` puts the calls as
/// the library takes them.
fn runs_of<T>(
    bench: &Bench,
    (kind, all): (&str, bool),
    run: Run<T>,
    list: fn(&[[u8; 4]]) -> (*const T, usize),
    (again, by_rules): (Told, Told),
) {
    for (name, table, faulty, calls, by_model) in inputs::lists() {
        let row = format!("{kind}, {name}");
        if !(all || by_model) || !bench.wants(&row) {
            continue;
        }
        let memory = memory(&table);
        let mut told: Vec<(&str, Told)> = vec![("again", again), ("waking", fast::run_records_by_waking)];
        if table.len() <= 12 {
            told.push(("list", fast::run_records_by_list));
        }
        let rooms = || (vec![7; 4 * table.len() + 6], vec![7; calls.len()]);
        let (mut state, mut answers) = rooms();
        let library = || {
            let (table, length) = (memory.as_ptr(), memory.len());
            let (list, many) = list(&calls);
            let (cells, cells_length) = (state.as_mut_ptr(), state.len());
            let (room, room_length) = (answers.as_mut_ptr(), answers.len());
            answer(|out| unsafe { run(table, length, faulty, list, many, cells, cells_length, room, room_length, out) })
        };
        let mut others: Vec<_> = told.iter().map(|_| rooms()).collect();
        let (memory, calls) = (&memory, &calls);
        let ways = told.iter().zip(&mut others).map(|((name, told), (state, answers))| {
            way(name, move || told(black_box(memory), faulty, black_box(calls), state, answers))
        });
        let mut model = rooms();
        let expected = by_model.then(|| by_rules(memory, faulty, calls, &mut model.0, &mut model.1));
        bench.row(&row, expected, Box::new(library), ways.collect());
        others.extend(by_model.then_some(model));
        assert!(others.iter().all(|rooms| *rooms == (state.clone(), answers.clone())), "{row}: the rooms differ");
    }
}

/// The run over a list of bytes, and the same run over a list of records. Four bytes of a list stand in memory as the
/// record does.
fn runs(bench: &Bench) {
    runs_of(
        bench,
        ("run", true),
        siren_run,
        |calls| (calls.as_flattened().as_ptr(), calls.as_flattened().len()),
        (
            |table, faulty, calls, state, answers| fast::run(table, faulty, calls.as_flattened(), state, answers),
            |table, faulty, calls, state, answers| model::run(table, faulty, calls.as_flattened(), state, answers),
        ),
    );
    let list = |calls: &[[u8; 4]]| (calls.as_ptr().cast::<Call>(), calls.len());
    runs_of(bench, ("run of records", false), siren_run_records, list, (fast::run_records, model::run_records));
}

/// What was told of the calls so far, and one call more: another order tells something else.
fn with_call(told: u64, call: u64) -> u64 {
    told.wrapping_mul(31).wrapping_add(call)
}

/// The longest journal: 4,096 calls in 33 blocks. The C call for the next call checks the journal whole each time, and
/// so does the Rust beside it.
fn journals(bench: &Bench) {
    let calls = inputs::kept_calls();
    let mut journal = vec![0; 512 * 33];
    assert_eq!(model::journal_write(&calls, &mut journal).values, [33, 0, 0]);
    let (calls, journal) = (calls.as_slice(), journal.as_slice());

    rows_of_sums(
        bench,
        "journal check, 33 blocks",
        model::journal_check(journal),
        || answer(|out| unsafe { siren_journal_check(journal.as_ptr(), journal.len(), out) }),
        || fast::journal_check_in_order(black_box(journal)),
        || fast::journal_check(black_box(journal)),
    );

    let name = "journal write, 33 blocks";
    let room = |byte: u8| vec![byte; journal.len()];
    let (mut one, mut other, mut third, mut fourth) = (room(1), room(2), room(3), room(4));
    let (list, length) = (calls.as_ptr(), calls.len());
    rows_of_sums(
        bench,
        name,
        model::journal_write(calls, &mut fourth),
        || answer(|out| unsafe { siren_journal_write(list, length, one.as_mut_ptr(), one.len(), out) }),
        || fast::journal_write_in_order(black_box(calls), &mut other),
        || fast::journal_write(black_box(calls), &mut third),
    );
    assert!([one, other, third, fourth].iter().all(|room| room == journal), "{name}: the rooms differ");

    let name = "journal list, 33 blocks";
    let room = |byte: u8| vec![byte; calls.len()];
    let (mut one, mut other, mut third, mut fourth) = (room(1), room(2), room(3), room(4));
    let (bytes, length) = (journal.as_ptr(), journal.len());
    rows_of_sums(
        bench,
        name,
        model::journal_list(journal, &mut fourth),
        || answer(|out| unsafe { siren_journal_list(bytes, length, one.as_mut_ptr(), one.len(), out) }),
        || fast::journal_list_in_order(black_box(journal), &mut other),
        || fast::journal_list(black_box(journal), &mut third),
    );
    assert!([one, other, third, fourth].iter().all(|room| room == calls), "{name}: the rooms differ");

    let place = 4095;
    rows_of_sums(
        bench,
        "journal next, checking 33 blocks",
        model::journal_next(journal, place),
        || answer(|out| unsafe { siren_journal_next(bytes, length, black_box(place), out) }),
        || fast::journal_next_in_order(black_box(journal), black_box(place)),
        || fast::journal_next(black_box(journal), black_box(place)),
    );
    all_calls_of_a_journal(bench, journal, calls);
}

/// All calls one by one through the C call, beside a list and a plain loop.
fn all_calls_of_a_journal(bench: &Bench, journal: &[u8], calls: &[u8]) {
    let name = "journal next, 4,096 calls, beside a list and a plain loop";
    if !bench.wants(name) {
        return;
    }
    let told = |calls: &[u8]| {
        let sum = calls
            .chunks_exact(4)
            .fold(0, |sum, call| with_call(sum, u32::from_le_bytes(call.try_into().unwrap()).into()));
        Answer { number: 0, place: 0, values: [calls.len() as u64 / 4, sum, 0] }
    };
    let library = || {
        let (mut place, mut sum) = (0, 0);
        loop {
            let next =
                answer(|out| unsafe { siren_journal_next(journal.as_ptr(), journal.len(), black_box(place), out) });
            let [given, call, behind] = next.values;
            if given == 0 {
                return Answer { number: next.number, place: next.place, values: [place, sum, 0] };
            }
            (place, sum) = (behind, with_call(sum, call));
        }
    };
    let mut room = vec![0; calls.len()];
    let plain = || {
        let bytes = fast::journal_list_in_order(black_box(journal), &mut room).values[0] as usize;
        told(&room[..bytes])
    };
    bench.row_apart(name, Some(told(calls)), Box::new(library), only(plain));
}

fn verdicts(bench: &Bench) {
    for (name, table, faulty) in inputs::twelve_sites() {
        let table = &memory(&table);
        let row = format!("shared, {name}");
        if faulty == 0 && bench.wants(&row) {
            let library = || answer(|out| unsafe { siren_shared(table.as_ptr(), table.len(), out) });
            let ways = vec![
                way("list", || fast::shared(black_box(table))),
                way("search", || fast::shared_by_search(black_box(table))),
                way("words", || fast::shared_by_words(black_box(table))),
            ];
            bench.row(&row, Some(model::shared(table)), Box::new(library), ways);
        }
        let row = format!("intact, {name}, {} faulty", faulty.count_ones());
        if bench.wants(&row) {
            let library = || answer(|out| unsafe { siren_intact(table.as_ptr(), table.len(), faulty, out) });
            let ways = vec![
                way("list", || fast::intact(black_box(table), faulty)),
                way("search", || fast::intact_by_search(black_box(table), faulty)),
                way("words", || fast::intact_by_words(black_box(table), faulty)),
            ];
            bench.row(&row, Some(model::intact(table, faulty)), Box::new(library), ways);
        }
    }
}
