//! The library against the model, on many inputs: the same call is put to both, and the answer, the cells of `out`,
//! every cell of the rooms and around them, and everything that was lent to be read are compared.
//!
//! Arguments: the number of inputs (some parts are walked through whole, whatever the number), the seed, and the
//! verdict program's path if it is to be compared too. Ends with status 1 at the first difference, after printing the
//! smallest input found that shows one.

mod generate;
mod input;
mod library;
#[path = "../model/model.rs"]
mod model;
mod outcome;
mod page;
mod shrink;
mod watch;

use generate::{mend, Rng, SHAPES};
use input::{ask_model, Input, Lender, Question};
use model::{BLOCK, CALLS_OF_A_BLOCK, LONGEST_JOURNAL, MOST_CALLS, MOST_SLICES, ROW};
use outcome::difference;
use std::collections::BTreeMap;
use std::io::Write;
use std::process::{exit, Command, Stdio};
use std::time::Instant;

const DEFAULT_INPUTS: u64 = 1_320_000;
const DEFAULT_SEED: u64 = 20_240_601;

fn main() {
    let mut arguments = std::env::args().skip(1);
    let mut number = |default| match arguments.next() {
        Some(word) => word.parse().unwrap_or_else(|_| panic!("not a number: {word}")),
        None => default,
    };
    let (inputs, seed) = (number(DEFAULT_INPUTS), number(DEFAULT_SEED));
    let program = arguments.next();
    println!("compare: seed {seed}, {inputs} inputs");
    watch::begin();
    let start = Instant::now();
    let mut comparison = Comparison {
        lender: Lender::new(),
        seed,
        kinds: BTreeMap::new(),
        answers: BTreeMap::new(),
        values: BTreeMap::new(),
    };
    comparison.walk_through();
    comparison.draw(inputs);
    if let Some(program) = program {
        comparison.verdicts(&program);
    }
    comparison.report(start.elapsed().as_secs_f64());
}

struct Comparison {
    lender: Lender,
    seed: u64,
    /// The inputs of each kind; of each question those that were answered with a number; of a few questions those with
    /// a value.
    kinds: BTreeMap<&'static str, u64>,
    answers: BTreeMap<Question, BTreeMap<u64, u64>>,
    values: BTreeMap<&'static str, BTreeMap<u64, u64>>,
}

impl Comparison {
    /// Puts one input to both. Does not come back if they differ.
    fn same(&mut self, kind: &'static str, input: &Input) {
        let count = self.kinds.entry(kind).or_default();
        *count += 1;
        let library = watch::over(input, || self.lender.ask_library(input));
        let model = ask_model(input);
        if library != model {
            println!("compare: DIFFERENCE in input {count} of '{kind}', seed {}", self.seed);
            println!("{}", difference(&library, &model));
            let smallest = shrink::shrink(input, |input| {
                watch::over(input, || self.lender.ask_library(input)) != ask_model(input)
            });
            println!("the smallest input found:\n{smallest}");
            println!("{}", difference(&self.lender.ask_library(&smallest), &ask_model(&smallest)));
            exit(1);
        }
        *self.answers.entry(input.question).or_default().entry(model.number).or_default() += 1;
        let [_, _, first, second, ..] = model.out;
        let value = match input.question {
            Question::Largest => ("rounds of the largest quorum", second),
            Question::Shared => ("shared sites (1: the table meets)", first),
            Question::Intact => ("number of intact sites", first.count_ones().into()),
            Question::Run | Question::RunRecords => ("passes of the run", first),
            Question::JournalCheck => ("blocks of a journal", first),
            Question::JournalNext => ("next call of a journal (1: there is one)", first),
            _ => return,
        };
        if model.number == 0 {
            *self.values.entry(value.0).or_default().entry(value.1).or_default() += 1;
        }
    }

    fn report(&self, seconds: f64) {
        for (kind, count) in &self.kinds {
            println!("{count:>9}  {kind}");
        }
        let counts = |numbers: &BTreeMap<u64, u64>| {
            let counts: Vec<String> = numbers.iter().map(|(number, count)| format!("{number}: {count}")).collect();
            counts.join(", ")
        };
        for (question, numbers) in &self.answers {
            println!("{question:?} answered {}", counts(numbers));
        }
        for (what, numbers) in &self.values {
            println!("{what} {}", counts(numbers));
        }
        println!("compare: {} inputs in {seconds:.1} s, no difference", self.kinds.values().sum::<u64>());
    }

    // ---- What is walked through whole

    fn walk_through(&mut self) {
        self.every_shape();
        self.every_fault();
        self.every_bit();
        self.every_length();
        self.lone_blocks_and_marks();
        self.every_small_table();
        self.larger_verdicts();
        self.every_state_of_one_site();
        self.known_states();
        self.every_short_list();
        self.known_lists();
        self.every_length_of_a_journal();
        self.every_bit_of_a_journal();
        self.every_count_of_a_block();
        self.every_pair_of_faults_of_a_journal();
        self.every_list_kept();
        self.every_place_in_a_journal();
    }

    /// Each shape with each number of sites: checked, written, read, written and read in turn.
    fn every_shape(&mut self) {
        const KIND: &str = "tables of every shape and size";
        for n in 1..=64 {
            for (s, shape) in SHAPES.into_iter().enumerate() {
                let rows = generate::rows(&mut Rng::new(self.seed, 1, (n * SHAPES.len() + s) as u64), n, shape);
                let table = generate::memory(&rows);
                self.same(KIND, &Input::of(Question::TableCheck, &table));
                self.same(KIND, &Input { bytes_room: BLOCK * n, ..Input::of(Question::ImageWrite, &table) });
                let (cells_room, bytes_room) = (ROW * n, BLOCK * n);
                let bytes = generate::image(&rows);
                self.same(KIND, &Input { bytes, cells_room, ..Input::new(Question::ImageRead) });
                self.same(KIND, &Input { cells_room, bytes_room, ..Input::of(Question::RoundTrip, &table) });
            }
        }
    }

    /// Each fault of a row at each place of each site.
    fn every_fault(&mut self) {
        const KIND: &str = "tables with each fault at each place";
        for n in [1, 2, 5, 63, 64] {
            let mut rng = Rng::new(self.seed, 2, n as u64);
            // Rows with one slice, with a few and with 62 stand side by side.
            let good = generate::memory(&generate::rows(&mut rng, n, generate::Shape::Mixed));
            let full = generate::memory(&generate::rows(&mut rng, n, generate::Shape::Full));
            for site in 0..n {
                for place in 0..MOST_SLICES {
                    for fault in 0..generate::ROW_FAULTS {
                        let mut table = if (site + place) % 2 == 0 { good.clone() } else { full.clone() };
                        generate::damage_row(&mut table, site, place, fault);
                        self.same(KIND, &Input::of(Question::TableCheck, &table));
                    }
                }
            }
        }
    }

    /// Every bit of small images, and of one block among 64, with the check left wrong and with the check mended.
    fn every_bit(&mut self) {
        const KIND: &str = "images with each bit damaged";
        for (n, place) in [(1, 0), (2, 0), (2, 1), (3, 1), (64, 37)] {
            let rows = generate::rows(&mut Rng::new(self.seed, 3, n as u64), n, generate::Shape::Mixed);
            let good = generate::image(&rows);
            for bit in 0..8 * BLOCK {
                let mut bytes = good.clone();
                bytes[BLOCK * place + bit / 8] ^= 1 << (bit % 8);
                let cells_room = ROW * n + bit % 2;
                self.same(KIND, &Input { bytes: bytes.clone(), cells_room, ..Input::new(Question::ImageRead) });
                mend(&mut bytes[BLOCK * place..BLOCK * (place + 1)]);
                self.same(KIND, &Input { bytes, cells_room, ..Input::new(Question::ImageRead) });
            }
        }
    }

    /// Lengths of images and tables around each whole number of blocks and rows, and past the most; rooms short, exact
    /// and long.
    fn every_length(&mut self) {
        const KIND: &str = "lengths of images, tables and rooms";
        for k in 0..=66 {
            // Beyond 64 the rows go on as if there were more sites: the headers are right, and the length alone is
            // wrong.
            let mut rows =
                generate::rows(&mut Rng::new(self.seed, 4, k as u64), k.clamp(1, 64), generate::Shape::Sparse);
            rows.resize(k, vec![u64::MAX]);
            let (image, table) = (generate::image(&rows), generate::memory(&rows));
            for off in [-2, -1, 0, 1, 2, 8, 62, 63, 511] {
                let resized = |length: usize| length.saturating_add_signed(off);
                let (mut bytes, mut longer) = (image.clone(), table.clone());
                bytes.resize(resized(BLOCK * k), 0);
                longer.resize(resized(ROW * k), 0);
                for room in [0, ROW * k, (ROW * k).saturating_sub(1), ROW * k + 1, ROW * 66] {
                    let bytes = bytes.clone();
                    self.same(KIND, &Input { bytes, cells_room: room, ..Input::new(Question::ImageRead) });
                }
                for room in [0, BLOCK * k, (BLOCK * k).saturating_sub(1), BLOCK * k + 1, BLOCK * 66] {
                    self.same(KIND, &Input { bytes_room: room, ..Input::of(Question::ImageWrite, &longer) });
                }
                self.same(KIND, &Input::of(Question::TableCheck, &longer));
            }
        }
        for length in 0..1100 {
            let mut bytes = generate::image(&[vec![1], vec![2]]);
            bytes.resize(length, 0);
            self.same(KIND, &Input { bytes, cells_room: 200, ..Input::new(Question::ImageRead) });
        }
    }

    /// Lone blocks of every length and with each bit damaged; the mark of every site there is and of some that there
    /// are not.
    fn lone_blocks_and_marks(&mut self) {
        const BLOCKS: &str = "lone blocks";
        const MARKS: &str = "marks";
        let mut rng = Rng::new(self.seed, 5, 0);
        let block = model::block_on_file(3, 9, &[8, 9, 10, 511]);
        let ask = |bytes: &[u8], gap| Input { bytes: bytes.to_vec(), gap, ..Input::new(Question::BlockCheck) };
        self.same(BLOCKS, &ask(&[0; BLOCK], 0));
        for length in 0..1100 {
            let mut bytes = block.clone();
            bytes.resize(length, 0);
            self.same(BLOCKS, &ask(&bytes, length % 8));
        }
        for bit in 0..8 * BLOCK {
            let mut bytes = block.clone();
            bytes[bit / 8] ^= 1 << (bit % 8);
            self.same(BLOCKS, &ask(&bytes, 0));
            mend(&mut bytes);
            self.same(BLOCKS, &ask(&bytes, bit % 8));
        }
        let beyond = [64, 65, 127, 128, 255, 256, 319, 1 << 32, (1 << 32) + 3, 1 << 63, u64::MAX];
        for site in (0..64).chain(beyond) {
            for confirmed in [[0, 0], [u64::MAX, 0], [0, u64::MAX], [u64::MAX; 2], [rng.next(), rng.next()]] {
                self.same(MARKS, &Input { site, confirmed, ..Input::new(Question::Mark) });
            }
        }
    }

    /// Every table of one, two and three sites with every set, and one set too many.
    fn every_small_table(&mut self) {
        const KIND: &str = "every table of up to three sites";
        for n in 1..=3 {
            let ways = generate::rows_of(n, 0).len();
            for code in 0..ways.pow(n as u32) {
                let way = |site: usize| code / ways.pow(site as u32) % ways;
                let rows: Vec<Vec<u64>> = (0..n).map(|site| generate::rows_of(n, site)[way(site)].clone()).collect();
                let table = generate::memory(&rows);
                self.same(KIND, &Input::of(Question::Shared, &table));
                for set in 0..=1 << n {
                    for question in [Question::Quorum, Question::Largest, Question::Intact] {
                        self.same(KIND, &Input { set, ..Input::of(question, &table) });
                    }
                    for site in 0..n as u64 {
                        self.same(KIND, &Input { set, site, ..Input::of(Question::Blocks, &table) });
                    }
                }
            }
        }
    }

    /// Shared and intact sites at 8 to 12 sites, each shape; and the refusal from 13 on.
    fn larger_verdicts(&mut self) {
        const KIND: &str = "verdicts at 8 to 64 sites";
        for n in (8..=16).chain([63, 64]) {
            for (s, shape) in SHAPES.into_iter().enumerate() {
                let mut rng = Rng::new(self.seed, 6, (n * SHAPES.len() + s) as u64);
                let table = generate::memory(&generate::rows(&mut rng, n, shape));
                self.same(KIND, &Input::of(Question::Shared, &table));
                let set = if s % 3 == 0 { 0 } else { model::all_sites(n) & rng.mask(3) };
                self.same(KIND, &Input { set, ..Input::of(Question::Intact, &table) });
                let set = 1 << rng.between(n.min(63), 63);
                self.same(KIND, &Input { set, ..Input::of(Question::Intact, &table) });
            }
        }
    }

    /// Three of four sites that hold each other up on both sides without a vote: sound, though no call leads there.
    fn known_states(&mut self) {
        const KIND: &str = "states known to be hard";
        let table = generate::memory(&[vec![7, 11, 13], vec![7, 11, 14], vec![7, 13, 14], vec![11, 13, 14]]);
        let mut circular = [[0, 0, 7, 7]; 4].concat();
        circular[12..].fill(0);
        circular.extend([0, 0, 7, 7, 7, 7]);
        for cell in 0..circular.len() {
            for bit in 0..64 {
                let mut state = circular.clone();
                state[cell] ^= 1 << bit;
                self.same(KIND, &Input { state, ..Input::of(Question::Sound, &table) });
            }
        }
        for code in 0..4u32.pow(4) {
            let call = [code % 4, code / 4 % 4, code / 16 % 4, code / 64].map(|byte| byte as u8);
            let state = circular.clone();
            self.same(KIND, &Input { state, call, ..Input::of(Question::Step, &table) });
        }
    }

    /// Every state of one site, correct and faulty: asked about, and stepped from with every call.
    fn every_state_of_one_site(&mut self) {
        const KIND: &str = "every state of one site";
        let table = generate::memory(&[vec![1]]);
        for code in 0..1 << 10 {
            let state: Vec<u64> = (0..10).map(|cell| code >> cell & 1).collect();
            for set in [0, 1] {
                self.same(KIND, &Input { state: state.clone(), set, ..Input::of(Question::Sound, &table) });
                for call in 0..8 {
                    let call = [call % 4, 0, 0, call / 4];
                    self.same(KIND, &Input { state: state.clone(), set, call, ..Input::of(Question::Step, &table) });
                }
            }
        }
    }

    /// Every list of three calls between two sites, over tables in which they need each other, only one the other, or
    /// neither.
    fn every_short_list(&mut self) {
        const KIND: &str = "every list of three calls between two sites";
        let calls: Vec<[u8; 4]> = (0..24)
            .map(|code: u8| [code / 8, code / 4 % 2, code / 2 % 2, code % 2])
            .filter(|[kind, from, to, _]| *kind != model::PROPOSE || from == to)
            .collect();
        for rows in [[vec![3], vec![3]], [vec![1], vec![3]], [vec![1, 3], vec![2]]] {
            let table = generate::memory(&rows);
            for code in 0..calls.len().pow(3) {
                let list = [0, 1, 2].map(|place| calls[code / calls.len().pow(place) % calls.len()]);
                let input = Input {
                    bytes: list.concat(),
                    set: [0, 2][code % 2],
                    cells_room: 14,
                    bytes_room: 3,
                    ..Input::of([Question::Run, Question::RunRecords][code / 2 % 2], &table)
                };
                self.same(KIND, &input);
            }
        }
    }

    /// The lists with the most passes, those of the greatest length, and empty ones.
    fn known_lists(&mut self) {
        const KIND: &str = "lists known to be hard";
        let seed = self.seed;
        let mut both = |table: &[u64], set: u64, calls: &[[u8; 4]]| {
            let n = table.len() / ROW;
            for question in [Question::Run, Question::RunRecords] {
                let input = Input {
                    bytes: calls.concat(),
                    set,
                    cells_room: 4 * n + 6,
                    bytes_room: calls.len(),
                    ..Input::of(question, table)
                };
                self.same(KIND, &input);
            }
        };
        for n in 1..=64 {
            let rows: Vec<Vec<u64>> = (0..n).map(|v| vec![model::only(v)]).collect();
            both(&generate::memory(&rows), 0, &[]);
        }
        for n in 2..=64 {
            let (rows, calls) = generate::longest(n, n as u8 % 2, 0);
            both(&generate::memory(&rows), 0, &calls);
        }
        for n in [2, 9, 20] {
            let (rows, calls) = generate::longest(n, 0, MOST_CALLS);
            both(&generate::memory(&rows), 0, &calls);
        }
        for (shape, n) in
            [(generate::Shape::BlockChain, 10), (generate::Shape::CostlyChain, 11), (generate::Shape::Chain, 12)]
        {
            let rows = generate::rows(&mut Rng::new(seed, 7, n as u64), n, shape);
            both(&generate::memory(&rows), 0, &generate::backward_chain(n));
            both(&generate::memory(&rows), 4, &generate::backward_chain(n));
        }
        for length in MOST_CALLS - 2..=MOST_CALLS + 2 {
            let mut rng = Rng::new(seed, 8, length as u64);
            let n = rng.between(2, 5);
            let memory = generate::table(&mut rng, n);
            let table = model::table_in_memory(&memory).unwrap();
            let mut calls = generate::list(&mut rng, &table, 0, 40);
            while calls.len() < length {
                let again = rng.pick(&calls);
                calls.push(again);
            }
            rng.shuffle(&mut calls);
            both(&memory, 0, &calls[..length]);
        }
    }

    /// Puts a journal to every call of the reader; the room fits its list, or is as long as given.
    fn read_journal(&mut self, kind: &'static str, bytes: &[u8], place: u64, room: Option<usize>) {
        let bytes_room = room.unwrap_or_else(|| model::journal_calls(bytes).map_or(0, |calls| 4 * calls.len()));
        self.same(kind, &Input::with(Question::JournalCheck, bytes));
        self.same(kind, &Input { bytes_room, ..Input::with(Question::JournalList, bytes) });
        self.same(kind, &Input { place, ..Input::with(Question::JournalNext, bytes) });
    }

    /// Journals of every length up to one that is too long, and of some beyond; those close to a whole number of blocks
    /// read too, into rooms short, exact and long. 33 blocks with 125 calls each are too many calls, with 96 in the last
    /// they are not.
    fn every_length_of_a_journal(&mut self) {
        const KIND: &str = "journals of every length";
        let mut rng = Rng::new(self.seed, 9, 0);
        let longest = generate::journal(&mut rng, &[CALLS_OF_A_BLOCK; 35]);
        for length in (0..=LONGEST_JOURNAL + 4).chain([17407, 17408, 17409, 17920]) {
            let input = Input { gap: length % 8, ..Input::with(Question::JournalCheck, &longest[..length]) };
            self.same(KIND, &input);
        }
        for blocks in 0..=35 {
            for off in [-8, -1, 0, 1, 8] {
                let length = (BLOCK * blocks).saturating_add_signed(off).min(longest.len());
                self.read_journal(KIND, &longest[..length], 1, Some(500 * blocks));
            }
            for count in [1, 95, 96, 97, 124] {
                let mut counts = [CALLS_OF_A_BLOCK; 35];
                counts[blocks.max(1) - 1] = count;
                let journal = generate::journal(&mut rng, &counts[..blocks]);
                let list = 500 * blocks.max(1) + 4 * count - 500;
                for room in [0, list - 1, list, list + 1, 500 * blocks, BLOCK * blocks] {
                    self.read_journal(KIND, &journal, list as u64 / 4, Some(room));
                }
            }
        }
    }

    /// Every bit of journals of one and of two blocks, and of one block among 33, with the check left wrong and with the
    /// check mended; and every value of the bytes before the calls.
    fn every_bit_of_a_journal(&mut self) {
        const KIND: &str = "journals with each bit damaged";
        for (counts, place) in [(&[3][..], 0), (&[125, 60], 0), (&[125, 60], 1), (&[125, 125], 1)] {
            let good = generate::journal(&mut Rng::new(self.seed, 10, counts.len() as u64), counts);
            for bit in 0..8 * BLOCK {
                let mut bytes = good.clone();
                bytes[BLOCK * place + bit / 8] ^= 1 << (bit % 8);
                self.read_journal(KIND, &bytes, bit as u64 / 16, None);
                mend(&mut bytes[BLOCK * place..BLOCK * (place + 1)]);
                self.read_journal(KIND, &bytes, bit as u64 / 16, None);
            }
            for value in 0..4 * 256 {
                let mut bytes = good.clone();
                bytes[BLOCK * place + value / 256] = value as u8;
                mend(&mut bytes[BLOCK * place..BLOCK * (place + 1)]);
                self.read_journal(KIND, &bytes, 0, None);
            }
        }
        let mut counts = [CALLS_OF_A_BLOCK; 33];
        counts[32] = 96;
        let good = generate::journal(&mut Rng::new(self.seed, 10, 33), &counts);
        for place in [0, 17, 31, 32] {
            for byte in 0..BLOCK {
                let mut bytes = good.clone();
                bytes[BLOCK * place + byte] ^= 1 << (byte % 8);
                self.same(KIND, &Input::with(Question::JournalCheck, &bytes));
                mend(&mut bytes[BLOCK * place..BLOCK * (place + 1)]);
                self.same(KIND, &Input::with(Question::JournalCheck, &bytes));
            }
        }
    }

    /// Every count of a lone block; in journals of more blocks, counts of the first, of one amid and of the last. The
    /// calls are zeros, so that no filler is wrong, or all ones, so that it is with every count that is too low.
    fn every_count_of_a_block(&mut self) {
        const KIND: &str = "blocks of a journal with every count";
        let counted = |blocks: usize, place: usize, count: usize, byte: u8| {
            let calls = vec![[byte; 4]; CALLS_OF_A_BLOCK];
            let mut journal = model::journal_of(&calls.repeat(blocks));
            let block = &mut journal[BLOCK * place..BLOCK * (place + 1)];
            block[2..4].copy_from_slice(&(count as u16).to_le_bytes());
            mend(block);
            journal
        };
        for count in 0..=usize::from(u16::MAX) {
            self.same(KIND, &Input::with(Question::JournalCheck, &counted(1, 0, count, 0)));
        }
        let counts: Vec<usize> = (0..=130).chain([255, 256, 257, 381, 511, 512, 32768, 65535]).collect();
        for (blocks, place) in [(1, 0), (2, 0), (2, 1), (3, 1), (32, 31), (33, 0), (33, 31), (33, 32)] {
            for count in &counts {
                for byte in [0, 255] {
                    let place_of_call = CALLS_OF_A_BLOCK * place + count;
                    self.read_journal(KIND, &counted(blocks, place, *count, byte), place_of_call as u64, None);
                }
            }
        }
    }

    /// Two faults, each in each block of a journal of three; and one in each block of a journal of too many calls.
    fn every_pair_of_faults_of_a_journal(&mut self) {
        const KIND: &str = "journals with two faults";
        let mut rng = Rng::new(self.seed, 11, 0);
        let good = generate::journal(&mut rng, &[125, 125, 7]);
        let mut counts = [CALLS_OF_A_BLOCK; 33];
        counts[32] = 97;
        let over = generate::journal(&mut rng, &counts);
        let damage = |rng: &mut Rng, journal: &mut [u8], place: usize, fault: usize| {
            generate::damage_journal_block(rng, &mut journal[BLOCK * place..BLOCK * (place + 1)], fault)
        };
        for fault in 0..generate::JOURNAL_FAULTS {
            for code in 0..9 * generate::JOURNAL_FAULTS {
                let mut bytes = good.clone();
                damage(&mut rng, &mut bytes, code % 3, fault);
                damage(&mut rng, &mut bytes, code / 3 % 3, code / 9);
                self.read_journal(KIND, &bytes, 0, Some(code));
            }
            for place in 0..33 {
                let mut bytes = over.clone();
                damage(&mut rng, &mut bytes, place, fault);
                self.read_journal(KIND, &bytes, 4096, None);
            }
        }
    }

    /// Lists of every length, written into rooms short, exact and long; and of every number of calls, written, read and
    /// written again.
    fn every_list_kept(&mut self) {
        const KIND: &str = "lists of every length, kept";
        let calls = generate::kept_calls(&mut Rng::new(self.seed, 12, 0), MOST_CALLS + 5).concat();
        for length in 0..=4 * MOST_CALLS + 20 {
            let mut input = Input { gap: length % 8, ..Input::with(Question::JournalWrite, &calls[..length]) };
            let needed = input.journal_bytes();
            input.bytes_room = needed + length % 3;
            self.same(KIND, &input);
            if length % 4 == 0 || length % 64 == 1 {
                for bytes_room in [needed.saturating_sub(1), needed.saturating_sub(BLOCK), 0] {
                    self.same(KIND, &Input { bytes_room, ..input.clone() });
                }
            }
            if length % 4 == 0 && length <= 4 * MOST_CALLS {
                self.same(KIND, &Input::with(Question::JournalTrip, &calls[..length]));
            }
        }
    }

    /// Every place in journals of a few calls, of whole blocks and of the most; and places far beyond.
    fn every_place_in_a_journal(&mut self) {
        const KIND: &str = "every place in a journal";
        for count in [0, 1, 2, 124, 125, 126, 249, 250, 251, 375, MOST_CALLS - 1, MOST_CALLS] {
            let journal = model::journal_of(&generate::kept_calls(&mut Rng::new(self.seed, 13, count as u64), count));
            let powers = (0..64).map(|bit| 1u64 << bit);
            let far = powers.clone().chain(powers.map(|power| power.wrapping_neg()));
            let low = far.clone().map(|place| place.wrapping_add(count as u64 / 2));
            for place in (0..=count as u64 + 3).chain(far).chain(low) {
                self.same(KIND, &Input { place, ..Input::with(Question::JournalNext, &journal) });
            }
        }
    }

    // ---- What is drawn

    /// Draws inputs of each sort until it has its share of the number asked for.
    fn draw(&mut self, inputs: u64) {
        type Part = fn(&mut Comparison, &mut Rng);
        let parts: [(&[&str], u64, Part); 11] = [
            (&[TABLES], 120, Comparison::draw_tables),
            (&[IMAGES], 100, Comparison::draw_images),
            (&[WRITES], 70, Comparison::draw_writes),
            (&[TRIPS], 20, Comparison::draw_round_trips),
            (&[DRAWN_BLOCKS, DRAWN_MARKS], 60, Comparison::draw_blocks_and_marks),
            (&[SETS], 250, Comparison::draw_sets),
            (&[SHARED], 60, Comparison::draw_shared),
            (&[INTACT], 60, Comparison::draw_intact),
            (&[STEPS, REACHED, PLANTED, CIRCULAR], 180, Comparison::draw_walks),
            (&[RUNS], 80, Comparison::draw_runs),
            (&[JOURNALS, KEPT], 100, Comparison::draw_journals),
        ];
        let whole: u64 = parts.iter().map(|(_, share, _)| share).sum();
        for (part, (kinds, share, draw)) in parts.into_iter().enumerate() {
            let mut place = 0;
            while kinds.iter().map(|kind| self.kinds.get(kind).copied().unwrap_or(0)).sum::<u64>()
                < inputs * share / whole
            {
                draw(self, &mut Rng::new(self.seed, 100 + part as u64, place));
                place += 1;
            }
        }
    }

    /// A table of any size, damaged now and then: for the questions that refuse a bad table before all else.
    fn some_table(rng: &mut Rng, n: usize, damaged_once_in: usize) -> Vec<u64> {
        let mut table = generate::table(rng, n);
        if rng.once_in(damaged_once_in) {
            generate::damage_table(rng, &mut table);
        }
        table
    }

    fn draw_tables(&mut self, rng: &mut Rng) {
        let n = rng.between(1, 64);
        let good = generate::table(rng, n);
        self.same(TABLES, &Input::of(Question::TableCheck, &good));
        for _ in 0..8 {
            let mut table = good.clone();
            generate::damage_table(rng, &mut table);
            self.same(TABLES, &Input::of(Question::TableCheck, &table));
        }
    }

    fn draw_images(&mut self, rng: &mut Rng) {
        let n = if rng.once_in(3) { rng.between(1, 64) } else { rng.between(1, 9) };
        let shape = rng.pick(&SHAPES);
        let good = generate::image(&generate::rows(rng, n, shape));
        for _ in 0..8 {
            let mut bytes = good.clone();
            if !rng.once_in(8) {
                generate::damage_image(rng, &mut bytes);
            }
            if rng.once_in(16) {
                let length = if rng.once_in(2) { BLOCK * rng.below(n + 2) } else { rng.below(bytes.len() + 700) };
                bytes.resize(length, 0);
            }
            let cells_room = room(rng, ROW * n);
            let gap = if rng.once_in(2) { 0 } else { rng.below(8) };
            self.same(IMAGES, &Input { bytes, cells_room, gap, ..Input::new(Question::ImageRead) });
        }
    }

    fn draw_writes(&mut self, rng: &mut Rng) {
        let n = if rng.once_in(3) { rng.between(1, 64) } else { rng.between(1, 9) };
        let good = generate::table(rng, n);
        for _ in 0..8 {
            let mut table = good.clone();
            if !rng.once_in(3) {
                generate::damage_table(rng, &mut table);
            }
            let bytes_room = room(rng, BLOCK * n);
            self.same(WRITES, &Input { bytes_room, ..Input::of(Question::ImageWrite, &table) });
        }
    }

    fn draw_round_trips(&mut self, rng: &mut Rng) {
        let n = if rng.once_in(3) { rng.between(1, 64) } else { rng.between(1, 9) };
        let table = generate::table(rng, n);
        let (cells_room, bytes_room) = (ROW * n, BLOCK * n);
        self.same(TRIPS, &Input { cells_room, bytes_room, ..Input::of(Question::RoundTrip, &table) });
    }

    fn draw_blocks_and_marks(&mut self, rng: &mut Rng) {
        let mut bytes: Vec<u8> = (0..BLOCK).map(|_| rng.next() as u8).collect();
        if rng.once_in(4) {
            // Words close to 2^32, whose sums run over again and again.
            bytes.fill(0xff);
            bytes[rng.below(504)] = rng.next() as u8;
        }
        if !rng.once_in(8) {
            mend(&mut bytes);
        }
        if rng.once_in(4) {
            bytes[rng.below(BLOCK)] ^= 1 << rng.below(8);
        }
        self.same(DRAWN_BLOCKS, &Input { bytes, gap: rng.below(8), ..Input::new(Question::BlockCheck) });
        for _ in 0..3 {
            let site = if rng.once_in(4) { rng.next() >> rng.below(64) } else { rng.below(70) as u64 };
            let thin = rng.between(1, 2);
            let confirmed = [rng.mask(thin), rng.mask(thin)];
            self.same(DRAWN_MARKS, &Input { site, confirmed, ..Input::new(Question::Mark) });
        }
    }

    fn draw_sets(&mut self, rng: &mut Rng) {
        let n = if rng.once_in(3) { rng.between(1, 64) } else { rng.between(1, 16) };
        let table = Comparison::some_table(rng, n, 24);
        for _ in 0..16 {
            let set = generate::set(rng, &table);
            let question = rng.pick(&[Question::Quorum, Question::Largest, Question::Largest, Question::Blocks]);
            let site = match rng.below(12) {
                0 => rng.next() >> rng.below(64),
                1 => n as u64 + rng.below(2) as u64,
                _ => rng.below(n) as u64,
            };
            self.same(SETS, &Input { set, site, ..Input::of(question, &table) });
        }
    }

    fn draw_shared(&mut self, rng: &mut Rng) {
        let n = if rng.once_in(8) { rng.between(9, 14) } else { rng.between(1, 8) };
        let table = Comparison::some_table(rng, n, 30);
        self.same(SHARED, &Input::of(Question::Shared, &table));
    }

    fn draw_intact(&mut self, rng: &mut Rng) {
        let n = match rng.below(200) {
            0..=3 => rng.between(8, 10),
            4..=7 => rng.between(13, 20),
            8..=60 => rng.between(6, 7),
            _ => rng.between(1, 5),
        };
        let table = Comparison::some_table(rng, n, 30);
        for _ in 0..2 {
            let set = if rng.once_in(20) { rng.next() >> rng.below(64) } else { generate::faulty(rng, n) };
            self.same(INTACT, &Input { set, ..Input::of(Question::Intact, &table) });
        }
    }

    /// A walk of calls from a fresh state, or from one in which sites hold each other up. Each step is compared; and on
    /// the way states are planted, asked about and stepped from.
    fn draw_walks(&mut self, rng: &mut Rng) {
        let n = generate::few_sites(rng);
        let memory = generate::table(rng, n);
        let table = model::table_in_memory(&memory).unwrap();
        let faulty = generate::faulty(rng, n);
        let start_circular = rng.once_in(4);
        let mut state = match start_circular {
            true => generate::circular(rng, &table, faulty),
            false => vec![0; model::state_length(n)],
        };
        let kind = if start_circular { CIRCULAR } else { STEPS };
        let ask = |question, state: &[u64], call| Input {
            state: state.to_vec(),
            set: faulty,
            call,
            ..Input::of(question, &memory)
        };
        let length = rng.between(5, 60);
        for _ in 0..length {
            let call = generate::call(rng, &table, faulty, &state);
            self.same(kind, &ask(Question::Step, &state, call));
            model::take(&table, faulty, &mut state, call);
            if rng.once_in(4) {
                let way = rng.below(generate::PLANTS);
                let planted = generate::plant(rng, n, faulty, &state, way);
                let call = generate::call(rng, &table, faulty, &state);
                let question = rng.pick(&[Question::Sound, Question::Step]);
                self.same(PLANTED, &ask(question, &planted, call));
            }
            if rng.once_in(30) {
                // A bad table or faulty set comes before the state and the call.
                let way = rng.below(2 * generate::PLANTS);
                let planted = generate::plant(rng, n, faulty, &state, way);
                let mut input = ask(rng.pick(&[Question::Sound, Question::Step]), &planted, [9; 4]);
                if rng.once_in(2) {
                    generate::damage_table(rng, &mut input.table);
                }
                if rng.once_in(2) {
                    input.set = rng.next();
                }
                self.same(PLANTED, &input);
            }
        }
        self.same(REACHED, &ask(Question::Sound, &state, [0; 4]));
    }

    fn draw_runs(&mut self, rng: &mut Rng) {
        let n = generate::few_sites(rng);
        let (rows, longest) = generate::longest(n.max(2), rng.below(2) as u8, 0);
        let of_longest = n > 1 && rng.once_in(8);
        let memory = if of_longest { generate::memory(&rows) } else { generate::table(rng, n) };
        let table = model::table_in_memory(&memory).unwrap();
        for _ in 0..4 {
            let faulty = generate::faulty(rng, n);
            let calls = match rng.below(3) {
                0 if of_longest => {
                    let mut calls = longest.clone();
                    generate::disturb(rng, &mut calls);
                    calls
                }
                1 => generate::backward(rng, &table, faulty, 5 + 5 * n),
                _ => generate::list(rng, &table, faulty, 10 + 10 * n),
            };
            let question = rng.pick(&[Question::Run, Question::RunRecords]);
            let mut input = Input {
                bytes: calls.concat(),
                set: faulty,
                cells_room: room(rng, 4 * n + 6),
                bytes_room: room(rng, calls.len()),
                ..Input::of(question, &memory)
            };
            // Faults that come one before the other, now and then two at once.
            if rng.once_in(24) {
                generate::damage_table(rng, &mut input.table);
            }
            if rng.once_in(16) {
                input.set = rng.next();
            }
            match rng.below(20) {
                0 => input.bytes.resize(4 * MOST_CALLS + rng.below(4) * 4, 255),
                1 if question == Question::Run => input.bytes.resize(input.bytes.len() + rng.between(1, 3), 0),
                2 if question == Question::Run => input.gap = rng.below(8),
                _ => {}
            }
            self.same(RUNS, &input);
        }
    }

    /// Journals as they were written, and with damage; and lists, written.
    fn draw_journals(&mut self, rng: &mut Rng) {
        let count = generate::kept_count(rng);
        let calls = generate::kept_calls(rng, count);
        let good = match rng.below(16) {
            // Blocks with any number of calls, and more blocks or calls than there may be.
            0 => {
                let counts: Vec<usize> = (0..rng.between(1, 4)).map(|_| rng.between(0, 126)).collect();
                generate::journal(rng, &counts)
            }
            1 => {
                let mut counts = vec![CALLS_OF_A_BLOCK; rng.between(32, 34)];
                *counts.last_mut().unwrap() = rng.between(94, 126);
                generate::journal(rng, &counts)
            }
            _ => model::journal_of(&calls),
        };
        for _ in 0..8 {
            let mut bytes = good.clone();
            if !rng.once_in(3) {
                generate::damage_journal(rng, &mut bytes);
            }
            let question = rng.pick(&[Question::JournalCheck, Question::JournalList, Question::JournalNext]);
            let (place, bytes_room) = (generate::place(rng, count), room(rng, 4 * count));
            let gap = if rng.once_in(2) { 0 } else { rng.below(8) };
            self.same(JOURNALS, &Input { bytes, place, bytes_room, gap, ..Input::new(question) });
        }
        for _ in 0..2 {
            let mut input = Input::with(Question::JournalWrite, calls.as_flattened());
            match rng.below(12) {
                0 => input.bytes.resize(4 * count + rng.between(1, 3), 255),
                1 => input.bytes.resize(4 * MOST_CALLS + rng.below(12), 255),
                _ => input.gap = rng.below(8),
            }
            input.bytes_room = room(rng, input.journal_bytes());
            self.same(KEPT, &input);
        }
        self.same(KEPT, &Input::with(Question::JournalTrip, calls.as_flattened()));
    }

    // ---- The verdict program

    /// The program's output for small tables, damaged images and inputs of odd lengths.
    fn verdicts(&mut self, program: &str) {
        const KIND: &str = "verdicts of the program";
        for place in 0..400 {
            let mut rng = Rng::new(self.seed, 200, place);
            let n = if rng.once_in(6) { rng.between(8, 16) } else { rng.between(1, 7) };
            let shape = rng.pick(&SHAPES);
            let mut image = generate::image(&generate::rows(&mut rng, n, shape));
            if rng.once_in(4) {
                generate::damage_image(&mut rng, &mut image);
            }
            let faulty = if rng.once_in(8) { rng.next() } else { generate::faulty(&mut rng, n) };
            let mut bytes = [&faulty.to_le_bytes()[..], &image].concat();
            if rng.once_in(10) {
                let length = rng.pick(&[0, 7, 8, 9, 519, 520, 521, 32776, 32777, 40000]);
                bytes.resize(length, 0);
            }
            *self.kinds.entry(KIND).or_default() += 1;
            let printed = run_program(program, &bytes);
            let expected = model::verdict(&bytes);
            if printed != expected {
                println!("compare: DIFFERENCE in '{KIND}' {place}, seed {}, {} bytes of input", self.seed, bytes.len());
                println!("{}", Input { bytes: image, ..Input::new(Question::ImageRead) });
                println!("the program prints\n{printed}the model\n{expected}");
                exit(1);
            }
        }
    }
}

/// A length of room for what needs `needed`: short, exact or long.
fn room(rng: &mut Rng, needed: usize) -> usize {
    match rng.below(10) {
        0 => needed.saturating_sub(1),
        1 => rng.below(needed + 1),
        2 | 3 => needed + 1,
        4 => needed + rng.below(100),
        _ => needed,
    }
}

/// What the program prints for an input.
fn run_program(program: &str, input: &[u8]) -> String {
    let mut child = Command::new(program)
        .stdin(Stdio::piped())
        .stdout(Stdio::piped())
        .spawn()
        .unwrap_or_else(|error| panic!("{program}: {error}"));
    // The program may end before it has read everything.
    let _ = child.stdin.take().unwrap().write_all(input);
    let output = child.wait_with_output().unwrap();
    String::from_utf8_lossy(&output.stdout).into_owned()
}

const TABLES: &str = "tables drawn, one in nine good";
const IMAGES: &str = "images drawn and read";
const WRITES: &str = "tables drawn and written";
const TRIPS: &str = "round trips";
const DRAWN_BLOCKS: &str = "lone blocks drawn";
const DRAWN_MARKS: &str = "marks drawn";
const SETS: &str = "quorum, largest, blocks";
const SHARED: &str = "shared sites";
const INTACT: &str = "intact sites";
const STEPS: &str = "steps from states that calls led to";
const REACHED: &str = "states that calls led to";
const PLANTED: &str = "planted states, asked about and stepped from";
const CIRCULAR: &str = "steps from states in which sites hold each other up";
const RUNS: &str = "runs";
const JOURNALS: &str = "journals drawn and read";
const KEPT: &str = "lists drawn and kept";
