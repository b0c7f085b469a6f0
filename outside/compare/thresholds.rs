//! The library against the model over tables of thresholds, on many inputs: the same call is put to both, and the answer,
//! the cells of `out`, every cell of the rooms and around them, and everything that was lent to be read are compared. Where
//! the library translates the image, the same call of the list form over the translated table must do the same.
//!
//! Arguments: the number of inputs (some parts are walked through whole, whatever the number), and the seed. Ends with
//! status 1 at the first difference, after printing the smallest input found that shows one.

#[allow(dead_code)]
mod generate;
#[path = "threshold_input.rs"]
mod input;
#[allow(dead_code)]
mod library;
#[path = "../model/model.rs"]
mod model;
#[allow(dead_code)]
mod outcome;
mod page;
#[path = "threshold_shrink.rs"]
mod shrink;
mod threshold_images;
mod threshold_library;
mod watch;

use generate::{mend, Rng};
use input::{ask_model, Input, Lender, Question};
use model::thresholds::{self, Set, Thresholds, Written, MOST_SETS};
use model::{Groups, BLOCK, MOST_CALLS, ROW};
use outcome::difference;
use std::collections::BTreeMap;
use std::process::exit;
use std::time::Instant;
use threshold_images::{self as images, Shape, FAULTS, SHAPES};

const DEFAULT_INPUTS: u64 = 600_000;
const DEFAULT_SEED: u64 = 20_240_601;

fn main() {
    let mut arguments = std::env::args().skip(1);
    let mut number = |default| match arguments.next() {
        Some(word) => word.parse().unwrap_or_else(|_| panic!("not a number: {word}")),
        None => default,
    };
    let (inputs, seed) = (number(DEFAULT_INPUTS), number(DEFAULT_SEED));
    println!("compare thresholds: seed {seed}, {inputs} inputs");
    watch::begin();
    let start = Instant::now();
    let mut comparison = Comparison {
        lender: Lender::new(),
        seed,
        kinds: BTreeMap::new(),
        answers: BTreeMap::new(),
        both_forms: BTreeMap::new(),
        translated: (Vec::new(), None),
    };
    comparison.walk_through();
    comparison.draw(inputs);
    comparison.report(start.elapsed().as_secs_f64());
}

struct Comparison {
    lender: Lender,
    seed: u64,
    /// The inputs of each kind; of each question those that were answered with a number; and of these those that were put to
    /// the list form too.
    kinds: BTreeMap<&'static str, u64>,
    answers: BTreeMap<Question, BTreeMap<u64, u64>>,
    both_forms: BTreeMap<Question, u64>,
    /// The image asked about last, and what it was translated into.
    translated: (Vec<u8>, Option<Vec<u64>>),
}

/// The number that the library and the model answer, and the list form over the translated table if there is one; or how
/// they differ.
fn agree(lender: &mut Lender, input: &Input, memory: Option<&[u64]>) -> Result<u64, String> {
    let (library, model) = (watch::over(input, || lender.ask_library(input)), ask_model(input));
    if library != model {
        return Err(difference(&library, &model));
    }
    match memory.and_then(|memory| watch::over(input, || lender.ask_list_form(input, memory))) {
        Some(list_form) if list_form != library => {
            Err(format!("the list form stands for the model here: {}", difference(&library, &list_form)))
        }
        _ => Ok(model.number),
    }
}

impl Comparison {
    /// Puts one input to both. Does not come back if they differ.
    fn same(&mut self, kind: &'static str, input: &Input) {
        let count = self.kinds.entry(kind).or_default();
        *count += 1;
        if self.translated.0 != input.image {
            let few = input.image.len() <= 12 * BLOCK;
            let memory = few.then(|| watch::over(input, || self.lender.translated(&input.image))).flatten();
            self.translated = (input.image.clone(), memory);
        }
        let memory = self.translated.1.as_deref();
        let number = agree(&mut self.lender, input, memory).unwrap_or_else(|difference| {
            println!("compare: DIFFERENCE in input {count} of '{kind}', seed {}", self.seed);
            println!("{difference}");
            let mut again = |input: &Input| {
                let memory = watch::over(input, || self.lender.translated(&input.image));
                agree(&mut self.lender, input, memory.as_deref())
            };
            let smallest = shrink::shrink(input, |input| again(input).is_err());
            println!("the smallest input found:\n{smallest}");
            println!("{}", again(&smallest).unwrap_err());
            exit(1)
        });
        *self.answers.entry(input.question).or_default().entry(number).or_default() += 1;
        if memory.is_some() && input.question != Question::Translate {
            *self.both_forms.entry(input.question).or_default() += 1;
        }
    }

    fn report(&self, seconds: f64) {
        for (kind, count) in &self.kinds {
            println!("{count:>9}  {kind}");
        }
        for (question, numbers) in &self.answers {
            let counts: Vec<String> = numbers.iter().map(|(number, count)| format!("{number}: {count}")).collect();
            let both = self.both_forms.get(question).copied().unwrap_or(0);
            println!("{question:?} answered {}; in both forms {both}", counts.join(", "));
        }
        println!("compare thresholds: {} inputs in {seconds:.1} s, no difference", self.kinds.values().sum::<u64>());
    }

    // ---- What is walked through whole

    fn walk_through(&mut self) {
        self.every_shape();
        self.every_bit();
        self.every_number_of_sets();
        self.every_threshold();
        self.every_order_of_sets();
        self.every_fault();
        self.every_length();
        self.every_small_table();
        self.every_choice();
        self.larger_verdicts();
        self.every_state_of_one_site();
        self.known_states();
        self.every_short_list();
        self.known_lists();
    }

    /// Each shape with each number of sites: checked, asked and translated.
    fn every_shape(&mut self) {
        const KIND: &str = "tables of every shape and size";
        for n in 1..=64 {
            for (s, shape) in SHAPES.into_iter().enumerate() {
                let mut rng = Rng::new(self.seed, 1, (n * SHAPES.len() + s) as u64);
                let table = Thresholds { roots: images::roots(&mut rng, n, shape) };
                let image = thresholds::image_of(&table.roots);
                self.same(KIND, &Input::of(Question::Check, &image));
                self.same(KIND, &Input { cells_room: ROW * n, ..Input::of(Question::Translate, &image) });
                for set in [model::all_sites(n), images::asked(&mut rng, &table), 1 << rng.below(n)] {
                    for question in [Question::Quorum, Question::Largest] {
                        self.same(KIND, &Input { set, ..Input::of(question, &image) });
                    }
                    let site = rng.below(n) as u64;
                    self.same(KIND, &Input { set, site, ..Input::of(Question::Blocks, &image) });
                }
            }
        }
    }

    /// Every bit of small images, and of one block among 64, with the check left wrong and with the check mended.
    fn every_bit(&mut self) {
        const KIND: &str = "images with each bit damaged";
        let cases = [
            (1, 0, Shape::Deep),
            (1, 0, Shape::Full),
            (2, 1, Shape::Few),
            (3, 0, Shape::Deep),
            (5, 4, Shape::Wide),
            (64, 37, Shape::Full),
        ];
        for (c, (n, place, shape)) in cases.into_iter().enumerate() {
            let good = thresholds::image_of(&images::roots(&mut Rng::new(self.seed, 2, c as u64), n, shape));
            for bit in 0..8 * BLOCK {
                let mut image = good.clone();
                image[BLOCK * place + bit / 8] ^= 1 << (bit % 8);
                let question = [Question::Check, Question::Quorum][bit % 2];
                self.same(KIND, &Input { set: 1, gap: bit % 8, ..Input::of(question, &image) });
                mend(&mut image[BLOCK * place..BLOCK * (place + 1)]);
                self.same(KIND, &Input { set: 1, ..Input::of(question, &image) });
            }
        }
    }

    /// Every number of sets of a lone block, over 49 sets that are whole, over a root alone, and over none.
    fn every_number_of_sets(&mut self) {
        const KIND: &str = "blocks with every number of sets";
        let leaf = Written { threshold: 1, inner: 0, plain: 1 };
        let full = [vec![Written { inner: 48, ..leaf }], vec![leaf; 48]].concat();
        for sets in [&full[..], &full[..1], &[leaf], &[]] {
            let good = thresholds::block_on_file(0, 1, sets);
            for count in 0..=u16::MAX {
                if count > 600 && sets.len() != MOST_SETS && count % 256 > 51 {
                    continue;
                }
                let mut image = good.clone();
                image[4..6].copy_from_slice(&count.to_le_bytes());
                mend(&mut image);
                self.same(KIND, &Input::of(Question::Check, &image));
            }
        }
        // As many inner sets as there are sets behind, one less and one more.
        for count in 1..=MOST_SETS {
            for inner in count.saturating_sub(2)..=count {
                let root = Written { inner: inner as u8, ..leaf };
                let sets = [vec![root], vec![leaf; count - 1]].concat();
                self.same(KIND, &Input::of(Question::Check, &thresholds::block_on_file(0, 1, &sets)));
            }
        }
    }

    /// Every threshold and every number of inner sets of the root, over masks of no, of some and of all sites; and behind it
    /// as many sets as a block has.
    fn every_threshold(&mut self) {
        const KIND: &str = "roots with every threshold and number of inner sets";
        for (n, plain) in [(3, 0), (3, 5), (3, 8), (64, u64::MAX)] {
            for inner in 0..=255u8 {
                for threshold in 0..=255u8 {
                    if n == 64 && threshold % 16 > 1 && !(62..=66).contains(&threshold.wrapping_sub(inner)) {
                        continue;
                    }
                    let leaf = Written { threshold: 1, inner: 0, plain: 1 };
                    let behind = usize::from(inner).min(MOST_SETS - 1);
                    let sets = [vec![Written { threshold, inner, plain }], vec![leaf; behind]].concat();
                    let mut image = thresholds::block_on_file(0, n, &sets);
                    for site in 1..n {
                        image.extend(thresholds::block_on_file(site, n, &[leaf]));
                    }
                    self.same(KIND, &Input::of(Question::Check, &image));
                }
            }
        }
    }

    /// Every list of up to seven sets by their numbers of inner sets, 0 to 2; and of up to five with a fault at each.
    fn every_order_of_sets(&mut self) {
        const KIND: &str = "every list of up to seven sets";
        for length in 1..=7usize {
            for code in 0..3usize.pow(length as u32) {
                let inner = |i: usize| (code / 3usize.pow(i as u32) % 3) as u8;
                let sets: Vec<Written> =
                    (0..length).map(|i| Written { threshold: 1, inner: inner(i), plain: 1 }).collect();
                let image = thresholds::block_on_file(0, 1, &sets);
                self.same(KIND, &Input::of(Question::Check, &image));
                self.same(KIND, &Input { set: 1, ..Input::of(Question::Largest, &image) });
                let mut filled = image.clone();
                filled[8 + 10 * length] = 1;
                mend(&mut filled);
                self.same(KIND, &Input::of(Question::Check, &filled));
                for at in 0..if length <= 5 { length } else { 0 } {
                    for bad in [(0, 1), (1, 3), (200, 1), (0, 2)] {
                        let mut sets = sets.clone();
                        (sets[at].threshold, sets[at].plain) = bad;
                        self.same(KIND, &Input::of(Question::Check, &thresholds::block_on_file(0, 1, &sets)));
                    }
                }
            }
        }
    }

    /// Each fault in each block, with the check mended and without; two faults in one image, each in each block.
    fn every_fault(&mut self) {
        const KIND: &str = "images with each fault at each place";
        for (c, n) in [1, 2, 5, 63, 64].into_iter().enumerate() {
            let mut rng = Rng::new(self.seed, 3, c as u64);
            let good = thresholds::image_of(&images::roots(&mut rng, n, Shape::Mixed));
            for place in 0..n {
                for fault in 0..FAULTS {
                    for mended in [true, true, true, false] {
                        let mut image = good.clone();
                        images::damage_block(&mut rng, &mut image, place, fault);
                        if mended {
                            mend(&mut image[BLOCK * place..BLOCK * (place + 1)]);
                        }
                        self.same(KIND, &Input::of(Question::Check, &image));
                    }
                }
            }
        }
        let mut rng = Rng::new(self.seed, 4, 0);
        for fault in 0..FAULTS {
            for code in 0..9 * FAULTS {
                let mut image = thresholds::image_of(&images::roots(&mut rng, 3, Shape::Mixed));
                for (place, fault) in [(code % 3, fault), (code / 3 % 3, code / 9)] {
                    images::damage_block(&mut rng, &mut image, place, fault);
                    mend(&mut image[BLOCK * place..BLOCK * (place + 1)]);
                }
                self.same(KIND, &Input::of(Question::Check, &image));
            }
        }
    }

    /// Lengths of images around each whole number of blocks and past the most; rooms of the translation short, exact and
    /// long.
    fn every_length(&mut self) {
        const KIND: &str = "lengths of images and rooms";
        let leaf = |plain: u64| Set { threshold: 1, plain, inner: Vec::new() };
        for k in 0..=66 {
            let roots: Vec<Set> = (0..k).map(|v| leaf(1 << v.min(63))).collect();
            let image = thresholds::image_of(&roots);
            for off in [-8, -1, 0, 1, 8, 511] {
                let mut image = image.clone();
                image.resize(image.len().saturating_add_signed(off), 0);
                for question in [Question::Check, Question::Quorum, Question::Shared] {
                    self.same(KIND, &Input::of(question, &image));
                }
                for room in [0, ROW * k, (ROW * k).saturating_sub(1), ROW * k + 1, ROW * 66] {
                    self.same(KIND, &Input { cells_room: room, ..Input::of(Question::Translate, &image) });
                }
            }
        }
        for length in 0..1100 {
            let mut image = thresholds::image_of(&[leaf(1), leaf(2)]);
            image.resize(length, 0);
            self.same(KIND, &Input { gap: length % 8, ..Input::of(Question::Check, &image) });
        }
    }

    /// Every question and every set of a table, and one set too many.
    fn every_set(&mut self, kind: &'static str, table: &Thresholds) {
        let n = table.n();
        let image = thresholds::image_of(&table.roots);
        self.same(kind, &Input::of(Question::Check, &image));
        self.same(kind, &Input { cells_room: ROW * n, ..Input::of(Question::Translate, &image) });
        self.same(kind, &Input::of(Question::Shared, &image));
        for set in 0..=1 << n {
            for question in [Question::Quorum, Question::Largest, Question::Intact] {
                self.same(kind, &Input { set, ..Input::of(question, &image) });
            }
            for site in 0..=n as u64 {
                self.same(kind, &Input { set, site, ..Input::of(Question::Blocks, &image) });
            }
        }
    }

    /// Every table of one and of two sites with roots of one or two sets, and many of three, with every set.
    fn every_small_table(&mut self) {
        const KIND: &str = "tables of up to three sites";
        for n in 1..=2 {
            let ways = images::roots_of(n);
            for code in 0..ways.len().pow(n as u32) {
                let roots = (0..n as u32).map(|site| ways[code / ways.len().pow(site) % ways.len()].clone()).collect();
                self.every_set(KIND, &Thresholds { roots });
            }
        }
        let ways = images::roots_of(3);
        for place in 0..1500 {
            let mut rng = Rng::new(self.seed, 5, place);
            let roots = (0..3).map(|_| ways[rng.below(ways.len())].clone()).collect();
            self.every_set(KIND, &Thresholds { roots });
        }
    }

    /// So many of so many sites, translated: every number of up to 13 sites, and every number of them; alone, and with one
    /// site of which the slices are counted and all others by themselves. The numbers of smallest slices around 62 by way of
    /// two inner sets.
    fn every_choice(&mut self) {
        const KIND: &str = "so many of so many, translated";
        let leaf = |threshold: usize, plain: u64| Set { threshold, plain, inner: Vec::new() };
        for n in 1..=13 {
            for threshold in 1..=n {
                let root = leaf(threshold, model::all_sites(n));
                let image = thresholds::image_of(&vec![root.clone(); n]);
                for cells_room in [ROW * n, ROW * n + 7, ROW * n - 1] {
                    self.same(KIND, &Input { cells_room, ..Input::of(Question::Translate, &image) });
                }
                let site = (7 * threshold) % n;
                let roots: Vec<Set> =
                    (0..n).map(|v| if v == site { root.clone() } else { leaf(1, model::only(v)) }).collect();
                let image = thresholds::image_of(&roots);
                self.same(KIND, &Input { cells_room: ROW * n, ..Input::of(Question::Translate, &image) });
            }
        }
        for (few, many, more) in [(2, 7, 3), (2, 7, 2), (3, 6, 3), (2, 6, 4), (1, 8, 3), (4, 7, 1), (5, 7, 3)] {
            for third in 0..=6 {
                let (low, high) = (model::all_sites(many) << 1, model::all_sites(more) << (many + 1));
                let mut inner = vec![Set { threshold: 2, plain: 0, inner: vec![leaf(few, low), leaf(1, high)] }];
                if third > 0 {
                    inner.push(leaf(third.min(6), model::all_sites(6) << 1));
                }
                let root = Set { threshold: 1, plain: 0, inner };
                let n = 1 + many + more;
                for site in [0, 3, n - 1] {
                    let roots: Vec<Set> =
                        (0..n).map(|v| if v == site { root.clone() } else { leaf(1, model::only(v)) }).collect();
                    let image = thresholds::image_of(&roots);
                    self.same(KIND, &Input { cells_room: ROW * n, ..Input::of(Question::Translate, &image) });
                }
            }
        }
    }

    /// Shared and intact sites at 8 to 12 sites; and the refusal from 13 on.
    fn larger_verdicts(&mut self) {
        const KIND: &str = "verdicts at 8 to 64 sites";
        for n in (8..=14).chain([63, 64]) {
            for (s, shape) in SHAPES.into_iter().enumerate() {
                let mut rng = Rng::new(self.seed, 6, (n * SHAPES.len() + s) as u64);
                let image = thresholds::image_of(&images::roots(&mut rng, n, shape));
                self.same(KIND, &Input::of(Question::Shared, &image));
                if n < 11 || n > 12 || s % 4 == n % 4 {
                    let set = if s % 3 == 0 { 0 } else { model::all_sites(n) & rng.mask(3) };
                    self.same(KIND, &Input { set, ..Input::of(Question::Intact, &image) });
                }
                let set = 1 << rng.between(n.min(63), 63);
                self.same(KIND, &Input { set, ..Input::of(Question::Intact, &image) });
            }
        }
    }

    /// Every state of one site, correct and faulty: asked about, and stepped from with every call.
    fn every_state_of_one_site(&mut self) {
        const KIND: &str = "every state of one site";
        let image = thresholds::image_of(&[Set { threshold: 1, plain: 1, inner: Vec::new() }]);
        for code in 0..1 << 10 {
            let state: Vec<u64> = (0..10).map(|cell| code >> cell & 1).collect();
            for set in [0, 1] {
                self.same(KIND, &Input { state: state.clone(), set, ..Input::of(Question::Sound, &image) });
                for call in 0..8 {
                    let call = [call % 4, 0, 0, call / 4];
                    self.same(KIND, &Input { state: state.clone(), set, call, ..Input::of(Question::Step, &image) });
                }
            }
        }
    }

    /// Three of four sites that hold each other up on both sides without a vote: sound, though no call leads there.
    fn known_states(&mut self) {
        const KIND: &str = "states known to be hard";
        let image = thresholds::image_of(&vec![Set { threshold: 3, plain: 15, inner: Vec::new() }; 4]);
        let mut circular = [[0, 0, 7, 7]; 4].concat();
        circular[12..].fill(0);
        circular.extend([0, 0, 7, 7, 7, 7]);
        for cell in 0..circular.len() {
            for bit in 0..64 {
                let mut state = circular.clone();
                state[cell] ^= 1 << bit;
                self.same(KIND, &Input { state, ..Input::of(Question::Sound, &image) });
            }
        }
        for code in 0..4u32.pow(4) {
            let call = [code % 4, code / 4 % 4, code / 16 % 4, code / 64].map(|byte| byte as u8);
            let state = circular.clone();
            self.same(KIND, &Input { state, call, ..Input::of(Question::Step, &image) });
        }
    }

    /// Every list of three calls between two sites, over tables in which they need each other, only one the other, or
    /// neither names itself.
    fn every_short_list(&mut self) {
        const KIND: &str = "every list of three calls between two sites";
        let calls: Vec<[u8; 4]> = (0..24)
            .map(|code: u8| [code / 8, code / 4 % 2, code / 2 % 2, code % 2])
            .filter(|[kind, from, to, _]| *kind != model::PROPOSE || from == to)
            .collect();
        let leaf = |threshold, plain| Set { threshold, plain, inner: Vec::new() };
        for roots in [[leaf(2, 3), leaf(2, 3)], [leaf(1, 1), leaf(1, 1)], [leaf(1, 2), leaf(1, 3)]] {
            let image = thresholds::image_of(&roots);
            for code in 0..calls.len().pow(3) {
                let list = [0, 1, 2].map(|place| calls[code / calls.len().pow(place) % calls.len()]);
                let input = Input {
                    list: list.concat(),
                    set: [0, 2][code % 2],
                    cells_room: 14,
                    bytes_room: 3,
                    ..Input::of([Question::Run, Question::RunRecords][code / 2 % 2], &image)
                };
                self.same(KIND, &input);
            }
        }
    }

    /// The lists with the most passes, those of the greatest length, and empty ones.
    fn known_lists(&mut self) {
        const KIND: &str = "lists known to be hard";
        let mut both = |roots: &[Set], set: u64, calls: &[[u8; 4]]| {
            let image = thresholds::image_of(roots);
            for question in [Question::Run, Question::RunRecords] {
                let input = Input {
                    list: calls.concat(),
                    set,
                    cells_room: 4 * roots.len() + 6,
                    bytes_room: calls.len(),
                    ..Input::of(question, &image)
                };
                self.same(KIND, &input);
            }
        };
        // Site v needs v - 1, by a mask or by an inner set.
        let chain = |n: usize, inner: bool| -> Vec<Set> {
            let root = |v: usize| match v {
                0 | 1 => Set { threshold: 2, plain: 3, inner: Vec::new() },
                _ if inner => {
                    let before = Set { threshold: 1, plain: model::only(v - 1), inner: Vec::new() };
                    Set { threshold: 1, plain: 0, inner: vec![before] }
                }
                _ => Set { threshold: 1, plain: model::only(v - 1), inner: Vec::new() },
            };
            (0..n).map(root).collect()
        };
        for n in 1..=64 {
            both(&vec![Set { threshold: 1, plain: 1, inner: Vec::new() }; n], 0, &[]);
        }
        for n in 2..=64 {
            both(&chain(n, n % 3 == 0), 0, &generate::longest(n, n as u8 % 2, 0).1);
        }
        for n in [2, 9, 20] {
            both(&chain(n, false), 0, &generate::longest(n, 0, MOST_CALLS).1);
        }
        for n in [5, 10] {
            both(&chain(n, true), 0, &generate::backward_chain(n));
            both(&chain(n, true), 4, &generate::backward_chain(n));
        }
        for length in MOST_CALLS - 2..=MOST_CALLS + 2 {
            let roots = chain(3, true);
            let calls: Vec<[u8; 4]> = (0..length).map(|i| [2 - i as u8 % 3, 0, i as u8 / 3 % 3, 0]).collect();
            both(&roots, 0, &calls);
        }
    }

    // ---- What is drawn

    /// Draws inputs of each sort until it has its share of the number asked for.
    fn draw(&mut self, inputs: u64) {
        type Part = fn(&mut Comparison, &mut Rng);
        let parts: [(&[&str], u64, Part); 7] = [
            (&[IMAGES], 200, Comparison::draw_images),
            (&[SETS], 300, Comparison::draw_sets),
            (&[SHARED], 50, Comparison::draw_shared),
            (&[INTACT], 50, Comparison::draw_intact),
            (&[STEPS, REACHED, PLANTED, CIRCULAR], 200, Comparison::draw_walks),
            (&[RUNS], 100, Comparison::draw_runs),
            (&[TRANSLATIONS], 100, Comparison::draw_translations),
        ];
        let whole: u64 = parts.iter().map(|(_, share, _)| share).sum();
        for (part, (kinds, share, draw)) in parts.into_iter().enumerate() {
            let mut place = 0;
            while kinds.iter().map(|kind| self.kinds.get(kind).copied().unwrap_or(0)).sum::<u64>()
                < inputs * share / whole
            {
                draw(self, &mut Rng::new(self.seed, 300 + part as u64, place));
                place += 1;
            }
        }
    }

    fn draw_images(&mut self, rng: &mut Rng) {
        let n = if rng.once_in(3) { rng.between(1, 64) } else { rng.between(1, 9) };
        let good = thresholds::image_of(&images::table(rng, n).roots);
        for _ in 0..8 {
            let mut image = good.clone();
            if !rng.once_in(8) {
                images::damage(rng, &mut image);
            }
            let question = match rng.below(12) {
                0 => Question::Translate,
                1 => Question::Largest,
                2 => Question::Shared,
                3 => Question::Run,
                _ => Question::Check,
            };
            let few = image.len() <= 7 * BLOCK || image.len() > 12 * BLOCK;
            let question = if few || question == Question::Largest { question } else { Question::Check };
            let gap = if rng.once_in(2) { 0 } else { rng.below(8) };
            let (cells_room, bytes_room) = (room(rng, ROW * n), room(rng, 3));
            let list = vec![0; 4 * rng.below(4)];
            self.same(IMAGES, &Input { gap, cells_room, bytes_room, list, ..Input::of(question, &image) });
        }
    }

    /// An image of a table, damaged now and then: for the questions that refuse a bad one before all else.
    fn some_image(rng: &mut Rng, table: &Thresholds, damaged_once_in: usize) -> Vec<u8> {
        let mut image = thresholds::image_of(&table.roots);
        if rng.once_in(damaged_once_in) {
            images::damage(rng, &mut image);
        }
        image
    }

    fn draw_sets(&mut self, rng: &mut Rng) {
        let n = if rng.once_in(3) { rng.between(1, 64) } else { rng.between(1, 16) };
        let table = images::table(rng, n);
        let image = Comparison::some_image(rng, &table, 24);
        for _ in 0..16 {
            let set = images::asked(rng, &table);
            let question = rng.pick(&[Question::Quorum, Question::Largest, Question::Largest, Question::Blocks]);
            let site = match rng.below(12) {
                0 => rng.next() >> rng.below(64),
                1 => n as u64 + rng.below(2) as u64,
                _ => rng.below(n) as u64,
            };
            self.same(SETS, &Input { set, site, ..Input::of(question, &image) });
        }
    }

    fn draw_shared(&mut self, rng: &mut Rng) {
        let n = if rng.once_in(12) { rng.between(8, 14) } else { rng.between(1, 7) };
        let table = images::table(rng, n);
        let image = Comparison::some_image(rng, &table, 30);
        self.same(SHARED, &Input::of(Question::Shared, &image));
    }

    fn draw_intact(&mut self, rng: &mut Rng) {
        let n = match rng.below(200) {
            0 | 1 => rng.between(8, 9),
            2..=7 => rng.between(13, 20),
            8..=40 => rng.between(6, 7),
            _ => rng.between(1, 5),
        };
        let table = images::table(rng, n);
        let image = Comparison::some_image(rng, &table, 30);
        for _ in 0..2 {
            let set = if rng.once_in(20) { rng.next() >> rng.below(64) } else { generate::faulty(rng, n) };
            self.same(INTACT, &Input { set, ..Input::of(Question::Intact, &image) });
        }
    }

    /// A walk of calls from a fresh state, or from one in which sites hold each other up. Each step is compared; and on
    /// the way states are planted, asked about and stepped from.
    fn draw_walks(&mut self, rng: &mut Rng) {
        let n = generate::few_sites(rng);
        let table = images::table(rng, n);
        let image = thresholds::image_of(&table.roots);
        let faulty = generate::faulty(rng, n);
        let start_circular = rng.once_in(4);
        let mut state = match start_circular {
            true => generate::circular(rng, &table, faulty),
            false => vec![0; model::state_length(n)],
        };
        let kind = if start_circular { CIRCULAR } else { STEPS };
        let ask = |question, state: &[u64], call| Input {
            state: state.to_vec(),
            set: faulty,
            call,
            ..Input::of(question, &image)
        };
        let length = rng.between(5, 60);
        for _ in 0..length {
            let call = generate::call(rng, &table, faulty, &state);
            self.same(kind, &ask(Question::Step, &state, call));
            model::take(&table, faulty, &mut state, call);
            if rng.once_in(4) {
                let way = rng.below(generate::PLANTS);
                let planted = generate::plant(rng, n, faulty, &state, way);
                let call = generate::call(rng, &table, faulty, &state);
                let question = rng.pick(&[Question::Sound, Question::Step]);
                self.same(PLANTED, &ask(question, &planted, call));
            }
            if rng.once_in(30) {
                // A bad image or faulty set comes before the state and the call.
                let way = rng.below(2 * generate::PLANTS);
                let planted = generate::plant(rng, n, faulty, &state, way);
                let mut input = ask(rng.pick(&[Question::Sound, Question::Step]), &planted, [9; 4]);
                if rng.once_in(2) {
                    images::damage(rng, &mut input.image);
                }
                if rng.once_in(2) {
                    input.set = rng.next();
                }
                self.same(PLANTED, &input);
            }
        }
        self.same(REACHED, &ask(Question::Sound, &state, [0; 4]));
    }

    fn draw_runs(&mut self, rng: &mut Rng) {
        let n = generate::few_sites(rng);
        let table = images::table(rng, n);
        let image = thresholds::image_of(&table.roots);
        for _ in 0..4 {
            let faulty = generate::faulty(rng, n);
            let calls = match rng.below(3) {
                0 => generate::backward(rng, &table, faulty, 5 + 5 * n),
                _ => generate::list(rng, &table, faulty, 10 + 10 * n),
            };
            let question = rng.pick(&[Question::Run, Question::RunRecords]);
            let mut input = Input {
                list: calls.concat(),
                set: faulty,
                cells_room: room(rng, 4 * n + 6),
                bytes_room: room(rng, calls.len()),
                ..Input::of(question, &image)
            };
            // Faults that come one before the other, now and then two at once.
            if rng.once_in(24) {
                images::damage(rng, &mut input.image);
            }
            if rng.once_in(16) {
                input.set = rng.next();
            }
            match rng.below(20) {
                0 => input.list.resize(4 * MOST_CALLS + rng.below(4) * 4, 255),
                1 if question == Question::Run => input.list.resize(input.list.len() + rng.between(1, 3), 0),
                2 if question == Question::Run => input.gap = rng.below(8),
                _ => {}
            }
            self.same(RUNS, &input);
        }
    }

    /// Translations of few sites, mostly of few slices; now and then of more sites than there may be.
    fn draw_translations(&mut self, rng: &mut Rng) {
        let n = match rng.below(30) {
            0 => rng.between(10, 12),
            1 => rng.between(13, 20),
            2..=4 => rng.between(8, 9),
            _ => rng.between(1, 7),
        };
        let table = images::table(rng, n);
        let image = Comparison::some_image(rng, &table, 30);
        for _ in 0..2 {
            let cells_room = room(rng, ROW * n);
            let gap = if rng.once_in(2) { 0 } else { rng.below(8) };
            self.same(TRANSLATIONS, &Input { cells_room, gap, ..Input::of(Question::Translate, &image) });
        }
    }
}

/// A length of room for what needs `needed`: short, exact or long.
fn room(rng: &mut Rng, needed: usize) -> usize {
    match rng.below(10) {
        0 => needed.saturating_sub(1),
        1 => rng.below(needed + 1),
        2 | 3 => needed + 1,
        4 => needed + rng.below(100),
        _ => needed,
    }
}

const IMAGES: &str = "images drawn, one in eight good";
const SETS: &str = "quorum, largest, blocks";
const SHARED: &str = "shared sites";
const INTACT: &str = "intact sites";
const STEPS: &str = "steps from states that calls led to";
const REACHED: &str = "states that calls led to";
const PLANTED: &str = "planted states, asked about and stepped from";
const CIRCULAR: &str = "steps from states in which sites hold each other up";
const RUNS: &str = "runs";
const TRANSLATIONS: &str = "translations";
