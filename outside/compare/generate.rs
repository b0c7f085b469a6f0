//! The inputs: tables of every shape and size, damage to tables and images, states that calls lead to and states that
//! none leads to, lists, journals and damage to them.

use crate::model::{self, Groups, BLOCK, CALLS_OF_A_BLOCK, MOST_CALLS, MOST_SLICES, ROW};

/// Numbers that the seed decides.
pub struct Rng(u64);

impl Rng {
    /// A stream of its own for each part of the comparison and each place in it.
    pub fn new(seed: u64, part: u64, place: u64) -> Rng {
        let mut rng = Rng(seed);
        rng.0 = rng.next() ^ part;
        rng.0 = rng.next() ^ place;
        rng
    }

    pub fn next(&mut self) -> u64 {
        self.0 = self.0.wrapping_add(0x9e37_79b9_7f4a_7c15);
        let mut z = self.0;
        z = (z ^ z >> 30).wrapping_mul(0xbf58_476d_1ce4_e5b9);
        z = (z ^ z >> 27).wrapping_mul(0x94d0_49bb_1331_11eb);
        z ^ z >> 31
    }

    /// A number below `end`, which is not 0.
    pub fn below(&mut self, end: usize) -> usize {
        (self.next() % end as u64) as usize
    }

    /// A number from `first` to `last`, both possible.
    pub fn between(&mut self, first: usize, last: usize) -> usize {
        first + self.below(last - first + 1)
    }

    /// True once in `many` times.
    pub fn once_in(&mut self, many: usize) -> bool {
        self.below(many) == 0
    }

    pub fn pick<T: Copy>(&mut self, items: &[T]) -> T {
        items[self.below(items.len())]
    }

    /// A member of a set that is not empty.
    pub fn member(&mut self, set: u64) -> usize {
        let skipped = self.below(set.count_ones() as usize);
        (0..64).filter(|site| model::contains(set, *site)).nth(skipped).unwrap()
    }

    /// A mask with about one bit in 2^`thin` set.
    pub fn mask(&mut self, thin: usize) -> u64 {
        (0..thin).fold(u64::MAX, |mask, _| mask & self.next())
    }

    pub fn shuffle<T>(&mut self, items: &mut [T]) {
        for i in (1..items.len()).rev() {
            items.swap(i, self.below(i + 1));
        }
    }
}

// ---- Tables

pub type Rows = Vec<Vec<u64>>;

/// The rows as a table in memory.
pub fn memory(rows: &[Vec<u64>]) -> Vec<u64> {
    rows.iter().flat_map(|slices| model::row_in_memory(slices)).collect()
}

/// The rows as an image.
pub fn image(rows: &[Vec<u64>]) -> Vec<u8> {
    rows.iter().enumerate().flat_map(|(site, slices)| model::block_on_file(site, rows.len(), slices)).collect()
}

/// A row that stands: masks cut to n sites, the owner put in, no two alike, at most 62, ascending.
fn row(site: usize, n: usize, masks: impl IntoIterator<Item = u64>) -> Vec<u64> {
    let mut slices = Vec::new();
    for mask in masks {
        let slice = mask & model::all_sites(n) | model::only(site);
        if !slices.contains(&slice) && slices.len() < MOST_SLICES {
            slices.push(slice);
        }
    }
    slices.sort();
    slices
}

#[derive(Clone, Copy, Debug)]
pub enum Shape {
    /// A few slices of a few sites.
    Sparse,
    /// Many slices of many sites.
    Dense,
    /// Pairs, and a triple here and there.
    Pairs,
    /// Site v needs v - 1.
    Chain,
    /// Site v needs v - 1, and slices that name site 0 come before the one that does not, as many as there is room for.
    CostlyChain,
    /// Every slice of v holds v - 1, so that its accept alone blocks v.
    BlockChain,
    /// Every slice holds site 0, or every slice the last site.
    Hub,
    /// The slices are all sets of a certain size, as far as there is room for them.
    Symmetric,
    /// The sites fall into two parts, and slices stay in their part, but for one now and then.
    Apart,
    /// One slice a site.
    Single,
    /// As many slices as there may be.
    Full,
    /// Each site with itself alone.
    Loners,
    /// Each site with all sites.
    Everybody,
    /// Each row of another shape.
    Mixed,
}

pub const SHAPES: [Shape; 14] = [
    Shape::Sparse,
    Shape::Dense,
    Shape::Pairs,
    Shape::Chain,
    Shape::CostlyChain,
    Shape::BlockChain,
    Shape::Hub,
    Shape::Symmetric,
    Shape::Apart,
    Shape::Single,
    Shape::Full,
    Shape::Loners,
    Shape::Everybody,
    Shape::Mixed,
];

/// The sets of a size that contain the site, as many as there may be slices.
fn sets_of_size(n: usize, site: usize, size: usize) -> Vec<u64> {
    let all = model::all_sites(n);
    if size + 1 == n {
        return (0..n).filter(|out| *out != site).map(|out| all & !model::only(out)).collect();
    }
    if size == 2 {
        return (0..n).filter(|other| *other != site).map(model::only).collect();
    }
    (0..1u64 << n.min(12))
        .filter(|set| set.count_ones() as usize == size && model::contains(*set, site))
        .take(MOST_SLICES)
        .collect()
}

/// A table of n sites of a shape, as rows.
pub fn rows(rng: &mut Rng, n: usize, shape: Shape) -> Rows {
    let all = model::all_sites(n);
    let size = if n <= 7 { rng.between(1, n) } else { rng.pick(&[2, n - 1]) };
    let hub = if rng.once_in(2) { 0 } else { n - 1 };
    let part = rng.next();
    let make = |rng: &mut Rng, site: usize, shape: Shape| -> Vec<u64> {
        let own = model::only(site);
        let before = model::only(site.saturating_sub(1));
        // Sets that name site 0 and not v - 1, from the lowest.
        let useless = || (0..MOST_SLICES as u64 - 1).map(move |k| (k << 1 | 1) & !before | own);
        let masks: Vec<u64> = match shape {
            Shape::Sparse => (0..rng.between(1, 4)).map(|_| rng.mask(3)).collect(),
            Shape::Dense => (0..rng.between(5, 40)).map(|_| rng.mask(1) | rng.mask(1)).collect(),
            Shape::Pairs => (0..rng.between(1, 6)).map(|_| 1 << rng.below(n) | rng.mask(6)).collect(),
            Shape::Chain => vec![before],
            Shape::CostlyChain if site > 1 => std::iter::once(before).chain(useless()).collect(),
            Shape::BlockChain if site > 1 => {
                let next = model::only((site + 1).min(n - 1));
                std::iter::once(before | next).chain(useless().map(|mask| mask | before)).collect()
            }
            Shape::CostlyChain | Shape::BlockChain => vec![before],
            Shape::Hub => (0..rng.between(1, 20)).map(|_| rng.mask(2) | model::only(hub)).collect(),
            Shape::Symmetric => sets_of_size(n, site, size),
            Shape::Apart => {
                let side = if model::contains(part, site) { part } else { !part };
                let count = rng.between(1, 5);
                let mut masks: Vec<u64> = (0..count).map(|_| rng.mask(1) & side).collect();
                if rng.once_in(2 * n) {
                    masks.push(rng.mask(2));
                }
                masks
            }
            Shape::Single => {
                let thin = rng.between(1, 4);
                vec![rng.mask(thin)]
            }
            Shape::Full => (0..200).map(|k| if n <= 8 { k } else { rng.next() }).collect(),
            Shape::Loners => vec![own],
            Shape::Everybody => vec![all],
            Shape::Mixed => unreachable!("a row has a shape of its own"),
        };
        row(site, n, if masks.is_empty() { vec![own] } else { masks })
    };
    (0..n)
        .map(|site| {
            let shape = match shape {
                Shape::Mixed => SHAPES[rng.below(SHAPES.len() - 1)],
                shape => shape,
            };
            make(rng, site, shape)
        })
        .collect()
}

/// Every row that a site of a few may have.
pub fn rows_of(n: usize, site: usize) -> Rows {
    let sets: Vec<u64> = (0..1 << n).filter(|set| model::contains(*set, site)).collect();
    (1..1 << sets.len())
        .map(|choice: u64| {
            let chosen = (0..sets.len()).filter(|i| model::contains(choice, *i));
            chosen.map(|i| sets[i]).collect()
        })
        .collect()
}

/// A table of a shape that is drawn, in memory.
pub fn table(rng: &mut Rng, n: usize) -> Vec<u64> {
    let shape = rng.pick(&SHAPES);
    memory(&rows(rng, n, shape))
}

/// A number of sites from 1 to 64, mostly a small one.
pub fn few_sites(rng: &mut Rng) -> usize {
    match rng.below(40) {
        0 | 1 => rng.between(1, 64),
        2..=9 => rng.between(7, 20),
        _ => rng.between(1, 7),
    }
}

/// A set to ask about: any, of slices, nearly all, empty; now and then one that names a site that there is not.
pub fn set(rng: &mut Rng, table: &[u64]) -> u64 {
    let n = table.len() / ROW;
    let all = if (1..=64).contains(&n) { model::all_sites(n) } else { u64::MAX };
    match rng.below(12) {
        0 => 0,
        1 => all,
        2 => rng.next(),
        3 => all & !rng.mask(4),
        4 => all & rng.mask(3),
        5 => all | rng.mask(5),
        6 | 7 if !table.is_empty() => {
            let slices = rng.between(1, 4);
            (0..slices).map(|_| rng.pick(table) & all).fold(0, |set, slice| set | slice)
        }
        8 => 1 << rng.below(64),
        _ => all & rng.next(),
    }
}

/// A faulty set, mostly of no or few sites of the table.
pub fn faulty(rng: &mut Rng, n: usize) -> u64 {
    let all = model::all_sites(n);
    match rng.below(16) {
        0..=4 => 0,
        5..=8 => 1 << rng.below(n),
        9..=12 => all & rng.mask(2),
        13 | 14 => all & rng.next(),
        _ => all,
    }
}

// ---- Damage

/// The faults of a row, each at a place of its own among the 62.
pub const ROW_FAULTS: usize = 12;

/// Puts a fault into a table at a site and a place. Some do nothing at some places: not every row has a slice there.
pub fn damage_row(table: &mut [u64], site: usize, place: usize, fault: usize) {
    let n = table.len() / ROW;
    let row = &mut table[ROW * site..ROW * (site + 1)];
    let at = 1 + place;
    let before = if place == 0 { 0 } else { row[at - 1] };
    match fault {
        0 => row[0] = place as u64,
        1 => row[0] = 63 + place as u64,
        2 => row[0] = 1 << 32 | place as u64,
        3 => row[at] &= !(1 << site),
        4 => row[at] = 0,
        5 if n < 64 => row[at] |= 1 << n,
        5 | 6 => row[at] |= 1 << 63,
        7 => row[at] = before,
        8 => row[at] = before.wrapping_sub(1) | 1 << site,
        9 => row[at..].swap(0, usize::from(place < 61)),
        10 => row[at] = u64::MAX,
        _ => row[at] |= 1,
    }
}

/// One to three faults, and a wrong length now and then.
pub fn damage_table(rng: &mut Rng, table: &mut Vec<u64>) {
    let n = table.len() / ROW;
    for _ in 0..rng.between(1, 3) {
        let site = rng.below(n);
        let used = (table[ROW * site] as usize).min(MOST_SLICES);
        let place = if rng.once_in(3) { rng.below(MOST_SLICES) } else { rng.below((used + 1).min(MOST_SLICES)) };
        damage_row(table, site, place, rng.below(ROW_FAULTS));
    }
    if rng.once_in(12) {
        let length = match rng.below(4) {
            0 => table.len() - 1,
            1 => table.len() + 1,
            2 => ROW * rng.below(67),
            _ => rng.below(ROW * 66),
        };
        table.resize(length, 1);
    }
}

/// Overwrites a field of an image: header, slice, filler, sums, any byte or bit.
pub fn damage_image(rng: &mut Rng, image: &mut [u8]) {
    let blocks = image.len() / BLOCK;
    for _ in 0..rng.between(1, 3) {
        let place = rng.below(blocks);
        let block = &mut image[BLOCK * place..BLOCK * (place + 1)];
        let count = usize::from(block[4]).min(MOST_SLICES);
        let values = [0, 1, 2, 61, 62, 63, 64, 65, 255, 256, 257, 0x8000, 0xffff, blocks, blocks + 1, place + 256];
        let value = (rng.pick(&values) as u16).to_le_bytes();
        let slice = 8 + 8 * rng.below(count.max(1));
        match rng.below(12) {
            0 => block[0..2].copy_from_slice(&value),
            1 => block[2..4].copy_from_slice(&value),
            2 => block[4..6].copy_from_slice(&value),
            3 => block[6..8].copy_from_slice(&value),
            4 => block[slice + place / 8] &= !(1 << (place % 8)),
            5 => block[slice + rng.below(8)] ^= 1 << rng.below(8),
            6 => block.copy_within(slice..slice + 8, (slice + 8).min(496)),
            7 => block[slice..slice + 8].fill(0),
            8 => block[(8 + 8 * count + rng.below(8)).min(503)] = 1,
            9 => block[504 + rng.below(8)] ^= 1 << rng.below(8),
            10 => block[rng.below(BLOCK)] = rng.next() as u8,
            _ => block[503] = 1,
        }
        if !rng.once_in(4) {
            mend(block);
        }
    }
}

/// Writes the right check into a block.
pub fn mend(block: &mut [u8]) {
    let (s, t) = model::block_sums(block);
    block[504..508].copy_from_slice(&(s as u32).to_le_bytes());
    block[508..512].copy_from_slice(&(t as u32).to_le_bytes());
}

// ---- States and calls

/// A table of whichever form that calls are drawn for.
pub trait Near: Groups {
    /// Sites that a site may need, itself among them.
    fn near(&self, rng: &mut Rng, site: usize) -> u64;
}

impl Near for model::Table {
    fn near(&self, rng: &mut Rng, site: usize) -> u64 {
        rng.pick(&self.slices[site])
    }
}

/// A call that may well be taken in the state; now and then any bytes.
pub fn call(rng: &mut Rng, table: &impl Near, faulty: u64, state: &[u64]) -> [u8; 4] {
    let n = table.n();
    if rng.once_in(16) {
        return rng.next().to_le_bytes()[..4].try_into().unwrap();
    }
    if rng.once_in(12) {
        let near = |rng: &mut Rng| rng.below(n + 2) as u8;
        return [rng.below(4) as u8, near(rng), near(rng), rng.below(3) as u8];
    }
    let side = rng.below(2);
    let correct = table.sites() & !faulty;
    let to = if correct == 0 || rng.once_in(20) { rng.below(n) } else { rng.member(correct) };
    let kind = rng.below(3);
    let sent = match kind {
        1 => state[model::voted_at(n, side)] | faulty,
        _ => state[model::accepted_at(n, side)] | faulty,
    };
    // A sender that the receiver has a slice with, if it has sent already.
    let near = table.near(rng, to) & sent;
    let from = match kind {
        0 if rng.once_in(20) => rng.below(n),
        0 => to,
        _ if near != 0 && !rng.once_in(4) => rng.member(near),
        _ if sent != 0 && !rng.once_in(6) => rng.member(sent),
        _ => rng.below(n),
    };
    [kind as u8, from as u8, to as u8, side as u8]
}

/// The ways in which a state is planted.
pub const PLANTS: usize = 20;

/// A state that a call never leads to, made from one that is sound: each clause of the state's check has a way of its
/// own. Past the ways the state stays as it is.
pub fn plant(rng: &mut Rng, n: usize, faulty: u64, state: &[u64], way: usize) -> Vec<u64> {
    let mut state = state.to_vec();
    let (all, side) = (model::all_sites(n), rng.below(2));
    let correct = all & !faulty;
    let site = if correct == 0 { rng.below(n) } else { rng.member(correct) };
    let bad = if faulty == 0 { rng.below(n) } else { rng.member(faulty) };
    let other = rng.below(n);
    let own = model::only(site);
    let cell = rng.below(state.len());
    let (voted, accepted, confirmed) =
        (model::voted_at(n, side), model::accepted_at(n, side), model::confirmed_at(n, side));
    let (votes, accepts) = (model::votes_at(site, side), model::accepts_at(site, side));
    match way {
        // The length.
        0 => {
            let length = rng.pick(&[0, 1, 4 * n, 4 * n + 5, 4 * n + 7, 4 * n + 10, 262]);
            state.resize(length, 0);
        }
        // A bit at or above n.
        1 if n < 64 => state[cell] |= 1 << rng.between(n, 63),
        2 if n < 64 => state[cell] |= 1 << n,
        // A faulty receiver.
        3 => state[4 * bad + rng.below(4)] ^= 1 << rng.below(n),
        4 => state[4 * n + rng.below(6)] ^= model::only(bad),
        5 => {
            state[voted] |= model::only(bad);
            state[model::votes_at(bad, side)] |= model::only(bad);
        }
        // Voting both sides, with the own vote heard.
        6 => {
            for side in [0, 1] {
                state[model::voted_at(n, side)] |= own;
                state[model::votes_at(site, side)] |= own;
            }
        }
        // The own vote bit, the voted mask.
        7 => state[votes] ^= own,
        8 => state[voted] ^= own,
        // The own accept bit, the accepted mask.
        9 => state[accepts] ^= own,
        10 => state[accepted] ^= own,
        // Accepted other than by the rule, with the own accept heard; confirmed other than by the rule.
        11 => {
            state[accepted] ^= own;
            state[accepts] ^= own;
        }
        12 => state[confirmed] ^= own,
        13 => {
            state[accepted] |= own;
            state[accepts] |= own;
            state[confirmed] |= own;
        }
        // Heard, but not sent.
        14 => state[votes] |= model::only(other),
        15 => state[accepts] |= model::only(other),
        // Sent and no longer heard.
        16 => state[votes] &= !model::only(other),
        17 => state[accepts] &= !model::only(other),
        // Heard from a faulty site.
        18 => state[4 * site + rng.below(4)] |= model::only(bad),
        PLANTS.. => {}
        _ => {
            for _ in 0..rng.between(1, 4) {
                let cell = rng.below(state.len());
                state[cell] ^= 1 << rng.below(64);
            }
        }
    }
    state
}

/// A sound state in which sites hold each other up: every correct site has accepted, except those that the rule does
/// not let once the others are gone. Calls from a fresh state seldom lead there.
pub fn circular(rng: &mut Rng, table: &impl Near, faulty: u64) -> Vec<u64> {
    let n = table.n();
    let correct = table.sites() & !faulty;
    let mut state = vec![0; model::state_length(n)];
    let thin = rng.between(0, 2);
    let drill = rng.next();
    for side in [0, 1] {
        let voted = correct & if side == 0 { drill } else { !drill } & rng.mask(thin);
        state[model::voted_at(n, side)] = voted;
        state[model::accepted_at(n, side)] = correct;
        for site in (0..n).filter(|site| model::contains(correct, *site)) {
            let own = model::only(site);
            state[model::votes_at(site, side)] = (voted | faulty) & rng.mask(1) & !own | voted & own;
            state[model::accepts_at(site, side)] = table.sites() & (rng.mask(1) | rng.mask(1)) | own;
        }
        loop {
            let holds = |site: &usize| {
                !model::contains(state[model::accepted_at(n, side)], *site)
                    || model::accepts(table, &state, *site, side)
            };
            let Some(falls) = (0..n).find(|site| !holds(site)) else {
                break;
            };
            state[model::accepted_at(n, side)] &= !model::only(falls);
            for site in 0..n {
                state[model::accepts_at(site, side)] &= !model::only(falls);
            }
        }
        for site in (0..n).filter(|site| model::contains(correct, *site)) {
            if model::confirms(table, &state, site, side) {
                state[model::confirmed_at(n, side)] |= model::only(site);
            }
        }
    }
    state
}

// ---- Lists

/// A list of calls: proposals, votes and accepts between sites that have slices with each other, in an order that may
/// need many passes.
pub fn list(rng: &mut Rng, table: &impl Near, faulty: u64, most: usize) -> Vec<[u8; 4]> {
    let n = table.n();
    let mut calls: Vec<[u8; 4]> = Vec::new();
    let main = rng.below(2) as u8;
    let opposed = rng.once_in(3);
    for site in 0..n {
        let side = if rng.once_in(5) { 1 - main } else { main };
        if !rng.once_in(4) {
            calls.push([0, site as u8, site as u8, side]);
        }
        if opposed && rng.once_in(2) {
            calls.push([0, site as u8, site as u8, 1 - side]);
        }
    }
    let length = rng.below(most.max(1));
    while calls.len() < length {
        let to = rng.below(n);
        let near = table.near(rng, to) | faulty;
        let from = if rng.once_in(8) { rng.below(n) } else { rng.member(near) };
        let side = if rng.once_in(4) { 1 - main } else { main };
        let kind = rng.between(1, 2);
        calls.push([kind as u8, from as u8, to as u8, side]);
    }
    match rng.below(6) {
        0 => {}
        1 => calls.reverse(),
        // Accepts first, then votes, then proposals.
        2 => calls.sort_by(|one, other| other[0].cmp(&one[0])),
        3 => calls.sort_by(|one, other| other.cmp(one)),
        _ => rng.shuffle(&mut calls),
    }
    if rng.once_in(4) {
        for _ in 0..rng.between(1, 5) {
            let bytes = rng.next().to_le_bytes();
            let small = [bytes[0] % 4, bytes[1] % (n as u8 + 2), bytes[2] % (n as u8 + 2), bytes[3] % 3];
            let bad = if rng.once_in(3) { [bytes[0], bytes[1], bytes[2], bytes[3]] } else { small };
            calls.insert(rng.below(calls.len() + 1), bad);
        }
    }
    if rng.once_in(4) && !calls.is_empty() {
        for _ in 0..rng.between(1, 8) {
            let again = rng.pick(&calls);
            calls.insert(rng.below(calls.len() + 1), again);
        }
    }
    calls
}

/// A walk of calls as they are taken one after the other, told from its end: a call waits for one that stands behind
/// it, so that every pass gets on by little.
pub fn backward(rng: &mut Rng, table: &impl Near, faulty: u64, most: usize) -> Vec<[u8; 4]> {
    let mut state = vec![0; model::state_length(table.n())];
    let mut calls = Vec::new();
    for _ in 0..3 * most {
        let before = state.clone();
        let call = call(rng, table, faulty, &state);
        model::take(table, faulty, &mut state, call);
        if (state != before || rng.once_in(30)) && calls.len() < most {
            calls.push(call);
        }
    }
    calls.reverse();
    disturb(rng, &mut calls);
    calls
}

/// Now and then two calls change places, one is dropped or said again, or one turns up for the other side.
pub fn disturb(rng: &mut Rng, calls: &mut Vec<[u8; 4]>) {
    for _ in 0..rng.below(4) {
        if calls.is_empty() {
            return;
        }
        let (place, other) = (rng.below(calls.len()), rng.below(calls.len()));
        match rng.below(5) {
            0 => calls.swap(place, other),
            1 => drop(calls.remove(place)),
            2 => calls.insert(place, calls[other]),
            3 => calls[place][3] ^= 1,
            _ => {
                let [kind, from, to, side] = calls[other];
                calls.insert(place, [kind, from, to, side ^ 1]);
            }
        }
    }
}

/// The table and the list of n + 3 passes, the most that there can be: sites 0 and 1 hold each other, and each other
/// site the one before it; accepts are told from the last site to the first. With repeats of a vote that waits, up to a
/// number of calls.
pub fn longest(n: usize, side: u8, length: usize) -> (Rows, Vec<[u8; 4]>) {
    let rows = (0..n).map(|v| vec![if v < 2 { 3 } else { model::only(v) | model::only(v - 1) }]).collect();
    let last = n as u8 - 1;
    let mut calls = vec![[2, last, 0, side]];
    calls.extend((2..=last).rev().map(|v| [2, v - 1, v, side]));
    calls.push([2, 0, 1, side]);
    while calls.len() + 3 < length {
        calls.push([1, 1, 0, side]);
    }
    calls.extend([[1, 1, 0, side], [0, 0, 0, side], [0, 1, 1, side]]);
    (rows, calls)
}

/// Accepts along a chain from its end, then every vote, then every proposal.
pub fn backward_chain(n: usize) -> Vec<[u8; 4]> {
    let n = n as u8;
    let mut calls: Vec<[u8; 4]> = (1..n).rev().map(|v| [2, v - 1, v, 0]).collect();
    calls.extend((1..n).rev().flat_map(|v| (1..n).rev().filter(move |u| *u != v).map(move |u| [1, u, v, 0])));
    calls.extend((0..n).map(|v| [0, v, v, 0]));
    calls
}

// ---- Journals

/// The calls of a journal: as many as asked for, of any bytes, of the bytes that a call has, or of the greatest words.
pub fn kept_calls(rng: &mut Rng, count: usize) -> Vec<[u8; 4]> {
    let sort = rng.below(8);
    let mut call = || {
        let bytes = rng.next().to_le_bytes();
        match sort {
            0..=2 => [bytes[0], bytes[1], bytes[2], bytes[3]],
            // Words close to 2^32, whose sums run over again and again.
            3 => [255 - bytes[0] % 2, 255, 255, 255],
            4 => [0; 4],
            _ => [bytes[0] % 3, bytes[1] % 64, bytes[2] % 64, bytes[3] % 2],
        }
    };
    (0..count).map(|_| call()).collect()
}

/// A number of calls for a journal: a few, around whole blocks, around the most, any.
pub fn kept_count(rng: &mut Rng) -> usize {
    match rng.below(16) {
        0 => 0,
        1..=4 => rng.between(1, 20),
        5..=9 => CALLS_OF_A_BLOCK * rng.between(1, 4) + rng.below(3) - 1,
        10 => CALLS_OF_A_BLOCK * rng.between(1, 32) + rng.below(3) - 1,
        11 | 12 => MOST_CALLS - rng.below(3),
        13 => rng.below(MOST_CALLS + 1),
        _ => rng.between(1, 4 * CALLS_OF_A_BLOCK),
    }
}

/// A journal of any number of blocks, each with as many calls as asked for, whether or not it may have them; past 125
/// the count alone grows.
pub fn journal(rng: &mut Rng, counts: &[usize]) -> Vec<u8> {
    let mut bytes = Vec::new();
    for (place, count) in counts.iter().enumerate() {
        let mut block = model::journal_block(place, &kept_calls(rng, (*count).min(CALLS_OF_A_BLOCK)));
        block[2..4].copy_from_slice(&(*count as u16).to_le_bytes());
        mend(&mut block);
        bytes.extend(block);
    }
    bytes
}

/// The faults of a block of a journal.
pub const JOURNAL_FAULTS: usize = 16;

/// Puts a fault into a block of a journal, and the right check behind it where the check itself is not the fault. Some
/// do nothing in some blocks: not every block has filler.
pub fn damage_journal_block(rng: &mut Rng, block: &mut [u8], fault: usize) {
    let number = u16::from_le_bytes([block[0], block[1]]);
    let count = usize::from(u16::from_le_bytes([block[2], block[3]]));
    let end = 4 + 4 * count.min(CALLS_OF_A_BLOCK);
    let mut set = |at: usize, value: u16| block[at..at + 2].copy_from_slice(&value.to_le_bytes());
    match fault {
        0 => set(0, number.wrapping_add(1)),
        1 => set(0, number.wrapping_sub(1)),
        2 => set(0, number ^ 256),
        3 => set(0, rng.next() as u16),
        4 => set(2, 0),
        5 => set(2, 126),
        6 => set(2, 124),
        7 => set(2, 125),
        8 => set(2, count as u16 ^ 256),
        9 => set(2, rng.next() as u16),
        10 => set(2, count.saturating_sub(1) as u16),
        11 if end < 504 => block[end] = 1,
        11 | 12 => block[503] = 128,
        13 if end < 504 => block[rng.between(end, 503)] ^= 1 << rng.below(8),
        13 | 14 => block[504 + rng.below(8)] ^= 1 << rng.below(8),
        _ => block[rng.below(504)] ^= 1 << rng.below(8),
    }
    let check_is_the_fault = fault == 14 || fault == 13 && end == 504 || fault == 15 && rng.once_in(2);
    if !check_is_the_fault {
        mend(block);
    }
}

/// One to three faults in blocks of a journal; now and then a fault without a new check, blocks that change places,
/// one that is there twice, one that is missing, and another length.
pub fn damage_journal(rng: &mut Rng, journal: &mut Vec<u8>) {
    let blocks = journal.len() / BLOCK;
    if blocks > 0 {
        for _ in 0..rng.between(1, 3) {
            let place = if rng.once_in(3) { blocks - 1 } else { rng.below(blocks) };
            let block = &mut journal[BLOCK * place..BLOCK * (place + 1)];
            let sums = block[504..].to_vec();
            let fault = rng.below(JOURNAL_FAULTS);
            damage_journal_block(rng, block, fault);
            if rng.once_in(8) {
                block[504..].copy_from_slice(&sums);
            }
        }
        let (one, other) = (BLOCK * rng.below(blocks), BLOCK * rng.below(blocks));
        match rng.below(16) {
            0 => journal.copy_within(one..one + BLOCK, other),
            1 => drop(journal.drain(one..one + BLOCK)),
            2 => journal.extend_from_within(one..one + BLOCK),
            _ => {}
        }
    }
    if rng.once_in(10) {
        let length = match rng.below(4) {
            0 => journal.len().saturating_sub(rng.between(1, 8)),
            1 => journal.len() + rng.between(1, 8),
            2 => BLOCK * rng.below(36),
            _ => rng.below(BLOCK * 35),
        };
        journal.resize(length, 0);
    }
}

/// A place in a journal of a number of calls: at its ends, at the ends of its blocks, far beyond, any.
pub fn place(rng: &mut Rng, calls: usize) -> u64 {
    let near = |rng: &mut Rng, at: usize| (at + 2).saturating_sub(rng.below(5)) as u64;
    let block = rng.between(0, calls / CALLS_OF_A_BLOCK);
    match rng.below(10) {
        0 => 0,
        1 | 2 => near(rng, calls),
        3 | 4 => near(rng, CALLS_OF_A_BLOCK * block),
        5 => u64::MAX - rng.below(3) as u64,
        // Places whose low part is that of a call.
        6 => (1 << rng.between(16, 63)) + rng.below(calls + 1) as u64,
        7 => rng.next() >> rng.below(64),
        _ => rng.below(calls + 1) as u64,
    }
}
