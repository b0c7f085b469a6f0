//! The rules of the siren voting once more, in plain Rust: every answer is worked out by its definition, and nothing is
//! saved on. It is written from the written rules alone, and shares no line with the library that it is compared with.
//!
//! Each public function is one public call of the library. It answers the number of the refusal (0 if there is none),
//! the place that the refusal carries, and the values of the answer, unused ones 0. On refusal no lent memory changes.
//! The comment at each function is the sentence of the rules that the function states.
//!
//! Tables of thresholds are in thresholds.rs; what does not depend on the form of a table is here, for both.

#![allow(dead_code)]

#[path = "thresholds.rs"]
pub mod thresholds;

/// "Blocks of 512 bytes, one a site"
pub const BLOCK: usize = 512;
/// "Read into memory, a site takes 63 64-bit numbers: the count, then 62 places"
pub const ROW: usize = 63;
/// "Each site has 1 to 62 slices"
pub const MOST_SLICES: usize = 62;
/// "A table has n sites, 1 to 64"
pub const MOST_SITES: usize = 64;
/// "at most 4,096 calls"
pub const MOST_CALLS: usize = 4096;
/// "Verdicts on shared sites and on intact sites are given for n up to 12."
pub const MOST_SITES_OF_A_VERDICT: usize = 12;
/// "up to 125 calls of four bytes": of a block of a journal.
pub const CALLS_OF_A_BLOCK: usize = 125;
/// 19: "length (not a multiple of 512 or over 16,896)"
pub const LONGEST_JOURNAL: usize = 16896;

/// "A call is four bytes: kind (0 propose, 1 vote, 2 accept), from, to, side."
pub const PROPOSE: u8 = 0;
pub const VOTE: u8 = 1;
pub const ACCEPT: u8 = 2;
/// "Two sides: 0 drill, 1 live"
pub const DRILL: usize = 0;
pub const LIVE: usize = 1;

/// What a public call answers.
#[derive(Clone, Copy, Debug, PartialEq, Eq)]
pub struct Answer {
    pub number: u64,
    pub place: u64,
    pub values: [u64; 3],
}

/// The number of a refusal and the place that it carries, 0 where it carries none.
#[derive(Clone, Copy, Debug, PartialEq, Eq)]
pub struct Refusal {
    pub number: u64,
    pub place: u64,
}

/// "The refusal carries the block or site number for 2 to 8 (for 7: 0) and nothing else." With the journal: "From here on
/// a fault in a block carries its number."
fn refused_at<T>(number: u64, place: usize) -> Result<T, Refusal> {
    Err(Refusal { number, place: place as u64 })
}

/// A refusal that carries nothing.
fn refused<T>(number: u64) -> Result<T, Refusal> {
    refused_at(number, 0)
}

impl From<Result<[u64; 3], Refusal>> for Answer {
    fn from(result: Result<[u64; 3], Refusal>) -> Answer {
        match result {
            Ok(values) => Answer { number: 0, place: 0, values },
            Err(Refusal { number, place }) => Answer { number, place, values: [0; 3] },
        }
    }
}

// ---- Sets of sites

/// "A set of sites is a 64-bit mask, bit v for site v."
pub fn contains(set: u64, site: usize) -> bool {
    set >> site & 1 == 1
}

/// The set of one site.
pub fn only(site: usize) -> u64 {
    1 << site
}

/// "numbered from 0": the sites 0 to n - 1.
pub fn all_sites(n: usize) -> u64 {
    (0..n).map(only).sum()
}

/// Every member of `set` is one of `whole`.
pub fn inside(set: u64, whole: u64) -> bool {
    set & !whole == 0
}

// ---- The block's check

/// A little-endian number of up to 8 bytes: "numbers little-endian".
fn number(bytes: &[u8]) -> u64 {
    bytes.iter().rev().fold(0, |value, byte| value * 256 + u64::from(*byte))
}

/// "The block's check is two sums modulo 2^32 over the first 126 four-byte words: both start at 0; for each word w, s
/// becomes s + w, then t becomes t + s."
pub fn block_sums(block: &[u8]) -> (u64, u64) {
    let modulus = 1 << 32;
    let (mut s, mut t) = (0, 0);
    for word in block[..504].chunks(4) {
        s = (s + number(word)) % modulus;
        t = (t + s) % modulus;
    }
    (s, t)
}

/// "Bytes 504 to 507 hold s, 508 to 511 hold t."
fn block_check_differs(block: &[u8]) -> bool {
    (number(&block[504..508]), number(&block[508..512])) != block_sums(block)
}

/// "Lone block: 1, 2, carrying 0."
pub fn block_check(block: &[u8]) -> Answer {
    let result = if block.len() != BLOCK {
        refused(1)
    } else if block_check_differs(block) {
        refused(2)
    } else {
        Ok([0; 3])
    };
    result.into()
}

// ---- Tables

/// A table of whichever form: how many sites there are, and of each what its slices are asked for.
pub trait Groups {
    fn n(&self) -> usize;

    /// The site has some slice inside the set.
    fn has_slice_inside(&self, site: usize, set: u64) -> bool;

    /// The set meets every slice of the site.
    fn meets_every_slice(&self, set: u64, site: usize) -> bool;

    /// The set of the sites that there are.
    fn sites(&self) -> u64 {
        all_sites(self.n())
    }

    /// The numbers of the sites in a set.
    fn members(&self, set: u64) -> impl Iterator<Item = usize> {
        (0..self.n()).filter(move |site| contains(set, *site))
    }
}

/// A table of groups: the sites that there are, and of each its slices. A table with sites deleted keeps the numbers of
/// the others.
#[derive(Clone, Debug, PartialEq, Eq)]
pub struct Table {
    pub sites: u64,
    pub slices: Vec<Vec<u64>>,
}

impl Groups for Table {
    /// The number of sites, those deleted counted too.
    fn n(&self) -> usize {
        self.slices.len()
    }

    fn has_slice_inside(&self, site: usize, set: u64) -> bool {
        self.slices[site].iter().any(|slice| inside(*slice, set))
    }

    fn meets_every_slice(&self, set: u64, site: usize) -> bool {
        self.slices[site].iter().all(|slice| slice & set != 0)
    }

    fn sites(&self) -> u64 {
        self.sites
    }
}

/// "each slice 5 then 6": 5 is "a slice lacks its owner or names a site at or above n", 6 "a slice not above the one
/// before".
fn check_slices(slices: &[u64], owner: usize, n: usize) -> Result<(), Refusal> {
    let sites = all_sites(n);
    for (i, slice) in slices.iter().enumerate() {
        if !contains(*slice, owner) || !inside(*slice, sites) {
            return refused_at(5, owner);
        }
        if i > 0 && *slice <= slices[i - 1] {
            return refused_at(6, owner);
        }
    }
    Ok(())
}

/// 1: "memory table not 63 numbers times 1 to 64". The number of sites if it is.
fn memory_sites(memory: &[u64]) -> Result<usize, Refusal> {
    let n = memory.len() / ROW;
    if !memory.len().is_multiple_of(ROW) || !(1..=MOST_SITES).contains(&n) {
        return refused(1);
    }
    Ok(n)
}

/// "site by site 4, each slice 5 then 6, then 8": 4 is "slice count 0 or over 62", 8 "an unused place not zero".
fn memory_rows(memory: &[u64], n: usize) -> Result<Table, Refusal> {
    let mut rows = Vec::new();
    for (site, row) in memory.chunks(ROW).enumerate() {
        if row[0] == 0 || row[0] > MOST_SLICES as u64 {
            return refused_at(4, site);
        }
        let (used, unused) = row[1..].split_at(row[0] as usize);
        check_slices(used, site, n)?;
        if unused.iter().any(|place| *place != 0) {
            return refused_at(8, site);
        }
        rows.push(used.to_vec());
    }
    Ok(Table { sites: all_sites(n), slices: rows })
}

/// "A table in memory is refused with 1, 4, 5, 6 or 8 by every public call that takes one." "a table in memory
/// elsewhere is checked alike, without 9"
pub fn table_in_memory(memory: &[u64]) -> Result<Table, Refusal> {
    let n = memory_sites(memory)?;
    memory_rows(memory, n)
}

/// The check of a table in memory by itself.
pub fn table_check(memory: &[u64]) -> Answer {
    table_in_memory(memory).map(|_| [0; 3]).into()
}

/// "Read into memory, a site takes 63 64-bit numbers: the count, then 62 places, unused ones zero."
pub fn row_in_memory(slices: &[u64]) -> Vec<u64> {
    let mut row = vec![slices.len() as u64];
    row.extend(slices);
    row.resize(ROW, 0);
    row
}

/// "Bytes 0 to 1 site, 2 to 3 n, 4 to 5 slice count, 6 to 7 zero, then the slices of 8 bytes, zeros up to byte 503."
/// "Bytes 504 to 507 hold s, 508 to 511 hold t."
pub fn block_on_file(site: usize, n: usize, slices: &[u64]) -> Vec<u8> {
    block_of(site, n, slices.len(), &slices.iter().flat_map(|slice| slice.to_le_bytes()).collect::<Vec<u8>>())
}

/// A block with its header, its count and what stands behind them, and its check.
fn block_of(site: usize, n: usize, count: usize, bytes: &[u8]) -> Vec<u8> {
    let mut block = Vec::new();
    block.extend((site as u16).to_le_bytes());
    block.extend((n as u16).to_le_bytes());
    block.extend((count as u16).to_le_bytes());
    block.extend([0; 2]);
    block.extend(bytes);
    block.resize(504, 0);
    let (s, t) = block_sums(&block);
    block.extend((s as u32).to_le_bytes());
    block.extend((t as u32).to_le_bytes());
    block
}

/// 3: "site is not the block's place, n is not the number of blocks, or bytes 6 to 7 not zero"
fn header_differs(block: &[u8], place: usize, n: usize) -> bool {
    let (site, sites, zero) = (number(&block[0..2]), number(&block[2..4]), number(&block[6..8]));
    site != place as u64 || sites != n as u64 || zero != 0
}

/// 1: "image length zero, not a multiple of 512, or over 32,768". The number of blocks if it is not.
fn image_sites(image: &[u8]) -> Result<usize, Refusal> {
    if image.is_empty() || !image.len().is_multiple_of(BLOCK) || image.len() > 32768 {
        return refused(1);
    }
    Ok(image.len() / BLOCK)
}

/// One block of an image of n blocks, at its place: "block by block 2, 3, 4, each slice 5 then 6, then 8". Its slices,
/// if none holds.
fn block_slices(block: &[u8], place: usize, n: usize) -> Result<Vec<u64>, Refusal> {
    if block_check_differs(block) {
        return refused_at(2, place);
    }
    if header_differs(block, place, n) {
        return refused_at(3, place);
    }
    let count = number(&block[4..6]) as usize;
    if count == 0 || count > MOST_SLICES {
        return refused_at(4, place);
    }
    let (used, filler) = block[8..504].split_at(8 * count);
    let slices: Vec<u64> = used.chunks(8).map(number).collect();
    check_slices(&slices, place, n)?;
    if filler.iter().any(|byte| *byte != 0) {
        return refused_at(8, place);
    }
    Ok(slices)
}

/// "Order, reading: 1, 9, then block by block 2, 3, 4, each slice 5 then 6, then 8; after all blocks 7." 9 is "room lent
/// too short", 7 "the table holds no quorum". "room beyond them is kept"
fn read(image: &[u8], room: &mut [u64]) -> Result<usize, Refusal> {
    let n = image_sites(image)?;
    if room.len() < ROW * n {
        return refused(9);
    }
    let mut slices = Vec::new();
    for (place, block) in image.chunks(BLOCK).enumerate() {
        slices.push(block_slices(block, place, n)?);
    }
    let table = Table { sites: all_sites(n), slices };
    if largest_inside(&table, table.sites).0 == 0 {
        return refused(7);
    }
    put_in_memory(&table, room);
    Ok(n)
}

/// The rows of a table in the first cells of a room.
fn put_in_memory(table: &Table, room: &mut [u64]) {
    for (row, slices) in room.chunks_mut(ROW).zip(&table.slices) {
        row.copy_from_slice(&row_in_memory(slices));
    }
}

/// The reading of an image into lent room; answers n.
pub fn image_read(image: &[u8], room: &mut [u64]) -> Answer {
    read(image, room).map(|n| [n as u64, 0, 0]).into()
}

/// "Writing: 1, 9, then site by site 4, each slice 5 then 6, then 8".
fn write(memory: &[u64], room: &mut [u8]) -> Result<usize, Refusal> {
    let n = memory_sites(memory)?;
    if room.len() < BLOCK * n {
        return refused(9);
    }
    let table = memory_rows(memory, n)?;
    for (site, slices) in table.slices.iter().enumerate() {
        room[BLOCK * site..BLOCK * (site + 1)].copy_from_slice(&block_on_file(site, n, slices));
    }
    Ok(n)
}

/// The writing of a table in memory into lent room; answers n.
pub fn image_write(memory: &[u64], room: &mut [u8]) -> Answer {
    write(memory, room).map(|n| [n as u64, 0, 0]).into()
}

// ---- Set questions

/// "A quorum is a non-empty set in which every member has some slice inside the set."
pub fn is_quorum(table: &impl Groups, set: u64) -> bool {
    set != 0 && inside(set, table.sites()) && table.members(set).all(|site| table.has_slice_inside(site, set))
}

/// "The largest quorum inside W: start with W; each round drops, all together, the members with no slice inside the set
/// as it stood before the round; stop when a round drops nobody. The answer is the set left (0 if none) and the number
/// of rounds that dropped somebody".
pub fn largest_inside(table: &impl Groups, w: u64) -> (u64, u64) {
    let (mut set, mut rounds) = (w, 0);
    loop {
        let stay = table.members(set).filter(|site| table.has_slice_inside(*site, set)).map(only).sum();
        if stay == set {
            return (set, rounds);
        }
        set = stay;
        rounds += 1;
    }
}

/// "A set blocks site v if it meets every slice of v. The empty set blocks nobody." And W-201: "the owner's bit is taken
/// out of the set before it is compared."
pub fn blocks_site(table: &impl Groups, set: u64, site: usize) -> bool {
    table.meets_every_slice(set & !only(site), site)
}

/// "the table meets if every two quorums have a common site. If not, the answer is the quorum P with the smallest mask
/// that has a quorum in its complement, then the largest quorum in that complement." Nothing, if the table meets.
pub fn apart(table: &Table) -> Option<(u64, u64)> {
    for p in 1..=all_sites(table.n()) {
        if is_quorum(table, p) {
            let (q, _) = largest_inside(table, table.sites & !p);
            if q != 0 {
                return Some((p, q));
            }
        }
    }
    None
}

/// "Deleting B: the sites outside B stay, and every slice loses the members of B."
pub fn deleted(table: &Table, b: u64) -> Table {
    let mut slices = vec![Vec::new(); table.n()];
    for site in table.members(table.sites & !b) {
        slices[site] = table.slices[site].iter().map(|slice| slice & !b).collect();
    }
    Table { sites: table.sites & !b, slices }
}

/// "B is dispensable if the deleted table meets and either the sites outside B form a quorum of the original table or B
/// is all sites."
pub fn dispensable(table: &Table, b: u64) -> bool {
    (is_quorum(table, table.sites & !b) || b == table.sites) && apart(&deleted(table, b)).is_none()
}

/// "Given the faulty set F, site v is intact if some dispensable B contains F and not v; otherwise befouled. This holds
/// as written also for tables that do not meet." The set of the intact sites.
pub fn intact_sites(table: &Table, faulty: u64) -> u64 {
    let candidates = (0..=table.sites).filter(|b| inside(faulty, *b));
    let dispensable: Vec<u64> = candidates.filter(|b| dispensable(table, *b)).collect();
    let intact = |site: &usize| dispensable.iter().any(|b| !contains(*b, *site));
    table.members(table.sites).filter(intact).map(only).sum()
}

/// 10: "a set names a site at or above n"
fn check_set(table: &impl Groups, set: u64) -> Result<(), Refusal> {
    if inside(set, table.sites()) {
        Ok(())
    } else {
        refused(10)
    }
}

/// 11: "site at or above n"
fn check_site(table: &impl Groups, site: u64) -> Result<usize, Refusal> {
    if site < table.n() as u64 {
        Ok(site as usize)
    } else {
        refused(11)
    }
}

/// 16: "n over 12 where a verdict needs at most 12"
fn check_verdict(table: &impl Groups) -> Result<(), Refusal> {
    if table.n() <= MOST_SITES_OF_A_VERDICT {
        Ok(())
    } else {
        refused(16)
    }
}

/// "Set questions: table, 10, 11, 16." Is the set a quorum? Answers 0 or 1.
pub fn quorum(memory: &[u64], set: u64) -> Answer {
    table_in_memory(memory).and_then(|table| ask_quorum(&table, set)).into()
}

fn ask_quorum(table: &impl Groups, set: u64) -> Result<[u64; 3], Refusal> {
    check_set(table, set)?;
    Ok([u64::from(is_quorum(table, set)), 0, 0])
}

/// "Set questions: table, 10, 11, 16." The largest quorum inside the set; answers it and the rounds.
pub fn largest(memory: &[u64], set: u64) -> Answer {
    table_in_memory(memory).and_then(|table| ask_largest(&table, set)).into()
}

fn ask_largest(table: &impl Groups, set: u64) -> Result<[u64; 3], Refusal> {
    check_set(table, set)?;
    let (left, rounds) = largest_inside(table, set);
    Ok([left, rounds, 0])
}

/// "Set questions: table, 10, 11, 16." Does the set block the site? Answers 0 or 1.
pub fn blocks(memory: &[u64], set: u64, site: u64) -> Answer {
    table_in_memory(memory).and_then(|table| ask_blocks(&table, set, site)).into()
}

fn ask_blocks(table: &impl Groups, set: u64, site: u64) -> Result<[u64; 3], Refusal> {
    check_set(table, set)?;
    let site = check_site(table, site)?;
    Ok([u64::from(blocks_site(table, set, site)), 0, 0])
}

/// "Set questions: table, 10, 11, 16." Shared sites: answers 1 if the table meets, else 0, P and Q.
pub fn shared(memory: &[u64]) -> Answer {
    let ask = || {
        let table = table_in_memory(memory)?;
        check_verdict(&table)?;
        Ok(told_apart(&table))
    };
    ask().into()
}

fn told_apart(table: &Table) -> [u64; 3] {
    apart(table).map_or([1, 0, 0], |(p, q)| [0, p, q])
}

/// "Set questions: table, 10, 11, 16." Answers the set of the intact sites.
pub fn intact(memory: &[u64], faulty: u64) -> Answer {
    let ask = || {
        let table = table_in_memory(memory)?;
        check_set(&table, faulty)?;
        check_verdict(&table)?;
        Ok([intact_sites(&table, faulty), 0, 0])
    };
    ask().into()
}

// ---- What is at stake

/// What is at stake when sites break.
#[derive(Clone, Debug, PartialEq, Eq)]
pub struct Risk {
    /// Of each site: "how many other sites are befouled if it alone is faulty".
    pub others: Vec<usize>,
    /// "the fewest faulty sites that leave nobody intact (0 if nobody is intact at all)"
    pub fewest: usize,
    /// "the lowest such set as a number"
    pub first: u64,
}

/// Table, 16. "Given the faulty set F, site v is intact if some dispensable B contains F and not v; otherwise befouled."
pub fn risk(memory: &[u64]) -> Result<Risk, Refusal> {
    let table = table_in_memory(memory)?;
    check_verdict(&table)?;
    let n = table.n();
    let sets: Vec<u64> = (0..=table.sites).filter(|b| dispensable(&table, *b)).collect();
    let intact = |faulty: u64, site: usize| sets.iter().any(|b| inside(faulty, *b) && !contains(*b, site));
    let befouled_beside = |site: usize| (0..n).filter(|other| *other != site && !intact(only(site), *other)).count();
    let others = (0..n).map(befouled_beside).collect();
    for fewest in 0..=n {
        for first in 0..=table.sites {
            if table.members(first).count() == fewest && !(0..n).any(|site| intact(first, site)) {
                return Ok(Risk { others, fewest, first });
            }
        }
    }
    unreachable!("with all sites faulty nobody is intact")
}

// ---- The voting

/// "The state is a run of 4n + 6 64-bit numbers"
pub fn state_length(n: usize) -> usize {
    4 * n + 6
}

/// "per site the votes heard for drill, votes for live, accepts for drill, accepts for live; then the masks voted
/// drill, voted live, accepted drill, accepted live, confirmed drill, confirmed live": where each stands.
pub fn votes_at(site: usize, side: usize) -> usize {
    4 * site + side
}

pub fn accepts_at(site: usize, side: usize) -> usize {
    4 * site + 2 + side
}

pub fn voted_at(n: usize, side: usize) -> usize {
    4 * n + side
}

pub fn accepted_at(n: usize, side: usize) -> usize {
    4 * n + 2 + side
}

pub fn confirmed_at(n: usize, side: usize) -> usize {
    4 * n + 4 + side
}

/// "It accepts if it belongs to the largest quorum inside the sites it heard a vote or an accept from, its own accept
/// not counted; or if the accepts heard from others block it."
pub fn accepts(table: &impl Groups, state: &[u64], site: usize, side: usize) -> bool {
    let votes = state[votes_at(site, side)];
    let others = state[accepts_at(site, side)] & !only(site);
    contains(largest_inside(table, votes | others).0, site) || blocks_site(table, others, site)
}

/// "It then confirms if it belongs to the largest quorum inside the sites it heard an accept from, its own now
/// counted."
pub fn confirms(table: &impl Groups, state: &[u64], site: usize, side: usize) -> bool {
    contains(largest_inside(table, state[accepts_at(site, side)]).0, site)
}

/// "18 means: length not 4n + 6; a bit at or above n; anything but zero for a faulty receiver; a site voting both
/// sides; own vote bit and voted mask differing; own accept bit and accepted mask differing; accepted or confirmed
/// other than the rules above give from what was heard; a vote or accept heard from a correct site that has not sent
/// it."
pub fn is_sound(table: &impl Groups, faulty: u64, state: &[u64]) -> bool {
    let n = table.n();
    if state.len() != state_length(n) || state.iter().any(|mask| !inside(*mask, table.sites())) {
        return false;
    }
    if state[voted_at(n, DRILL)] & state[voted_at(n, LIVE)] != 0 {
        return false;
    }
    for site in 0..n {
        for side in [DRILL, LIVE] {
            let (votes_heard, accepts_heard) = (state[votes_at(site, side)], state[accepts_at(site, side)]);
            let (voted, accepted) = (state[voted_at(n, side)], state[accepted_at(n, side)]);
            let confirmed = state[confirmed_at(n, side)];
            let sound = if contains(faulty, site) {
                votes_heard == 0 && accepts_heard == 0 && !contains(voted | accepted | confirmed, site)
            } else {
                contains(votes_heard, site) == contains(voted, site)
                    && contains(accepts_heard, site) == contains(accepted, site)
                    && contains(accepted, site) == accepts(table, state, site, side)
                    && contains(confirmed, site) == confirms(table, state, site, side)
                    && inside(votes_heard & !faulty, voted)
                    && inside(accepts_heard & !faulty, accepted)
            };
            if !sound {
                return false;
            }
        }
    }
    true
}

/// The refusal of a call in a sound state, 0 if it is taken: "11, 13, 12, 14, 15".
///
/// 11 is "site at or above n ..., kind over 2, side over 1"; 13 "a proposal whose from and to differ"; 12 "the receiver
/// is faulty"; 14 "the site has voted for the other side"; 15 "a correct sender has not sent this".
pub fn refusal(table: &impl Groups, faulty: u64, state: &[u64], call: [u8; 4]) -> u64 {
    let n = table.n();
    let [kind, from, to, side] = call;
    let (from, to, side) = (usize::from(from), usize::from(to), usize::from(side));
    if kind > 2 || from >= n || to >= n || side > 1 {
        return 11;
    }
    if kind == PROPOSE && from != to {
        return 13;
    }
    if contains(faulty, to) {
        return 12;
    }
    if kind == PROPOSE && contains(state[voted_at(n, 1 - side)], to) {
        return 14;
    }
    if kind == VOTE && !contains(faulty | state[voted_at(n, side)], from) {
        return 15;
    }
    if kind == ACCEPT && !contains(faulty | state[accepted_at(n, side)], from) {
        return 15;
    }
    0
}

/// One call on a sound state, its number answered. "A proposal makes the site vote for that side". "Its own vote and
/// accept are heard by itself at once." "After a taken call, the receiver alone is worked out again, for the call's
/// side." "A taken call answers 0."
pub fn take(table: &impl Groups, faulty: u64, state: &mut [u64], call: [u8; 4]) -> u64 {
    let refusal = refusal(table, faulty, state, call);
    if refusal != 0 {
        return refusal;
    }
    let n = table.n();
    let [kind, from, to, side] = call;
    let (from, to, side) = (usize::from(from), usize::from(to), usize::from(side));
    match kind {
        PROPOSE => {
            state[voted_at(n, side)] |= only(to);
            state[votes_at(to, side)] |= only(to);
        }
        VOTE => state[votes_at(to, side)] |= only(from),
        _ => state[accepts_at(to, side)] |= only(from),
    }
    if accepts(table, state, to, side) {
        state[accepted_at(n, side)] |= only(to);
        state[accepts_at(to, side)] |= only(to);
    }
    if confirms(table, state, to, side) {
        state[confirmed_at(n, side)] |= only(to);
    }
    0
}

/// "table, 10 (faulty set), 18": what a step asks before it looks at its call.
fn check_state(table: &impl Groups, faulty: u64, state: &[u64]) -> Result<[u64; 3], Refusal> {
    check_set(table, faulty)?;
    if !is_sound(table, faulty, state) {
        return refused(18);
    }
    Ok([0; 3])
}

/// The soundness of a state by itself.
pub fn sound(memory: &[u64], faulty: u64, state: &[u64]) -> Answer {
    table_in_memory(memory).and_then(|table| check_state(&table, faulty, state)).into()
}

/// "Step, its call handed over as four byte values: table, 10 (faulty set), 18, 11, 13, 12, 14, 15."
pub fn step(memory: &[u64], faulty: u64, state: &mut [u64], call: [u8; 4]) -> Answer {
    table_in_memory(memory).and_then(|table| ask_step(&table, faulty, state, call)).into()
}

fn ask_step(table: &impl Groups, faulty: u64, state: &mut [u64], call: [u8; 4]) -> Result<[u64; 3], Refusal> {
    check_state(table, faulty, state)?;
    match take(table, faulty, state, call) {
        0 => Ok([0; 3]),
        number => refused(number),
    }
}

// ---- The run

/// "from a fresh state, in passes from first to last until a pass changes nothing (that pass counts). A call refused in
/// a pass is tried again in the next. The answer is the state, the number of passes, and one byte a call with its
/// answer in the last pass."
pub fn passes(table: &impl Groups, faulty: u64, calls: &[[u8; 4]]) -> (Vec<u64>, u64, Vec<u8>) {
    let mut state = vec![0; state_length(table.n())];
    let mut count = 0;
    loop {
        let before = state.clone();
        let answers = calls.iter().map(|call| take(table, faulty, &mut state, *call) as u8).collect();
        count += 1;
        if state == before {
            return (state, count, answers);
        }
    }
}

/// The run itself, over a list that is not too long: 9, then the passes. "on success only the named cells change, room
/// beyond them is kept"
fn run_into(
    table: &impl Groups,
    faulty: u64,
    calls: &[[u8; 4]],
    state: &mut [u64],
    answers: &mut [u8],
) -> Result<[u64; 3], Refusal> {
    let length = state_length(table.n());
    if state.len() < length || answers.len() < calls.len() {
        return refused(9);
    }
    let (end, count, bytes) = passes(table, faulty, calls);
    state[..length].copy_from_slice(&end);
    answers[..calls.len()].copy_from_slice(&bytes);
    Ok([count, 0, 0])
}

/// The calls of a list of bytes, "four a call".
fn calls_of(bytes: &[u8]) -> Vec<[u8; 4]> {
    bytes.chunks(4).map(|call| [call[0], call[1], call[2], call[3]]).collect()
}

/// "Run: table, 10, 17, 9." The run over bytes, "four a call". 17: "list not a multiple of 4 bytes, or over 16,384 bytes".
/// Answers the passes.
pub fn run(memory: &[u64], faulty: u64, calls: &[u8], state: &mut [u64], answers: &mut [u8]) -> Answer {
    table_in_memory(memory).and_then(|table| ask_run(&table, faulty, calls, state, answers)).into()
}

fn ask_run(
    table: &impl Groups,
    faulty: u64,
    calls: &[u8],
    state: &mut [u64],
    answers: &mut [u8],
) -> Result<[u64; 3], Refusal> {
    check_set(table, faulty)?;
    if !calls.len().is_multiple_of(4) || calls.len() > 4 * MOST_CALLS {
        return refused(17);
    }
    run_into(table, faulty, &calls_of(calls), state, answers)
}

/// "the same run also takes its calls as a list of records of four byte values, with equal answers." 17: over "4,096
/// records".
pub fn run_records(memory: &[u64], faulty: u64, calls: &[[u8; 4]], state: &mut [u64], answers: &mut [u8]) -> Answer {
    table_in_memory(memory).and_then(|table| ask_run_records(&table, faulty, calls, state, answers)).into()
}

fn ask_run_records(
    table: &impl Groups,
    faulty: u64,
    calls: &[[u8; 4]],
    state: &mut [u64],
    answers: &mut [u8],
) -> Result<[u64; 3], Refusal> {
    check_set(table, faulty)?;
    if calls.len() > MOST_CALLS {
        return refused(17);
    }
    run_into(table, faulty, calls, state, answers)
}

// ---- The accept calls that are missing

/// What a list lacks: whether the table meets; of each side, drill and live, the accept calls that are missing, from and
/// to.
pub struct Missing {
    pub meet: bool,
    pub sides: [Vec<(usize, usize)>; 2],
}

/// "a list is complete for a side if each intact site that accepted it at the end says so to each other intact site":
/// "the accept calls between intact sites that the list lacks". "up to 12 sites": the refusals of a verdict, then 17 as
/// in a run.
pub fn missing(memory: &[u64], faulty: u64, list: &[u8]) -> Result<Missing, Answer> {
    let ask = || {
        let table = table_in_memory(memory)?;
        check_set(&table, faulty)?;
        check_verdict(&table)?;
        if !list.len().is_multiple_of(4) || list.len() > 4 * MOST_CALLS {
            return refused(17);
        }
        let calls = calls_of(list);
        let (end, _, _) = passes(&table, faulty, &calls);
        let intact = intact_sites(&table, faulty);
        let lacked = |side: usize| {
            let says = |from: usize, to: usize| calls.contains(&[ACCEPT, from as u8, to as u8, side as u8]);
            let others = |from: usize| table.members(intact & !only(from)).map(move |to| (from, to));
            let senders = table.members(intact & end[accepted_at(table.n(), side)]);
            senders.flat_map(others).filter(|(from, to)| !says(*from, *to)).collect()
        };
        Ok(Missing { meet: apart(&table).is_none(), sides: [lacked(DRILL), lacked(LIVE)] })
    };
    ask().map_err(|refusal| Err(refusal).into())
}

// ---- The mark

/// "The mark of a site is 1 (drill) exactly if it has confirmed drill and not live; else 0 (live). It is worked from a
/// site number and the two confirmed masks, for sites 0 to 63." "Mark: 11."
pub fn mark(site: u64, confirmed_drill: u64, confirmed_live: u64) -> Answer {
    let result = if site > 63 {
        refused(11)
    } else {
        let site = site as usize;
        Ok([u64::from(contains(confirmed_drill, site) && !contains(confirmed_live, site)), 0, 0])
    };
    result.into()
}

// ---- The journal of calls

/// "bytes 0 to 1 block number from 0, 2 to 3 count of calls, then up to 125 calls of four bytes, zeros to byte 503";
/// "with the check of 01".
pub fn journal_block(place: usize, calls: &[[u8; 4]]) -> Vec<u8> {
    let mut block = Vec::new();
    block.extend((place as u16).to_le_bytes());
    block.extend((calls.len() as u16).to_le_bytes());
    block.extend(calls.concat());
    block.resize(504, 0);
    let (s, t) = block_sums(&block);
    block.extend((s as u32).to_le_bytes());
    block.extend((t as u32).to_le_bytes());
    block
}

/// "Every block but the last holds 125, the last 1 to 125; an empty list is an empty file."
pub fn journal_of(calls: &[[u8; 4]]) -> Vec<u8> {
    let blocks = calls.chunks(CALLS_OF_A_BLOCK).enumerate();
    blocks.flat_map(|(place, calls)| journal_block(place, calls)).collect()
}

/// The calls of the block at a place: "then per block 2, 20 for number or count, 8".
fn journal_block_calls(block: &[u8], place: usize, last: bool) -> Result<Vec<[u8; 4]>, Refusal> {
    if block_check_differs(block) {
        return refused_at(2, place);
    }
    if number(&block[0..2]) != place as u64 {
        return refused_at(20, place);
    }
    let count = number(&block[2..4]) as usize;
    let fewest = if last { 1 } else { CALLS_OF_A_BLOCK };
    if count < fewest || count > CALLS_OF_A_BLOCK {
        return refused_at(20, place);
    }
    let (calls, filler) = block[4..504].split_at(4 * count);
    if filler.iter().any(|byte| *byte != 0) {
        return refused_at(8, place);
    }
    Ok(calls_of(calls))
}

/// "reader 19 for length (not a multiple of 512 or over 16,896), then per block 2, 20 for number or count, 8; a 4,097th
/// call is 17, after the blocks". The calls of a journal that none holds of, whatever their bytes are.
pub fn journal_calls(journal: &[u8]) -> Result<Vec<[u8; 4]>, Refusal> {
    if !journal.len().is_multiple_of(BLOCK) || journal.len() > LONGEST_JOURNAL {
        return refused(19);
    }
    let blocks = journal.len() / BLOCK;
    let mut calls = Vec::new();
    for (place, block) in journal.chunks(BLOCK).enumerate() {
        calls.extend(journal_block_calls(block, place, place + 1 == blocks)?);
    }
    if calls.len() > MOST_CALLS {
        return refused(17);
    }
    Ok(calls)
}

/// "The journal is checked whole before its first call." Answers the blocks and the calls.
pub fn journal_check(journal: &[u8]) -> Answer {
    journal_calls(journal).map(|calls| [(journal.len() / BLOCK) as u64, calls.len() as u64, 0]).into()
}

/// "writer 17, 9": 17 as in a run, "list not a multiple of 4 bytes, or over 16,384 bytes". Answers the blocks.
pub fn journal_write(calls: &[u8], room: &mut [u8]) -> Answer {
    let mut ask = || {
        if !calls.len().is_multiple_of(4) || calls.len() > 4 * MOST_CALLS {
            return refused(17);
        }
        let journal = journal_of(&calls_of(calls));
        if room.len() < journal.len() {
            return refused(9);
        }
        room[..journal.len()].copy_from_slice(&journal);
        Ok([(journal.len() / BLOCK) as u64, 0, 0])
    };
    ask().into()
}

/// The list of a journal, as a run takes it: the reader's refusals, then 9. "Reading what was written gives the list".
/// Answers the bytes of the list.
pub fn journal_list(journal: &[u8], room: &mut [u8]) -> Answer {
    let mut ask = || {
        let list = journal_calls(journal)?.concat();
        if room.len() < list.len() {
            return refused(9);
        }
        room[..list.len()].copy_from_slice(&list);
        Ok([list.len() as u64, 0, 0])
    };
    ask().into()
}

/// "a reader that holds the journal and its place and gives one call at a time, and after the last says that none is
/// left". Answers 1, the call's four bytes as one number and the next place; or nothing.
pub fn journal_next(journal: &[u8], place: u64) -> Answer {
    let ask = || {
        let calls = journal_calls(journal)?;
        Ok(match calls.iter().zip(0..).find(|(_, at)| *at == place) {
            Some((call, _)) => [1, number(call), place + 1],
            None => [0; 3],
        })
    };
    ask().into()
}

// ---- The verdict program

/// "Standard input: the faulty mask, 8 bytes little-endian, then a table image. Under 8 bytes, or over 32,776, it is
/// refusal 1. Table first, then 10, then 16." "In order: n; F; `yes` or `no` for shared sites; intact set; befouled
/// set; largest quorum outside F; its rounds."
fn verdict_lines(input: &[u8]) -> Result<String, Refusal> {
    if input.len() < 8 || input.len() > 32776 {
        return refused(1);
    }
    let (mask, image) = input.split_at(8);
    let faulty = number(mask);
    let mut memory = vec![0; ROW * MOST_SITES];
    let n = read(image, &mut memory)?;
    let table = table_in_memory(&memory[..ROW * n])?;
    check_set(&table, faulty)?;
    check_verdict(&table)?;
    let meet = if apart(&table).is_none() { "yes" } else { "no" };
    let intact = intact_sites(&table, faulty);
    let befouled = table.sites & !intact;
    let (quorum, rounds) = largest_inside(&table, table.sites & !faulty);
    Ok(format!(
        "sites {n}\nfaulty {faulty:016x}\nmeet {meet}\nintact {intact:016x}\nbefouled {befouled:016x}\n\
         quorum {quorum:016x}\nrounds {rounds}\n"
    ))
}

/// What the verdict program prints. "A refusal prints the single line `refused N K`, K the block or 0." "every line
/// ends with a newline"
pub fn verdict(input: &[u8]) -> String {
    verdict_lines(input).unwrap_or_else(|Refusal { number, place }| format!("refused {number} {place}\n"))
}

#[cfg(test)]
#[path = "tests.rs"]
mod tests;
