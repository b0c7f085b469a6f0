//! The answers over tables of thresholds as fast as plain Rust gives them. A table is its image: a set is read where it
//! stands.

use super::{
    all_sites, answer, check_held, each, intact_by, or_absent, parts, passes_by, shared_by, sums, sums_in_order,
    take_by, transpose, Holders, Questions, Quorums, Refusal, Sets, Sums, ACCEPTED, BLOCK, CONFIRMED, CONTAIN,
    MOST_SITES, ROW, VOTED,
};
use crate::model::Answer;

const MOST_SETS: usize = 49;
const SET: usize = 10;

// ---- Tables

type Block = [u8; BLOCK];

/// The sets of a block that has been checked.
#[inline(always)]
fn sets(block: &Block) -> &[[u8; SET]] {
    &block[8..498].as_chunks::<SET>().0[..usize::from(block[4]).min(MOST_SETS)]
}

#[inline(always)]
fn plain(set: &[u8; SET]) -> u64 {
    u64::from_le_bytes(*set.last_chunk::<8>().unwrap())
}

/// What the sets are owed, a byte for each from the root down, the last lowest: as if a set above the root were owed the
/// root. Above all stands a one, so that a byte of zero at the upper end counts.
const ROOT_OWED: u64 = 1 << 8 | 1;
/// All are whole.
const WHOLE: u64 = 1;
/// A set that is put behind these would stand at the fifth level.
const FIVE_LEVELS: u64 = 1 << 40;

/// Without the sets at the end that are owed nothing.
#[inline(always)]
fn closed(owed: u64) -> u64 {
    owed.wrapping_shr(owed.trailing_zeros() & !7)
}

/// The first fault of the sets and the filler of a block, 0 if there is none: all of them are looked at without a branch,
/// and only a block that has a fault is walked again for which one is the first.
#[inline(always)]
fn sets_fault(block: &Block, sites: u64) -> u64 {
    let sets = sets(block);
    let (mut some, mut bad, mut owed) = (0, false, ROOT_OWED);
    for set in sets {
        let plain = plain(set);
        some |= plain;
        bad |= u32::from(set[0]).wrapping_sub(1) >= plain.count_ones() + u32::from(set[1]);
        owed = closed(owed);
        bad |= owed.wrapping_sub(2) >= FIVE_LEVELS - 2;
        owed = owed.wrapping_sub(1) << 8 | u64::from(set[1]);
    }
    let filler = block[8 + SET * sets.len()..504].iter().fold(0, |some, byte| some | byte);
    if !bad && some & !sites == 0 && closed(owed) == WHOLE && filler == 0 {
        return 0;
    }
    first_fault(sets, sites)
}

#[inline(never)]
fn first_fault(sets: &[[u8; SET]], sites: u64) -> u64 {
    let mut owed = ROOT_OWED;
    for set in sets {
        let plain = plain(set);
        if plain & !sites != 0 {
            return 5;
        }
        if u32::from(set[0]).wrapping_sub(1) >= plain.count_ones() + u32::from(set[1]) {
            return 21;
        }
        owed = closed(owed);
        if owed.wrapping_sub(2) >= FIVE_LEVELS - 2 {
            return 22;
        }
        owed = (owed - 1) << 8 | u64::from(set[1]);
    }
    if closed(owed) == WHOLE {
        8
    } else {
        22
    }
}

/// Checks an image, and gives its blocks.
#[inline(always)]
fn checked_by(image: &[u8], sums: Sums) -> Result<&[Block], Refusal> {
    let (blocks, rest) = image.as_chunks::<BLOCK>();
    let n = blocks.len();
    if n == 0 || n > MOST_SITES || !rest.is_empty() {
        return Err((1, 0));
    }
    let sites = all_sites(n);
    for (site, block) in blocks.iter().enumerate() {
        let refused = |number| Err((number, site as u64));
        if !check_held(block, sums(block)) {
            return refused(2);
        }
        let head = u64::from_le_bytes(*block.first_chunk::<8>().unwrap());
        if head & 0xffff_0000_ffff_ffff != site as u64 | (n as u64) << 16 {
            return refused(3);
        }
        if (head >> 32).wrapping_sub(1) >= MOST_SETS as u64 {
            return refused(4);
        }
        let fault = sets_fault(block, sites);
        if fault != 0 {
            return refused(fault);
        }
    }
    Ok(blocks)
}

#[inline(never)]
fn checked(image: &[u8]) -> Result<&[Block], Refusal> {
    checked_by(image, sums)
}

#[inline(never)]
fn checked_in_order(image: &[u8]) -> Result<&[Block], Refusal> {
    checked_by(image, sums_in_order)
}

/// The check of an image in one way or another.
pub type Checked = fn(&[u8]) -> Result<&[Block], Refusal>;

/// Which way the sums are added: what takes most of the time of a short question.
pub const IN_LANES: Checked = checked;
pub const IN_ORDER: Checked = checked_in_order;

pub fn check(image: &[u8], checked: Checked) -> Answer {
    answer(checked(image).map(|_| [0; 3]))
}

// ---- Set questions

#[inline(always)]
fn alone_met(root: &[u8; SET], present: u64) -> bool {
    (plain(root) & present).count_ones() >= u32::from(root[0])
}

/// How many ones a byte has.
static ONES: [u8; 256] = {
    let mut ones = [0; 256];
    let mut byte = 0;
    while byte < 256 {
        ones[byte] = byte.count_ones() as u8;
        byte += 1;
    }
    ones
};

/// Is the root met? The plain sites are counted first, since no count waits for another. Then from the last set to the first:
/// those that wait for the set they are inside of are the bits of a word, the next one lowest.
#[inline(always)]
fn met(block: &Block, present: u64) -> bool {
    match sets(block) {
        [root] => alone_met(root, present),
        sets => many_met(sets, present),
    }
}

#[inline(never)]
fn many_met(sets: &[[u8; SET]], present: u64) -> bool {
    let mut counts = [0u8; 64];
    for (count, set) in counts.iter_mut().zip(sets) {
        *count = (plain(set) & present).count_ones() as u8;
    }
    let mut waiting = 0u64;
    for (set, count) in sets.iter().zip(&counts).rev() {
        let mut count = u32::from(*count);
        if set[1] != 0 {
            let inner = u32::from(set[1]) & 63;
            let these = waiting & !(u64::MAX << inner);
            count += if inner <= 8 { ONES[these as usize & 255].into() } else { these.count_ones() };
            waiting >>= inner;
        }
        waiting = waiting << 1 | u64::from(count >= u32::from(set[0]));
    }
    waiting & 1 == 1
}

/// All sites that the sets of a block name.
#[inline(always)]
fn named(block: &Block) -> u64 {
    sets(block).iter().fold(0, |named, set| named | plain(set))
}

/// The largest quorum inside w of the table without `gone`, and the rounds. After the first round only the sites are asked
/// again whose sets name one that was dropped. Stops early, with whatever is left, once a site of `wanted` has dropped out.
#[inline(always)]
fn narrow(blocks: &[Block], w: u64, gone: u64, wanted: u64) -> (u64, u64) {
    let (mut set, mut rounds) = (w, 0);
    let mut stay = set;
    each(set, |v| stay &= !(u64::from(!met(&blocks[v], set | gone)) << v));
    if stay == set {
        return (set, 0);
    }
    let mut names = [0u64; MOST_SITES];
    each(stay, |v| names[v] = named(&blocks[v]));
    while stay != set {
        let dropped = set & !stay;
        set = stay;
        rounds += 1;
        if wanted & !set != 0 {
            break;
        }
        // From the third round on, which may be the third of many, it is known of each site who names it.
        if rounds == 3 {
            transpose(&mut names);
        }
        let mut asked = 0;
        if rounds < 3 {
            each(set, |v| asked |= u64::from(names[v] & dropped != 0) << v);
        } else {
            each(dropped, |v| asked |= names[v]);
        }
        each(asked & set, |v| stay &= !(u64::from(!met(&blocks[v], set | gone)) << v));
    }
    (set, rounds)
}

#[inline(always)]
fn is_quorum(blocks: &[Block], set: u64, gone: u64) -> bool {
    let mut rest = set;
    while rest != 0 {
        if !met(&blocks[rest.trailing_zeros() as usize], set | gone) {
            return false;
        }
        rest &= rest - 1;
    }
    true
}

/// Do the others block the site? What is left of the sites does not meet its root.
#[inline(always)]
fn is_blocked(blocks: &[Block], site: usize, others: u64) -> bool {
    !met(&blocks[site], all_sites(blocks.len()) & !others)
}

#[inline(always)]
fn check_set(blocks: &[Block], set: u64) -> Result<(), Refusal> {
    if set & !all_sites(blocks.len()) != 0 {
        Err((10, 0))
    } else {
        Ok(())
    }
}

pub fn quorum(image: &[u8], set: u64) -> Answer {
    answer((|| {
        let blocks = checked(image)?;
        check_set(blocks, set)?;
        Ok([u64::from(set != 0 && is_quorum(blocks, set, 0)), 0, 0])
    })())
}

pub fn largest(image: &[u8], set: u64, checked: Checked) -> Answer {
    answer((|| {
        let blocks = checked(image)?;
        check_set(blocks, set)?;
        let (left, rounds) = narrow(blocks, set, 0, 0);
        Ok([left, rounds, 0])
    })())
}

pub fn blocks(image: &[u8], set: u64, site: u64) -> Answer {
    answer((|| {
        let blocks = checked(image)?;
        check_set(blocks, set)?;
        if site >= blocks.len() as u64 {
            return Err((11, 0));
        }
        Ok([u64::from(is_blocked(blocks, site as usize, set & !(1 << site))), 0, 0])
    })())
}

// ---- The verdicts

/// The questions answered from the sets.
struct Search<'a>(&'a [Block]);

impl Quorums for Search<'_> {
    #[inline(always)]
    fn is_quorum(&self, set: u32, gone: u32) -> bool {
        is_quorum(self.0, set.into(), gone.into())
    }

    #[inline(always)]
    fn largest(&self, set: u32, gone: u32) -> u32 {
        narrow(self.0, set.into(), gone.into(), 0).0 as u32
    }
}

/// Of the 64 sets of six sites, each a bit of a word, those that have at least so many of some of the sites; seven stand for
/// more than there are.
static AT_LEAST: [[u64; 8]; 64] = {
    let mut words = [[0; 8]; 64];
    let mut some = 0;
    while some < 64 {
        let mut set = 0;
        while set < 64 {
            let mut least = 0;
            while least <= ((some & set) as u32).count_ones() as usize {
                words[some][least] |= 1 << set;
                least += 1;
            }
            set += 1;
        }
        some += 1;
    }
    words
};

/// The sets that have so many of a set's plain sites, a word at a time: the sites from the seventh on are those of the word's
/// place, and of the first six there is a list.
#[inline(always)]
fn alone_met_sets(set: &[u8; SET], threshold: u8) -> Sets {
    let (low, high) = (&AT_LEAST[plain(set) as usize & 63], plain(set) as usize >> 6 & 63);
    std::array::from_fn(|at| low[usize::from(threshold.saturating_sub(ONES[at & high & 255])).min(7)])
}

/// The sets in which the root is met.
#[inline(always)]
fn met_sets(block: &Block) -> Sets {
    match sets(block) {
        [root] => alone_met_sets(root, root[0]),
        sets if sets.len() <= 8 => many_met_sets::<8>(sets),
        sets => many_met_sets::<MOST_SETS>(sets),
    }
}

/// The sets in which a set is met, by those in which its inner sets are: first those that have so many plain sites at least,
/// for every number up to the threshold; and with each inner set, those in which it makes one more.
#[inline(always)]
fn met_through<const MANY: usize>(set: &[u8; SET], inner: &[Sets]) -> Sets {
    let threshold = usize::from(set[0]).min(MANY - 1);
    let mut least = [[0u64; 64]; MANY];
    least[0].fill(u64::MAX);
    for (k, sets) in least[..threshold + 1].iter_mut().enumerate().skip(1) {
        *sets = alone_met_sets(set, k as u8);
    }
    for met in inner {
        for k in (1..=threshold).rev() {
            let (below, here) = least.split_at_mut(k);
            for ((word, one_less), met) in here[0].iter_mut().zip(&below[k - 1]).zip(met) {
                *word |= one_less & met;
            }
        }
    }
    least[threshold]
}

/// From the last set to the first, as above.
#[inline(never)]
fn many_met_sets<const ROOM: usize>(sets: &[[u8; SET]]) -> Sets {
    let mut waiting = [[0u64; 64]; ROOM];
    let mut count = 0;
    for set in sets.iter().rev() {
        let first = count - usize::from(set[1]);
        waiting[first % ROOM] = match (&waiting[first..count], set[0]) {
            ([], threshold) => alone_met_sets(set, threshold),
            (inner, ..4) => met_through::<4>(set, inner),
            (inner, ..8) => met_through::<8>(set, inner),
            (inner, _) => met_through::<64>(set, inner),
        };
        count = first + 1;
    }
    waiting[0]
}

/// The sets in which the site, if it is a member, has a slice.
#[inline(always)]
fn content(block: &Block, site: usize) -> Sets {
    let mut sets = met_sets(block);
    or_absent(&mut sets, site);
    sets
}

/// The list of all sets: of each, its members with a slice inside it.
fn holders(blocks: &[Block]) -> Holders {
    let mut holders = [0u16; 4096];
    for (site, block) in blocks.iter().enumerate() {
        for (word, sixty_four) in met_sets(block).iter().zip(holders.as_chunks_mut::<64>().0) {
            for (bit, holder) in sixty_four.iter_mut().enumerate() {
                *holder |= ((word >> bit & 1) as u16) << site;
            }
        }
    }
    for (set, holder) in holders.iter_mut().enumerate() {
        *holder &= set as u16;
    }
    Holders(holders)
}

/// The blocks of a table that has a verdict.
#[inline(always)]
fn few(image: &[u8], set: u64, checked: Checked) -> Result<&[Block], Refusal> {
    let blocks = checked(image)?;
    check_set(blocks, set)?;
    if blocks.len() > 12 {
        Err((16, 0))
    } else {
        Ok(blocks)
    }
}

pub fn shared_by_search(image: &[u8], checked: Checked) -> Answer {
    answer(few(image, 0, checked).map(|blocks| shared_by(all_sites(blocks.len()), Search(blocks))))
}

pub fn shared_by_list(image: &[u8], checked: Checked) -> Answer {
    answer(few(image, 0, checked).map(|blocks| shared_by(all_sites(blocks.len()), holders(blocks))))
}

pub fn shared(image: &[u8], checked: Checked) -> Answer {
    answer(few(image, 0, checked).map(|blocks| {
        let largest = |set, gone| narrow(blocks, set, gone, 0).0;
        super::shared_from_words(blocks.len(), |site| content(&blocks[site], site), largest)
    }))
}

pub fn intact_by_search(image: &[u8], faulty: u64, checked: Checked) -> Answer {
    answer(few(image, faulty, checked).map(|blocks| intact_by(all_sites(blocks.len()), faulty, Search(blocks))))
}

pub fn intact_by_list(image: &[u8], faulty: u64, checked: Checked) -> Answer {
    answer(few(image, faulty, checked).map(|blocks| intact_by(all_sites(blocks.len()), faulty, holders(blocks))))
}

pub fn intact(image: &[u8], faulty: u64, checked: Checked) -> Answer {
    answer(few(image, faulty, checked).map(|blocks| {
        let largest = |set, gone| narrow(blocks, set, gone, 0).0;
        [super::intact_from_words(blocks.len(), faulty, |site| content(&blocks[site], site), largest), 0, 0]
    }))
}

// ---- The voting

fn is_sound(blocks: &[Block], faulty: u64, state: &[u64]) -> bool {
    let n = blocks.len();
    let sites = all_sites(n);
    if state.len() != 4 * n + 6 || state.iter().fold(0, |some, mask| some | mask) & !sites != 0 {
        return false;
    }
    let (heard, masks) = (state[..4 * n].as_chunks::<4>().0, &state[4 * n..][..6]);
    if masks[VOTED] & masks[VOTED + 1] != 0 || masks.iter().fold(0, |some, mask| some | mask) & faulty != 0 {
        return false;
    }
    // The answer found last is kept: sites that heard the same need no second search.
    let mut last = (0, 0);
    let mut belongs = |w: u64, v: usize| {
        if w >> v & 1 == 0 {
            return false;
        }
        if w != last.0 {
            if !met(&blocks[v], w) {
                return false;
            }
            last = (w, narrow(blocks, w, 0, 0).0);
        }
        last.1 >> v & 1 == 1
    };
    for (v, row) in heard.iter().enumerate() {
        if faulty >> v & 1 == 1 {
            if *row != [0; 4] {
                return false;
            }
            continue;
        }
        for side in 0..2 {
            let (votes, accepts) = (row[side], row[2 + side]);
            let (voted, accepted) = (masks[VOTED + side], masks[ACCEPTED + side]);
            if (votes ^ voted) >> v & 1 != 0
                || (accepts ^ accepted) >> v & 1 != 0
                || votes & !faulty & !voted != 0
                || accepts & !faulty & !accepted != 0
            {
                return false;
            }
            let others = accepts & !(1 << v);
            let accepts_now = is_blocked(blocks, v, others) || belongs(votes | others, v);
            if accepts_now != (accepted >> v & 1 == 1) || belongs(accepts, v) != (masks[CONFIRMED + side] >> v & 1 == 1)
            {
                return false;
            }
        }
    }
    true
}

fn check_state<'t>(image: &'t [u8], faulty: u64, state: &[u64]) -> Result<&'t [Block], Refusal> {
    let blocks = checked(image)?;
    check_set(blocks, faulty)?;
    if is_sound(blocks, faulty, state) {
        Ok(blocks)
    } else {
        Err((18, 0))
    }
}

pub fn sound(image: &[u8], faulty: u64, state: &[u64]) -> Answer {
    answer(check_state(image, faulty, state).map(|_| [0; 3]))
}

/// The answers from the sets, for a call or a list.
impl Questions for Search<'_> {
    /// With a site more, a largest quorum grows only if the new site is in it: it must have a slice inside, as the receiver
    /// must.
    #[inline(always)]
    fn belongs(&mut self, set: u64, site: usize, _side: usize, newest: usize) -> bool {
        set >> site & 1 == 1
            && met(&self.0[newest], set)
            && met(&self.0[site], set)
            && narrow(self.0, set, 0, 1 << site).0 >> site & 1 == 1
    }

    #[inline(always)]
    fn blocked(&self, site: usize, others: u64) -> bool {
        is_blocked(self.0, site, others)
    }
}

pub fn step(image: &[u8], faulty: u64, state: &mut [u64], call: [u8; 4]) -> Answer {
    answer((|| {
        let blocks = check_state(image, faulty, state)?;
        let n = blocks.len();
        let work_out = |row: &mut _, masks: &mut _, call| Search(blocks).work_out(row, masks, call);
        match take_by(n, faulty, parts(state, n), call, work_out).0 {
            0 => Ok([0; 3]),
            number => Err((number.into(), 0)),
        }
    })())
}

/// The passes in one way or another.
pub type Passes = fn(&[Block], u64, &[[u8; 4]], &mut [u64], &mut [u8]) -> u64;

fn passes_by_search(blocks: &[Block], faulty: u64, calls: &[[u8; 4]], state: &mut [u64], answers: &mut [u8]) -> u64 {
    passes_by(Search(blocks), (blocks.len(), faulty), calls, state, answers)
}

/// Of a table of at most 12 sites.
fn passes_by_list(blocks: &[Block], faulty: u64, calls: &[[u8; 4]], state: &mut [u64], answers: &mut [u8]) -> u64 {
    passes_by(holders(blocks), (blocks.len(), faulty), calls, state, answers)
}

pub const BY_SEARCH: Passes = passes_by_search;
pub const BY_LIST: Passes = passes_by_list;

#[inline(always)]
pub fn run_records(
    image: &[u8],
    faulty: u64,
    calls: &[[u8; 4]],
    state: &mut [u64],
    answers: &mut [u8],
    (checked, passes): (Checked, Passes),
) -> Answer {
    answer((|| {
        let blocks = checked(image)?;
        check_set(blocks, faulty)?;
        if calls.len() > 4096 {
            return Err((17, 0));
        }
        let length = 4 * blocks.len() + 6;
        if state.len() < length || answers.len() < calls.len() {
            return Err((9, 0));
        }
        let passes = passes(blocks, faulty, calls, &mut state[..length], &mut answers[..calls.len()]);
        Ok([passes, 0, 0])
    })())
}

pub fn run(
    image: &[u8],
    faulty: u64,
    calls: &[u8],
    state: &mut [u64],
    answers: &mut [u8],
    ways: (Checked, Passes),
) -> Answer {
    let (records, rest) = calls.as_chunks::<4>();
    if rest.is_empty() {
        return run_records(image, faulty, records, state, answers, ways);
    }
    answer(checked(image).and_then(|blocks| check_set(blocks, faulty)).and(Err((17, 0))))
}

// ---- The translation

/// The smallest slices of a site: those that are no slice any longer without one of their sites.
fn smallest(block: &Block, site: usize) -> Sets {
    let met = met_sets(block);
    let mut slices = met;
    if site < 6 {
        slices.iter_mut().for_each(|word| *word &= CONTAIN[site]);
    } else {
        for (at, word) in slices.iter_mut().enumerate() {
            *word &= if at >> (site - 6) & 1 == 0 { 0 } else { u64::MAX };
        }
    }
    std::array::from_fn(|at| {
        let word = slices[at];
        let within = CONTAIN.iter().enumerate().fold(0, |more, (v, contain)| more | (word & !contain) << (1 << v));
        let mut more = within;
        each(at as u64, |v| more |= slices[at & !(1 << v)]);
        word & !more
    })
}

pub fn translate(image: &[u8], room: &mut [u64]) -> Answer {
    answer((|| {
        let blocks = few(image, 0, checked)?;
        let (n, sites) = (blocks.len(), all_sites(blocks.len()));
        let Some(room) = room.get_mut(..ROW * n) else {
            return Err((9, 0));
        };
        let few_words = (sites >> 6) as usize + 1;
        let below = |at: usize| if sites < 63 && at == 0 { (1u64 << (sites + 1)) - 1 } else { u64::MAX };
        let slices = |site: usize| {
            let mut slices = smallest(&blocks[site], site);
            slices.iter_mut().enumerate().for_each(|(at, word)| *word &= if at < few_words { below(at) } else { 0 });
            slices
        };
        for site in 0..n {
            if slices(site).iter().map(|word| word.count_ones()).sum::<u32>() > 62 {
                return Err((23, site as u64));
            }
        }
        for (site, row) in room.as_chunks_mut::<ROW>().0.iter_mut().enumerate() {
            let mut count = 0;
            row.fill(0);
            for (at, word) in slices(site).iter().enumerate() {
                each(*word, |bit| {
                    count += 1;
                    row[count] = (at << 6 | bit) as u64;
                });
            }
            row[0] = count as u64;
        }
        Ok([n as u64, 0, 0])
    })())
}
