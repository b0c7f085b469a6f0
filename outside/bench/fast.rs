//! The library's answers as fast as plain Rust gives them: what the benchmark measures the library against. No memory
//! is allocated, no crate is used, and no instruction is asked for that every x86-64 machine does not have.
//!
//! Verdicts and runs can be had in several ways, and which is the fastest depends on the table and the list: there the
//! benchmark times all. `shared`, `intact`, `run` and `run_records` go one of them, the others have it in their names.

#![allow(dead_code)]

#[path = "fast_thresholds.rs"]
pub mod thresholds;

use crate::model::Answer;

const BLOCK: usize = 512;
const ROW: usize = 63;
const MOST_SITES: usize = 64;

/// The number and the place of a refusal.
type Refusal = (u64, u64);

fn answer(result: Result<[u64; 3], Refusal>) -> Answer {
    match result {
        Ok(values) => Answer { number: 0, place: 0, values },
        Err((number, place)) => Answer { number, place, values: [0; 3] },
    }
}

/// The mask of the sites 0 to n - 1, for n of 1 to 64.
#[inline(always)]
fn all_sites(n: usize) -> u64 {
    u64::MAX >> (64 - n)
}

/// Calls `visit` with each member of the set, from the lowest.
#[inline(always)]
fn each(mut set: u64, mut visit: impl FnMut(usize)) {
    while set != 0 {
        visit(set.trailing_zeros() as usize);
        set &= set - 1;
    }
}

// ---- The block's check

/// The sums of a block, worked out in one way or another.
type Sums = fn(&[u8; BLOCK]) -> (u32, u32);

/// The two running sums of 126 words. Eight lanes run side by side, so that the sums of a lane do not wait for those of
/// another: word 8 k + j of the first 120 is counted 120 - (8 k + j) = 8 (15 - k) - j times in t, and its lane has
/// counted it 15 - k times.
#[inline]
pub fn sums(block: &[u8; BLOCK]) -> (u32, u32) {
    let words = block.as_chunks::<4>().0;
    let word = |i: usize| u32::from_le_bytes(words[i]);
    let (mut s, mut t) = ([0u32; 8], [0u32; 8]);
    for k in 0..15 {
        for j in 0..8 {
            s[j] = s[j].wrapping_add(word(8 * k + j));
            t[j] = t[j].wrapping_add(s[j]);
        }
    }
    let (mut sum, mut twice) = (0u32, 0u32);
    for j in 0..8 {
        sum = sum.wrapping_add(s[j]);
        twice = twice.wrapping_add(t[j].wrapping_mul(8)).wrapping_sub(s[j].wrapping_mul(j as u32));
    }
    for i in 120..126 {
        sum = sum.wrapping_add(word(i));
        twice = twice.wrapping_add(sum);
    }
    (sum, twice)
}

/// The two running sums one word after the other, as the rules put them; six words a turn, so that the loop itself takes
/// no time.
#[inline]
pub fn sums_in_order(block: &[u8; BLOCK]) -> (u32, u32) {
    let (mut s, mut t) = (0u32, 0u32);
    for six in &block.as_chunks::<24>().0[..21] {
        for word in six.as_chunks::<4>().0 {
            s = s.wrapping_add(u32::from_le_bytes(*word));
            t = t.wrapping_add(s);
        }
    }
    (s, t)
}

#[inline(always)]
fn check_held(block: &[u8; BLOCK], (s, t): (u32, u32)) -> bool {
    let held = u64::from_le_bytes(*block.last_chunk::<8>().unwrap());
    held == u64::from(s) | u64::from(t) << 32
}

pub fn block_check(block: &[u8]) -> u8 {
    match block.try_into() {
        Err(_) => 1,
        Ok(block) if check_held(block, sums(block)) => 0,
        Ok(_) => 2,
    }
}

pub fn block_check_in_order(block: &[u8]) -> u8 {
    match block.try_into() {
        Err(_) => 1,
        Ok(block) if check_held(block, sums_in_order(block)) => 0,
        Ok(_) => 2,
    }
}

// ---- Tables

/// The first fault of a row's slices and unused places, 0 if there is none: all of them are looked at without a branch,
/// and only a row that has a fault is walked again for which one is the first.
#[inline(always)]
fn slices_fault(
    used: impl Iterator<Item = u64> + Clone,
    unused: impl Iterator<Item = u64>,
    site: usize,
    sites: u64,
) -> u64 {
    let own = 1u64 << site;
    let mut rest = used.clone();
    let first = rest.next().unwrap_or(0);
    let (mut every, mut some, mut ascend) = (first, first, true);
    for (before, slice) in used.clone().zip(rest) {
        every &= slice;
        some |= slice;
        ascend &= slice > before;
    }
    let rest = unused.fold(0, |rest, place| rest | place);
    if every & own != 0 && some & !sites == 0 && ascend && rest == 0 {
        return 0;
    }
    let mut before = 0;
    for slice in used {
        if slice & own == 0 || slice & !sites != 0 {
            return 5;
        }
        if slice <= before {
            return 6;
        }
        before = slice;
    }
    8
}

fn memory_sites(table: &[u64]) -> Result<usize, Refusal> {
    let n = table.len() / ROW;
    if !table.len().is_multiple_of(ROW) || n == 0 || n > MOST_SITES {
        Err((1, 0))
    } else {
        Ok(n)
    }
}

fn memory_rows(table: &[u64], n: usize) -> Result<(), Refusal> {
    let sites = all_sites(n);
    for (site, row) in table.as_chunks::<ROW>().0.iter().enumerate() {
        let count = row[0];
        if count.wrapping_sub(1) >= 62 {
            return Err((4, site as u64));
        }
        let (used, unused) = row[1..].split_at(count as usize);
        let fault = slices_fault(used.iter().copied(), unused.iter().copied(), site, sites);
        if fault != 0 {
            return Err((fault, site as u64));
        }
    }
    Ok(())
}

/// Checks a table in memory and gives its rows.
#[inline]
fn checked(table: &[u64]) -> Result<&[[u64; ROW]], Refusal> {
    let n = memory_sites(table)?;
    memory_rows(table, n)?;
    Ok(table.as_chunks::<ROW>().0)
}

pub fn table_check(table: &[u64]) -> Answer {
    answer(checked(table).map(|_| [0; 3]))
}

#[inline(always)]
fn read(image: &[u8], room: &mut [u64], sums: Sums) -> Result<usize, Refusal> {
    let (blocks, rest) = image.as_chunks::<BLOCK>();
    let n = blocks.len();
    if n == 0 || n > MOST_SITES || !rest.is_empty() {
        return Err((1, 0));
    }
    if room.len() < ROW * n {
        return Err((9, 0));
    }
    let sites = all_sites(n);
    for (site, block) in blocks.iter().enumerate() {
        let refused = |number| Err((number, site as u64));
        if !check_held(block, sums(block)) {
            return refused(2);
        }
        let head = u64::from_le_bytes(*block.first_chunk::<8>().unwrap());
        if head & 0xffff_0000_ffff_ffff != site as u64 | (n as u64) << 16 {
            return refused(3);
        }
        let count = head >> 32;
        if count.wrapping_sub(1) >= 62 {
            return refused(4);
        }
        let (used, unused) = block[8..504].as_chunks::<8>().0.split_at(count as usize);
        let number = |bytes: &[u8; 8]| u64::from_le_bytes(*bytes);
        let fault = slices_fault(used.iter().map(number), unused.iter().map(number), site, sites);
        if fault != 0 {
            return refused(fault);
        }
    }
    // All sites together are a quorum: each has a slice, and no slice names another site. So there is no 7.
    for (block, row) in blocks.iter().zip(room.as_chunks_mut::<ROW>().0) {
        row[0] = u64::from(block[4]);
        for (place, bytes) in row[1..].iter_mut().zip(block[8..504].as_chunks::<8>().0) {
            *place = u64::from_le_bytes(*bytes);
        }
    }
    Ok(n)
}

pub fn image_read(image: &[u8], room: &mut [u64]) -> Answer {
    answer(read(image, room, sums).map(|n| [n as u64, 0, 0]))
}

pub fn image_read_in_order(image: &[u8], room: &mut [u64]) -> Answer {
    answer(read(image, room, sums_in_order).map(|n| [n as u64, 0, 0]))
}

#[inline(always)]
fn write(table: &[u64], room: &mut [u8], sums: Sums) -> Result<usize, Refusal> {
    let n = memory_sites(table)?;
    if room.len() < BLOCK * n {
        return Err((9, 0));
    }
    memory_rows(table, n)?;
    let rows = table.as_chunks::<ROW>().0;
    for (site, (row, block)) in rows.iter().zip(room.as_chunks_mut::<BLOCK>().0).enumerate() {
        let head = site as u64 | (n as u64) << 16 | row[0] << 32;
        block[..8].copy_from_slice(&head.to_le_bytes());
        for (bytes, place) in block[8..504].as_chunks_mut::<8>().0.iter_mut().zip(&row[1..]) {
            *bytes = place.to_le_bytes();
        }
        let (s, t) = sums(block);
        block[504..].copy_from_slice(&(u64::from(s) | u64::from(t) << 32).to_le_bytes());
    }
    Ok(n)
}

pub fn image_write(table: &[u64], room: &mut [u8]) -> Answer {
    answer(write(table, room, sums).map(|n| [n as u64, 0, 0]))
}

pub fn image_write_in_order(table: &[u64], room: &mut [u8]) -> Answer {
    answer(write(table, room, sums_in_order).map(|n| [n as u64, 0, 0]))
}

// ---- Set questions

/// The used slices of a row that has been checked.
#[inline(always)]
fn slices(row: &[u64; ROW]) -> &[u64] {
    &row[1..][..(row[0] as usize).min(62)]
}

/// The place of the first slice inside the set, from a place on.
#[inline(always)]
fn find(row: &[u64; ROW], from: usize, set: u64) -> Option<usize> {
    slices(row)[from..].iter().position(|slice| slice & !set == 0).map(|i| from + i)
}

/// The place of the first slice inside the set, or one up to seven before it: eight are asked at a time, without a
/// branch.
#[inline(always)]
fn near(row: &[u64; ROW], set: u64) -> Option<usize> {
    let (eights, rest) = slices(row).as_chunks::<8>();
    let inside = |some: u64, slice: &u64| some | u64::from(slice & !set == 0);
    match eights.iter().position(|eight| eight.iter().fold(0, inside) != 0) {
        Some(k) => Some(8 * k),
        None => rest.iter().any(|slice| slice & !set == 0).then_some(8 * eights.len()),
    }
}

/// The largest quorum inside w of the table without `gone`, and the rounds. Each site keeps the place of the slice that
/// holds it in: the slices before it were outside a larger set already, so no slice is looked at twice; and only the
/// sites whose slice lost a member are asked again. Stops early, with whatever is left, once a site of `wanted` has
/// dropped out. A slice cut by `gone` is inside a set exactly if the whole slice is inside the set together with
/// `gone`.
#[inline(always)]
fn narrow(rows: &[[u64; ROW]], w: u64, gone: u64, wanted: u64) -> (u64, u64) {
    if rows.len() > 12 && w.count_ones() > 12 {
        return narrow_many(rows, w, gone, wanted);
    }
    let mut place = [0u8; MOST_SITES];
    let (mut set, mut rounds) = (w, 0);
    let mut stay = set;
    each(set, |v| match find(&rows[v], 0, set | gone) {
        Some(i) => place[v] = i as u8,
        None => stay &= !(1 << v),
    });
    if stay == set {
        return (set, 0);
    }
    let mut held = [0u64; MOST_SITES];
    each(stay, |v| held[v] = rows[v][1 + usize::from(place[v]).min(61)]);
    while stay != set {
        let dropped = set & !stay;
        set = stay;
        rounds += 1;
        if wanted & !set != 0 {
            break;
        }
        each(set, |v| {
            if held[v] & dropped != 0 {
                match find(&rows[v], usize::from(place[v]) + 1, set | gone) {
                    Some(i) => {
                        place[v] = i as u8;
                        held[v] = rows[v][1 + i];
                    }
                    None => stay &= !(1 << v),
                }
            }
        });
    }
    (set, rounds)
}

/// The same for many sites: the slices are asked eight at a time; and from the third round on, which may be the third of
/// many, it is noted of each site whom it holds in, so that a round looks only at those who may lose something.
#[inline(never)]
fn narrow_many(rows: &[[u64; ROW]], w: u64, gone: u64, wanted: u64) -> (u64, u64) {
    let mut place = [0u8; MOST_SITES];
    let (mut set, mut rounds) = (w, 0);
    let mut stay = set;
    each(set, |v| match near(&rows[v], set | gone) {
        Some(i) => place[v] = i as u8,
        None => stay &= !(1 << v),
    });
    if stay == set {
        return (set, 0);
    }
    let mut held = [0u64; MOST_SITES];
    each(stay, |v| {
        let i = find(&rows[v], place[v].into(), set | gone).unwrap_or(0);
        place[v] = i as u8;
        held[v] = rows[v][1 + i];
    });
    let mut holds = [0; MOST_SITES];
    while stay != set {
        let dropped = set & !stay;
        set = stay;
        rounds += 1;
        if wanted & !set != 0 {
            break;
        }
        let mut asked = set;
        if rounds == 3 {
            holds = held;
            transpose(&mut holds);
        }
        if rounds >= 3 {
            asked = 0;
            each(dropped, |v| asked |= holds[v]);
        }
        each(asked & set, |v| {
            if held[v] & dropped != 0 {
                match find(&rows[v], usize::from(place[v]) + 1, set | gone) {
                    Some(i) => {
                        place[v] = i as u8;
                        held[v] = rows[v][1 + i];
                        if rounds >= 3 {
                            each(held[v], |u| holds[u] |= 1 << v);
                        }
                    }
                    None => stay &= !(1 << v),
                }
            }
        });
    }
    (set, rounds)
}

/// Bit u of number v goes to bit v of number u.
fn transpose(numbers: &mut [u64; 64]) {
    let (mut half, mut mask) = (32, 0xffff_ffffu64);
    while half != 0 {
        for part in numbers.chunks_exact_mut(2 * half) {
            let (first, second) = part.split_at_mut(half);
            for (one, other) in first.iter_mut().zip(second) {
                let differ = (*one >> half ^ *other) & mask;
                *one ^= differ << half;
                *other ^= differ;
            }
        }
        half /= 2;
        mask ^= mask << half;
    }
}

#[inline]
fn largest_inside(rows: &[[u64; ROW]], w: u64) -> (u64, u64) {
    narrow(rows, w, 0, 0)
}

/// Does the site belong to the largest quorum inside w? Its own slices are asked first.
#[inline]
fn belongs(rows: &[[u64; ROW]], w: u64, site: usize) -> bool {
    w >> site & 1 == 1 && find(&rows[site], 0, w).is_some() && narrow(rows, w, 0, 1 << site).0 >> site & 1 == 1
}

/// Do the others meet every slice? Many slices are asked eight at a time, without a branch.
#[inline]
fn is_blocked(row: &[u64; ROW], others: u64) -> bool {
    if row[0] < 16 {
        return slices(row).iter().all(|slice| slice & others != 0);
    }
    let (eights, rest) = slices(row).as_chunks::<8>();
    let missed = |some: u64, slice: &u64| some | u64::from(slice & others == 0);
    eights.iter().all(|eight| eight.iter().fold(0, missed) == 0) && rest.iter().fold(0, missed) == 0
}

#[inline(always)]
fn check_set(rows: &[[u64; ROW]], set: u64) -> Result<(), Refusal> {
    if set & !all_sites(rows.len()) != 0 {
        Err((10, 0))
    } else {
        Ok(())
    }
}

/// Is the set, not empty, a quorum of the table without `gone`?
#[inline]
fn is_quorum(rows: &[[u64; ROW]], set: u64, gone: u64) -> bool {
    let mut rest = set;
    while rest != 0 {
        if find(&rows[rest.trailing_zeros() as usize], 0, set | gone).is_none() {
            return false;
        }
        rest &= rest - 1;
    }
    true
}

pub fn quorum(table: &[u64], set: u64) -> Answer {
    answer((|| {
        let rows = checked(table)?;
        check_set(rows, set)?;
        Ok([u64::from(set != 0 && is_quorum(rows, set, 0)), 0, 0])
    })())
}

pub fn largest(table: &[u64], set: u64) -> Answer {
    answer((|| {
        let rows = checked(table)?;
        check_set(rows, set)?;
        let (left, rounds) = largest_inside(rows, set);
        Ok([left, rounds, 0])
    })())
}

pub fn blocks(table: &[u64], set: u64, site: u64) -> Answer {
    answer((|| {
        let rows = checked(table)?;
        check_set(rows, set)?;
        if site >= rows.len() as u64 {
            return Err((11, 0));
        }
        Ok([u64::from(is_blocked(&rows[site as usize], set & !(1 << site))), 0, 0])
    })())
}

/// What the verdicts ask of a table of at most 12 sites.
trait Quorums {
    /// Is the set, not empty, a quorum of the table without `gone`?
    fn is_quorum(&self, set: u32, gone: u32) -> bool;

    /// The largest quorum inside the set of the table without `gone`.
    fn largest(&self, set: u32, gone: u32) -> u32;

    /// Two quorums of the table without `gone` that have no common site, the first with the smallest mask. Of such a
    /// pair one lacks the last site, and the sets without it come first.
    #[inline(always)]
    fn apart(&self, sites: u32, gone: u32) -> Option<(u32, u32)> {
        let rest = sites & !gone;
        let below = if rest == 0 { 0 } else { rest & !(1 << rest.ilog2()) };
        let mut p = 0u32;
        loop {
            p = p.wrapping_sub(below) & below;
            if p == 0 {
                return None;
            }
            if self.is_quorum(p, gone) {
                let q = self.largest(rest & !p, gone);
                if q != 0 {
                    return Some((p, q));
                }
            }
        }
    }

    /// The intact sites. A set is looked at only if it leaves out a site that is not known to be intact. Two quorums
    /// that have no common site without B have none without any larger set either, as long as something of both is
    /// left: the pair found last is tried first.
    #[inline(always)]
    fn intact(&self, sites: u32, faulty: u32) -> u32 {
        let correct = sites & !faulty;
        let mut intact = 0;
        let mut pair = (sites, 0, 0);
        let mut b = faulty;
        while b <= sites {
            let rest = sites & !b;
            if rest & !intact != 0 && self.is_quorum(rest, 0) {
                let (gone, p, q) = pair;
                let known_apart = gone & !b == 0 && p & !b != 0 && q & !b != 0;
                if !known_apart {
                    match self.apart(sites, b) {
                        None => intact |= rest,
                        Some((p, q)) => pair = (b, p, q),
                    }
                }
                if intact == correct {
                    break;
                }
            }
            b = (b + 1) | faulty;
        }
        intact
    }
}

/// The questions answered from the slices.
struct Search<'a>(&'a [[u64; ROW]]);

impl Quorums for Search<'_> {
    #[inline(always)]
    fn is_quorum(&self, set: u32, gone: u32) -> bool {
        is_quorum(self.0, set.into(), gone.into())
    }

    #[inline(always)]
    fn largest(&self, set: u32, gone: u32) -> u32 {
        narrow(self.0, set.into(), gone.into(), 0).0 as u32
    }
}

/// The questions answered from a list of all sets: of each, its members with a slice inside it.
struct Holders([u16; 4096]);

impl Holders {
    /// A slice counts for each set that contains it: the marks are handed on from each set to those with one site more.
    /// Four sets share a word meanwhile, in their order.
    fn new(rows: &[[u64; ROW]]) -> Holders {
        let mut words = [0u64; 1024];
        for (v, row) in rows.iter().enumerate() {
            for slice in slices(row) {
                words[(*slice >> 2) as usize & 1023] |= 1 << (v as u64 + 16 * (slice & 3));
            }
        }
        for word in &mut words {
            *word |= (*word & 0x0000_ffff_0000_ffff) << 16;
            *word |= *word << 32;
        }
        hand_on::<2, 1024>(&mut words);
        hand_on::<4, 1024>(&mut words);
        hand_on::<8, 1024>(&mut words);
        hand_on::<16, 1024>(&mut words);
        hand_on::<32, 1024>(&mut words);
        hand_on::<64, 1024>(&mut words);
        hand_on::<128, 1024>(&mut words);
        hand_on::<256, 1024>(&mut words);
        hand_on::<512, 1024>(&mut words);
        hand_on::<1024, 1024>(&mut words);
        let mut holders = [0; 4096];
        for (sets, word) in holders.as_chunks_mut::<4>().0.iter_mut().zip(&words) {
            *sets = [0, 16, 32, 48].map(|shift| (word >> shift) as u16);
        }
        Holders(holders)
    }

    #[inline(always)]
    fn of(&self, set: u32) -> u32 {
        self.0[set as usize & 4095].into()
    }
}

/// From the lower half of each `WORDS` words to the upper.
fn hand_on<const WORDS: usize, const ALL: usize>(words: &mut [u64; ALL]) {
    for part in words.as_chunks_mut::<WORDS>().0 {
        let (without, with) = part.split_at_mut(WORDS / 2);
        for (below, above) in without.iter().zip(with) {
            *above |= *below;
        }
    }
}

impl Quorums for Holders {
    #[inline(always)]
    fn is_quorum(&self, set: u32, gone: u32) -> bool {
        set & !self.of(set | gone) == 0
    }

    #[inline(always)]
    fn largest(&self, set: u32, gone: u32) -> u32 {
        let mut left = set;
        loop {
            let stay = left & self.of(left | gone);
            if stay == left {
                return left;
            }
            left = stay;
        }
    }
}

/// The rows of a table that has a verdict.
fn few(table: &[u64], set: u64) -> Result<&[[u64; ROW]], Refusal> {
    let rows = checked(table)?;
    check_set(rows, set)?;
    if rows.len() > 12 {
        Err((16, 0))
    } else {
        Ok(rows)
    }
}

fn shared_by(sites: u64, quorums: impl Quorums) -> [u64; 3] {
    quorums.apart(sites as u32, 0).map_or([1, 0, 0], |(p, q)| [0, p.into(), q.into()])
}

fn intact_by(sites: u64, faulty: u64, quorums: impl Quorums) -> [u64; 3] {
    [quorums.intact(sites as u32, faulty as u32).into(), 0, 0]
}

pub fn shared(table: &[u64]) -> Answer {
    answer(few(table, 0).map(|rows| shared_by(all_sites(rows.len()), Holders::new(rows))))
}

pub fn shared_by_search(table: &[u64]) -> Answer {
    answer(few(table, 0).map(|rows| shared_by(all_sites(rows.len()), Search(rows))))
}

pub fn intact(table: &[u64], faulty: u64) -> Answer {
    answer(few(table, faulty).map(|rows| intact_by(all_sites(rows.len()), faulty, Holders::new(rows))))
}

pub fn intact_by_search(table: &[u64], faulty: u64) -> Answer {
    answer(few(table, faulty).map(|rows| intact_by(all_sites(rows.len()), faulty, Search(rows))))
}

// ---- The verdicts, 64 sets at a time

/// Of the 64 sets of six sites, each a bit of a word, those that contain a site.
const CONTAIN: [u64; 6] = [
    0xaaaa_aaaa_aaaa_aaaa,
    0xcccc_cccc_cccc_cccc,
    0xf0f0_f0f0_f0f0_f0f0,
    0xff00_ff00_ff00_ff00,
    0xffff_0000_ffff_0000,
    0xffff_ffff_0000_0000,
];

/// Of the same sets those that contain a set.
const ABOVE: [u64; 64] = {
    let mut above = [u64::MAX; 64];
    let mut set = 0;
    while set < 64 {
        let mut site = 0;
        while site < 6 {
            if set >> site & 1 == 1 {
                above[set] &= CONTAIN[site];
            }
            site += 1;
        }
        set += 1;
    }
    above
};

/// Some of the sets of 12 sites: set s is bit s % 64 of word s / 64.
type Sets = [u64; 64];

/// To each of the sets those that contain it, as far as they have the same sites of the first six.
#[inline(always)]
fn with_more_words(sets: &mut Sets) {
    hand_on::<2, 64>(sets);
    hand_on::<4, 64>(sets);
    hand_on::<8, 64>(sets);
    hand_on::<16, 64>(sets);
    hand_on::<32, 64>(sets);
    hand_on::<64, 64>(sets);
}

/// The sets in which the site, if it is a member, has a slice. The slices ascend, so that those of one word follow each
/// other.
#[inline(always)]
fn content(row: &[u64; ROW], site: usize) -> Sets {
    let mut sets = [0; 64];
    let (mut word, mut at) = (0, 0);
    for slice in slices(row) {
        let here = (slice >> 6) as usize & 63;
        word = ABOVE[*slice as usize & 63] | if here == at { word } else { 0 };
        at = here;
        sets[at] = word;
    }
    with_more_words(&mut sets);
    or_absent(&mut sets, site);
    sets
}

/// To the sets those that the site is not a member of.
#[inline(always)]
fn or_absent(sets: &mut Sets, site: usize) {
    if site < 6 {
        sets.iter_mut().for_each(|word| *word |= !CONTAIN[site]);
    } else {
        for (at, word) in sets.iter_mut().enumerate() {
            *word |= if at >> (site - 6) & 1 == 0 { u64::MAX } else { 0 };
        }
    }
}

/// The first of two quorums of the table without `gone` that have no common site, with the smallest mask. `fitting` are
/// the sets in which each member outside `gone` has a slice; in them each quorum is looked for together with `gone`.
#[inline(always)]
fn first_apart(fitting: &Sets, sites: u32, gone: u32) -> Option<u32> {
    let (gone_words, gone_bits) = ((gone >> 6) as usize, (gone & 63) as usize);
    let few = if sites < 63 { (1u64 << (sites + 1)) - 1 } else { u64::MAX };
    let mut quorums = [0; 64];
    for (at, word) in quorums.iter_mut().enumerate() {
        if at & gone_words == gone_words && at as u32 & !(sites >> 6) == 0 {
            *word = fitting[at] & ABOVE[gone_bits] & few;
        }
    }
    quorums[gone_words] &= !(1 << gone_bits);
    // The sets that hold a quorum.
    let mut holding = quorums;
    for word in &mut holding {
        for (site, contain) in CONTAIN.iter().enumerate() {
            *word |= (*word & !contain) << (1 << site);
        }
    }
    with_more_words(&mut holding);
    // Of the complements of the sets of a word, each with `gone`, those that hold one.
    let others = |at: usize| {
        let mut word = holding[(63 - at) | gone_words];
        each(gone_bits as u64, |site| word |= (word & CONTAIN[site % 6]) >> (1 << site));
        word.reverse_bits()
    };
    for (at, word) in quorums.iter().enumerate().filter(|(_, word)| **word != 0) {
        let apart = word & others(at);
        if apart != 0 {
            return Some(((at as u32) << 6 | apart.trailing_zeros()) & !gone);
        }
    }
    None
}

/// Shared sites of a table of n sites, from `content` of each and `largest` quorum inside a set without another.
#[inline(always)]
fn shared_from_words(n: usize, content: impl Fn(usize) -> Sets, largest: impl Fn(u64, u64) -> u64) -> [u64; 3] {
    let sites = all_sites(n);
    let mut fitting = [u64::MAX; 64];
    for site in 0..n {
        for (sets, more) in fitting.iter_mut().zip(content(site)) {
            *sets &= more;
        }
    }
    match first_apart(&fitting, sites as u32, 0) {
        None => [1, 0, 0],
        Some(p) => [0, p.into(), largest(sites & !u64::from(p), 0)],
    }
}

pub fn shared_by_words(table: &[u64]) -> Answer {
    answer(few(table, 0).map(|rows| {
        let largest = |set, gone| narrow(rows, set, gone, 0).0;
        shared_from_words(rows.len(), |site| content(&rows[site], site), largest)
    }))
}

/// Those of the sets that are not empty and inside a set.
fn inside(sets: &Sets, whole: u32) -> Sets {
    let mut inside = [0; 64];
    for (at, word) in inside.iter_mut().enumerate() {
        if at as u32 & !(whole >> 6) == 0 {
            *word = sets[at] & ABOVE[!whole as usize & 63].reverse_bits();
        }
    }
    inside[0] &= !1;
    inside
}

/// The last of the sets below a set.
#[inline(always)]
fn last_below(sets: &Sets, end: u32) -> Option<u32> {
    let mut at = end as usize / 64 % 64;
    let mut word = sets[at] & ((1 << (end % 64)) - 1);
    while word == 0 {
        at = at.checked_sub(1)?;
        word = sets[at];
    }
    Some((at as u32) << 6 | word.ilog2())
}

/// How many pairs of quorums are kept.
const PAIRS: usize = 16;

/// The intact sites of a table of at most 12. What a dispensable set leaves is a quorum, and so inside the largest quorum
/// outside the faulty set. Two quorums that have no common site without B have none without any larger set either, as
/// long as something of both is left: the pairs that were found are tried first.
#[inline(always)]
fn intact_from_words(n: usize, faulty: u64, content: impl Fn(usize) -> Sets, largest: impl Fn(u64, u64) -> u64) -> u64 {
    let sites = all_sites(n) as u32;
    let most = largest(u64::from(sites) & !faulty, 0) as u32;
    if most == 0 {
        return 0;
    }
    let mut contents = [[u64::MAX; 64]; 12];
    each(most.into(), |site| contents[site % 12] = content(site));
    let fitting = |set: u32| {
        let mut fitting = [u64::MAX; 64];
        each(set.into(), |site| fitting.iter_mut().zip(&contents[site % 12]).for_each(|(sets, more)| *sets &= more));
        fitting
    };
    let all = fitting(most);
    let quorums = inside(&all, most);
    let (mut intact, mut pairs, mut found) = (0, [(0, 0, 0); PAIRS], 0);
    let mut next = Some(most);
    while let Some(rest) = next {
        let gone = sites & !rest;
        let known = || pairs.iter().any(|(without, p, q)| without & !gone == 0 && p & rest != 0 && q & rest != 0);
        if rest & !intact != 0 && !known() {
            match first_apart(&if rest == most { all } else { fitting(rest) }, sites, gone) {
                None => intact |= rest,
                Some(p) => {
                    pairs[found % PAIRS] = (gone, p, largest((rest & !p).into(), gone.into()) as u32);
                    found += 1;
                }
            }
        }
        next = if intact == most { None } else { last_below(&quorums, rest) };
    }
    intact.into()
}

pub fn intact_by_words(table: &[u64], faulty: u64) -> Answer {
    answer(few(table, faulty).map(|rows| {
        let largest = |set, gone| narrow(rows, set, gone, 0).0;
        [intact_from_words(rows.len(), faulty, |site| content(&rows[site], site), largest), 0, 0]
    }))
}

// ---- The voting

/// The places of a state's six masks, from its end.
const VOTED: usize = 0;
const ACCEPTED: usize = 2;
const CONFIRMED: usize = 4;

fn is_sound(rows: &[[u64; ROW]], faulty: u64, state: &[u64]) -> bool {
    let n = rows.len();
    let sites = all_sites(n);
    if state.len() != 4 * n + 6 || state.iter().fold(0, |some, mask| some | mask) & !sites != 0 {
        return false;
    }
    let (heard, masks) = (state[..4 * n].as_chunks::<4>().0, &state[4 * n..][..6]);
    if masks[VOTED] & masks[VOTED + 1] != 0 || masks.iter().fold(0, |some, mask| some | mask) & faulty != 0 {
        return false;
    }
    // The answer found last is kept: sites that heard the same need no second search. Before a second search, that of all
    // that anybody heard: its answer has all others inside it.
    let (mut last, mut most) = ((0, 0), None);
    let mut belongs = |w: u64, v: usize| {
        if w >> v & 1 == 0 {
            return false;
        }
        if w != last.0 {
            if near(&rows[v], w).is_none() {
                return false;
            }
            let most = if last.0 == 0 {
                u64::MAX
            } else {
                *most.get_or_insert_with(|| largest_inside(rows, heard.iter().flatten().fold(0, |some, w| some | w)).0)
            };
            last = (w, largest_inside(rows, w & most).0);
        }
        last.1 >> v & 1 == 1
    };
    for (v, row) in heard.iter().enumerate() {
        if faulty >> v & 1 == 1 {
            if *row != [0; 4] {
                return false;
            }
            continue;
        }
        for side in 0..2 {
            let (votes, accepts) = (row[side], row[2 + side]);
            let (voted, accepted) = (masks[VOTED + side], masks[ACCEPTED + side]);
            // Who heard nothing is not blocked and in no quorum.
            if votes | accepts == 0 && (voted | accepted | masks[CONFIRMED + side]) >> v & 1 == 0 {
                continue;
            }
            if (votes ^ voted) >> v & 1 != 0
                || (accepts ^ accepted) >> v & 1 != 0
                || votes & !faulty & !voted != 0
                || accepts & !faulty & !accepted != 0
            {
                return false;
            }
            let others = accepts & !(1 << v);
            let accepted = is_blocked(&rows[v], others) || belongs(votes | others, v);
            if accepted != (masks[ACCEPTED + side] >> v & 1 == 1)
                || belongs(accepts, v) != (masks[CONFIRMED + side] >> v & 1 == 1)
            {
                return false;
            }
        }
    }
    true
}

fn check_state<'t>(table: &'t [u64], faulty: u64, state: &[u64]) -> Result<&'t [[u64; ROW]], Refusal> {
    let rows = checked(table)?;
    check_set(rows, faulty)?;
    if is_sound(rows, faulty, state) {
        Ok(rows)
    } else {
        Err((18, 0))
    }
}

pub fn sound(table: &[u64], faulty: u64, state: &[u64]) -> Answer {
    answer(check_state(table, faulty, state).map(|_| [0; 3]))
}

/// The four sets that each site heard, and the six masks.
type State<'a> = (&'a mut [[u64; 4]], &'a mut [u64; 6]);

/// The first 4n + 6 numbers of the room for a state.
#[inline(always)]
fn parts(state: &mut [u64], n: usize) -> State<'_> {
    let (heard, masks) = state.split_at_mut(4 * n);
    (heard.as_chunks_mut::<4>().0, masks.first_chunk_mut().unwrap())
}

/// One call on a state that is sound: its number, and whether the state changed. A call that was heard before changes
/// nothing; a site that has accepted is not asked again whether it accepts, nor one that has confirmed whether it
/// confirms.
#[inline(always)]
fn take(rows: &[[u64; ROW]], faulty: u64, state: State, call: [u8; 4]) -> (u8, bool) {
    take_by(rows.len(), faulty, state, call, |row, masks, call| work_out(rows, row, masks, call))
}

#[inline(always)]
fn take_by(
    n: usize,
    faulty: u64,
    state: State,
    call: [u8; 4],
    work_out: impl FnOnce(&mut [u64; 4], &mut [u64; 6], [usize; 4]),
) -> (u8, bool) {
    let (heard, masks) = state;
    let [kind, from, to, side] = call.map(usize::from);
    if kind > 2 || from >= n || to >= n || side > 1 {
        return (11, false);
    }
    if kind == 0 && from != to {
        return (13, false);
    }
    if faulty >> to & 1 == 1 {
        return (12, false);
    }
    let own = 1u64 << to;
    let row = &mut heard[to];
    if kind == 0 {
        if masks[VOTED + (1 - side)] & own != 0 {
            return (14, false);
        }
        if row[side] & own != 0 {
            return (0, false);
        }
        masks[VOTED + side] |= own;
        row[side] |= own;
    } else {
        let sent = masks[VOTED + 2 * (kind - 1) + side] | faulty;
        if sent >> from & 1 == 0 {
            return (15, false);
        }
        let cell = &mut row[2 * (kind - 1) + side];
        if *cell >> from & 1 == 1 {
            return (0, false);
        }
        *cell |= 1 << from;
    }
    work_out(row, masks, [kind, from, to, side]);
    (0, true)
}

/// The receiver worked out again, for the side of a call that it has just heard.
#[inline(never)]
fn work_out(rows: &[[u64; ROW]], row: &mut [u64; 4], masks: &mut [u64; 6], call: [usize; 4]) {
    let [kind, from, to, side] = call;
    let own = 1u64 << to;
    let (votes, accepts) = (row[side], row[2 + side]);
    // With a site more, a largest quorum grows only if the new site is in it: it must have a slice inside, as the
    // receiver must.
    let grows = |w: u64| find(&rows[from], 0, w).is_some() && belongs(rows, w, to);
    if masks[ACCEPTED + side] & own == 0 {
        // What blocks the site has changed only if an accept came; and its own accept is not there to be counted.
        let blocked = kind == 2 && is_blocked(&rows[to], accepts);
        let heard_already = (if kind == 2 { votes } else { accepts }) >> from & 1 == 1;
        if blocked || (!heard_already && grows(votes | accepts)) {
            masks[ACCEPTED + side] |= own;
            row[2 + side] |= own;
            if belongs(rows, accepts | own, to) {
                masks[CONFIRMED + side] |= own;
            }
        }
    } else if kind == 2 && masks[CONFIRMED + side] & own == 0 && grows(accepts) {
        masks[CONFIRMED + side] |= own;
    }
}

pub fn step(table: &[u64], faulty: u64, state: &mut [u64], call: [u8; 4]) -> Answer {
    answer((|| {
        let rows = check_state(table, faulty, state)?;
        match take(rows, faulty, parts(state, rows.len()), call).0 {
            0 => Ok([0; 3]),
            number => Err((number.into(), 0)),
        }
    })())
}

/// The passes. After the first only the calls that were refused with 15 can change anything or answer otherwise: a call
/// that was taken has been heard, and every other refusal stays.
fn passes(rows: &[[u64; ROW]], faulty: u64, calls: &[[u8; 4]], state: &mut [u64], answers: &mut [u8]) -> u64 {
    state.fill(0);
    let (heard, masks) = parts(state, rows.len());
    let heard = &mut heard[..rows.len()];
    let mut waiting = [0u16; 4096];
    let mut count = 0;
    let mut changed = false;
    for (i, (call, answer)) in calls.iter().zip(answers.iter_mut()).enumerate() {
        let (number, change) = take(rows, faulty, (heard, masks), *call);
        *answer = number;
        changed |= change;
        if number == 15 {
            waiting[count] = i as u16;
            count += 1;
        }
    }
    let mut passes = 1;
    while changed {
        passes += 1;
        changed = false;
        let mut left = 0;
        for k in 0..count {
            let i = usize::from(waiting[k]);
            let (number, change) = take(rows, faulty, (heard, masks), calls[i]);
            changed |= change;
            if number == 15 {
                waiting[left] = i as u16;
                left += 1;
            } else {
                answers[i] = number;
            }
        }
        count = left;
    }
    passes
}

/// What a run asks of a table.
trait Questions {
    /// Does the site belong to the largest quorum inside the set? `newest` is one of the set, without which it did not.
    fn belongs(&mut self, set: u64, site: usize, side: usize, newest: usize) -> bool;

    /// Do the others block the site?
    fn blocked(&self, site: usize, others: u64) -> bool;

    /// The receiver worked out again, as in `work_out`.
    #[inline(never)]
    fn work_out(&mut self, row: &mut [u64; 4], masks: &mut [u64; 6], [kind, from, to, side]: [usize; 4]) {
        let own = 1u64 << to;
        let (votes, accepts) = (row[side], row[2 + side]);
        if masks[ACCEPTED + side] & own == 0 {
            let heard_already = (if kind == 2 { votes } else { accepts }) >> from & 1 == 1;
            if (kind == 2 && self.blocked(to, accepts))
                || (!heard_already && self.belongs(votes | accepts, to, side, from))
            {
                masks[ACCEPTED + side] |= own;
                row[2 + side] |= own;
                if self.belongs(accepts | own, to, side, to) {
                    masks[CONFIRMED + side] |= own;
                }
            }
        } else if kind == 2 && masks[CONFIRMED + side] & own == 0 && self.belongs(accepts, to, side, from) {
            masks[CONFIRMED + side] |= own;
        }
    }
}

/// At most 12 sites: the list of all sets has every answer.
impl Questions for Holders {
    #[inline(always)]
    fn belongs(&mut self, set: u64, site: usize, _side: usize, newest: usize) -> bool {
        let (holders, both) = (self.of(set as u32), 1 << site | 1 << newest);
        holders & both == both && self.largest(set as u32 & holders, 0) >> site & 1 == 1
    }

    #[inline(always)]
    fn blocked(&self, site: usize, others: u64) -> bool {
        self.of(!others as u32) >> site & 1 == 0
    }
}

/// After this many searches in vain, it is asked of each site whether it can belong to a quorum at all.
const IN_VAIN: usize = 128;

/// The answers from the slices, for the calls of a list.
struct Told<'a> {
    rows: &'a [[u64; ROW]],
    calls: &'a [[u8; 4]],
    in_vain: usize,
    /// What each site may hear of each side, once it is worked out; which sites were asked; and which may belong.
    most: [[u64; 2]; MOST_SITES],
    asked: [u64; 2],
    may: [u64; 2],
    last: (u64, u64),
}

impl<'a> Told<'a> {
    fn new(rows: &'a [[u64; ROW]], calls: &'a [[u8; 4]]) -> Told<'a> {
        Told { rows, calls, in_vain: 0, most: [[0; 2]; MOST_SITES], asked: [0; 2], may: [0; 2], last: (0, 0) }
    }

    /// Does the site belong to the largest quorum of all that the list tells it?
    #[inline(always)]
    fn may_belong(&mut self, site: usize, side: usize) -> bool {
        if self.asked[side] >> site & 1 == 0 {
            self.ask(site, side);
        }
        self.may[side] >> site & 1 == 1
    }

    #[inline(never)]
    fn ask(&mut self, site: usize, side: usize) {
        if self.asked == [0; 2] {
            for [_, from, to, side] in self.calls {
                self.most[usize::from(to & 63)][usize::from(side & 1)] |= 1 << (from & 63);
            }
        }
        let most = (self.most[site][side] | 1 << site) & all_sites(self.rows.len());
        if most != self.last.0 {
            self.last = (most, largest_inside(self.rows, most).0);
        }
        self.asked[side] |= 1 << site;
        self.may[side] |= self.last.1 & 1 << site;
    }
}

impl Questions for Told<'_> {
    #[inline(always)]
    fn belongs(&mut self, set: u64, site: usize, side: usize, newest: usize) -> bool {
        if self.in_vain >= IN_VAIN && !self.may_belong(site, side) {
            return false;
        }
        let belongs = near(&self.rows[newest], set).is_some() && belongs(self.rows, set, site);
        self.in_vain += usize::from(!belongs);
        belongs
    }

    #[inline(always)]
    fn blocked(&self, site: usize, others: u64) -> bool {
        is_blocked(&self.rows[site], others)
    }
}

/// Some of the places of a list.
struct Places {
    /// Which words are not zero.
    some: u64,
    words: [u64; 64],
}

impl Places {
    #[inline(always)]
    fn insert(&mut self, place: usize) {
        self.some |= 1 << (place / 64);
        self.words[place / 64 % 64] |= 1 << (place % 64);
    }

    #[inline(always)]
    fn take_first(&mut self) -> Option<usize> {
        if self.some == 0 {
            return None;
        }
        let at = self.some.trailing_zeros() as usize;
        let bit = self.words[at].trailing_zeros() as usize;
        self.words[at] &= self.words[at] - 1;
        if self.words[at] == 0 {
            self.some &= self.some - 1;
        }
        Some(64 * at + bit)
    }
}

/// The calls that wait for a sender, a chain for each thing that a sender can have sent; and those that need not wait
/// any longer, in this pass and in the next.
struct Waiting {
    first: [u16; 256],
    next: [u16; 4096],
    now: Places,
    later: Places,
}

const END: u16 = u16::MAX;

/// The chain of a vote or an accept of a site for a side.
#[inline(always)]
fn chain(kind: usize, from: usize, side: usize) -> usize {
    (kind - 1) << 7 & 128 | side << 6 & 64 | from & 63
}

impl Waiting {
    fn new() -> Waiting {
        let none = || Places { some: 0, words: [0; 64] };
        Waiting { first: [END; 256], next: [END; 4096], now: none(), later: none() }
    }

    #[inline(always)]
    fn wait(&mut self, chain: usize, place: usize) {
        self.next[place % 4096] = self.first[chain];
        self.first[chain] = place as u16;
    }

    /// What waited for this is tried in this pass, if its place is yet to come.
    #[inline(always)]
    fn wake(&mut self, chain: usize, place: usize) {
        let mut at = std::mem::replace(&mut self.first[chain], END);
        while at != END {
            let waited = usize::from(at);
            if waited > place {
                self.now.insert(waited);
            } else {
                self.later.insert(waited);
            }
            at = self.next[waited % 4096];
        }
    }
}

/// A call that was refused with 15 before, and so can be refused with nothing else: whether it changes the state, if it is
/// taken.
#[inline(always)]
fn try_again(
    heard: &mut [[u64; 4]],
    masks: &mut [u64; 6],
    call: [u8; 4],
    work_out: impl FnOnce(&mut [u64; 4], &mut [u64; 6], [usize; 4]),
) -> Option<bool> {
    let [kind, from, to, side] = call.map(usize::from);
    let kind_and_side = 2 * (kind - 1) + side;
    if masks[VOTED + kind_and_side] >> from & 1 == 0 {
        return None;
    }
    let row = &mut heard[to];
    if row[kind_and_side] >> from & 1 == 1 {
        return Some(false);
    }
    row[kind_and_side] |= 1 << from;
    work_out(row, masks, [kind, from, to, side]);
    Some(true)
}

/// The passes. In the second only what was refused with 15 is tried, and from the third on each such call only when its
/// sender has sent it.
#[inline(always)]
fn passes_by(
    mut questions: impl Questions,
    (n, faulty): (usize, u64),
    calls: &[[u8; 4]],
    state: &mut [u64],
    answers: &mut [u8],
) -> u64 {
    state.fill(0);
    let (heard, masks) = parts(state, n);
    let heard = &mut heard[..n];
    let mut work_out = |row: &mut _, masks: &mut _, call| questions.work_out(row, masks, call);
    let mut refused = [0u16; 4096];
    let mut count = 0;
    let mut changed = false;
    for (place, (call, answer)) in calls.iter().zip(answers.iter_mut()).enumerate() {
        let (number, change) = take_by(n, faulty, (heard, masks), *call, &mut work_out);
        *answer = number;
        changed |= change;
        if number == 15 {
            refused[count % 4096] = place as u16;
            count += 1;
        }
    }
    if !changed {
        return 1;
    }
    changed = false;
    let mut left = 0;
    for k in 0..count {
        let place = usize::from(refused[k % 4096]);
        match try_again(heard, masks, calls[place], &mut work_out) {
            Some(change) => {
                answers[place] = 0;
                changed |= change;
            }
            None => {
                refused[left % 4096] = place as u16;
                left += 1;
            }
        }
    }
    if !changed {
        return 2;
    }
    2 + woken_passes(calls, (heard, masks), answers, &refused[..left], work_out)
}

/// The passes from the third on, over the calls that the second refused. Votes are sent by proposals alone, and no
/// proposal waits: only accepts are waited for.
#[inline(always)]
fn woken_passes(
    calls: &[[u8; 4]],
    (heard, masks): State,
    answers: &mut [u8],
    refused: &[u16],
    mut work_out: impl FnMut(&mut [u64; 4], &mut [u64; 6], [usize; 4]),
) -> u64 {
    let mut waiting = Waiting::new();
    for place in refused.iter().map(|place| usize::from(*place)) {
        let [kind, from, _, side] = calls[place].map(usize::from);
        if masks[(2 * (kind - 1) + side) % 6] >> from & 1 == 1 {
            waiting.later.insert(place);
        } else {
            waiting.wait(chain(kind, from, side), place);
        }
    }
    let mut passes = 0;
    let mut changed = true;
    while changed {
        passes += 1;
        changed = false;
        std::mem::swap(&mut waiting.now, &mut waiting.later);
        while let Some(place) = waiting.now.take_first() {
            let [_, _, to, side] = calls[place].map(usize::from);
            let before = masks[ACCEPTED + side % 2];
            answers[place] = 0;
            changed |= try_again(heard, masks, calls[place], &mut work_out) == Some(true);
            if masks[ACCEPTED + side % 2] != before {
                waiting.wake(chain(2, to, side), place);
            }
        }
    }
    passes
}

/// The passes in one way or another.
type Passes = fn(&[[u64; ROW]], u64, &[[u8; 4]], &mut [u64], &mut [u8]) -> u64;

fn passes_by_waking(rows: &[[u64; ROW]], faulty: u64, calls: &[[u8; 4]], state: &mut [u64], answers: &mut [u8]) -> u64 {
    passes_by(Told::new(rows, calls), (rows.len(), faulty), calls, state, answers)
}

/// Of a table of at most 12 sites.
fn passes_by_list(rows: &[[u64; ROW]], faulty: u64, calls: &[[u8; 4]], state: &mut [u64], answers: &mut [u8]) -> u64 {
    passes_by(Holders::new(rows), (rows.len(), faulty), calls, state, answers)
}

#[inline(always)]
fn run_records_by(
    table: &[u64],
    faulty: u64,
    calls: &[[u8; 4]],
    state: &mut [u64],
    answers: &mut [u8],
    passes: Passes,
) -> Answer {
    answer((|| {
        let rows = checked(table)?;
        check_set(rows, faulty)?;
        if calls.len() > 4096 {
            return Err((17, 0));
        }
        let length = 4 * rows.len() + 6;
        if state.len() < length || answers.len() < calls.len() {
            return Err((9, 0));
        }
        let passes = passes(rows, faulty, calls, &mut state[..length], &mut answers[..calls.len()]);
        Ok([passes, 0, 0])
    })())
}

pub fn run_records(table: &[u64], faulty: u64, calls: &[[u8; 4]], state: &mut [u64], answers: &mut [u8]) -> Answer {
    run_records_by(table, faulty, calls, state, answers, passes)
}

pub fn run_records_by_waking(
    table: &[u64],
    faulty: u64,
    calls: &[[u8; 4]],
    state: &mut [u64],
    answers: &mut [u8],
) -> Answer {
    run_records_by(table, faulty, calls, state, answers, passes_by_waking)
}

pub fn run_records_by_list(
    table: &[u64],
    faulty: u64,
    calls: &[[u8; 4]],
    state: &mut [u64],
    answers: &mut [u8],
) -> Answer {
    run_records_by(table, faulty, calls, state, answers, passes_by_list)
}

pub fn run(table: &[u64], faulty: u64, calls: &[u8], state: &mut [u64], answers: &mut [u8]) -> Answer {
    let (records, rest) = calls.as_chunks::<4>();
    if rest.is_empty() {
        return run_records(table, faulty, records, state, answers);
    }
    answer(checked(table).and_then(|rows| check_set(rows, faulty)).and(Err((17, 0))))
}

// ---- The mark

pub fn mark(site: u64, confirmed_drill: u64, confirmed_live: u64) -> u8 {
    if site > 63 {
        11
    } else {
        ((confirmed_drill & !confirmed_live) >> site & 1) as u8
    }
}

// ---- The journal of calls

/// The calls of a block, and the blocks of a journal, at most.
const CALLS: usize = 125;
const MOST_BLOCKS: usize = 33;

/// The first four bytes of a block: its number, and its calls times 2^16.
#[inline(always)]
fn journal_head(block: &[u8; BLOCK]) -> u32 {
    u32::from_le_bytes(*block.first_chunk::<4>().unwrap())
}

/// Checks a journal whole, and gives its blocks and the number of its calls. A block before the last has no filler.
#[inline(always)]
fn journal_checked(journal: &[u8], sums: Sums) -> Result<(&[[u8; BLOCK]], usize), Refusal> {
    let (blocks, rest) = journal.as_chunks::<BLOCK>();
    if blocks.len() > MOST_BLOCKS || !rest.is_empty() {
        return Err((19, 0));
    }
    let Some((last, full)) = blocks.split_last() else {
        return Ok((blocks, 0));
    };
    for (place, block) in full.iter().enumerate() {
        if !check_held(block, sums(block)) {
            return Err((2, place as u64));
        }
        if journal_head(block) != place as u32 | (CALLS as u32) << 16 {
            return Err((20, place as u64));
        }
    }
    let place = full.len();
    if !check_held(last, sums(last)) {
        return Err((2, place as u64));
    }
    let count = (journal_head(last) >> 16) as usize;
    if journal_head(last) & 0xffff != place as u32 || count.wrapping_sub(1) >= CALLS {
        return Err((20, place as u64));
    }
    if last[4 + 4 * count..504].iter().fold(0, |some, byte| some | byte) != 0 {
        return Err((8, place as u64));
    }
    let calls = CALLS * place + count;
    if calls > 4096 {
        return Err((17, 0));
    }
    Ok((blocks, calls))
}

#[inline(always)]
fn journal_check_by(journal: &[u8], sums: Sums) -> Answer {
    answer(journal_checked(journal, sums).map(|(blocks, calls)| [blocks.len() as u64, calls as u64, 0]))
}

#[inline(always)]
fn journal_write_by(calls: &[u8], room: &mut [u8], sums: Sums) -> Answer {
    answer((|| {
        if !calls.len().is_multiple_of(4) || calls.len() > 4 * 4096 {
            return Err((17, 0));
        }
        let blocks = calls.len().div_ceil(4 * CALLS);
        if room.len() < BLOCK * blocks {
            return Err((9, 0));
        }
        let parts = calls.chunks(4 * CALLS).zip(room.as_chunks_mut::<BLOCK>().0);
        for (place, (part, block)) in parts.enumerate() {
            let head = place as u32 | (part.len() as u32 / 4) << 16;
            block[..4].copy_from_slice(&head.to_le_bytes());
            let (used, filler) = block[4..504].split_at_mut(part.len());
            used.copy_from_slice(part);
            filler.fill(0);
            let (s, t) = sums(block);
            block[504..].copy_from_slice(&(u64::from(s) | u64::from(t) << 32).to_le_bytes());
        }
        Ok([blocks as u64, 0, 0])
    })())
}

#[inline(always)]
fn journal_list_by(journal: &[u8], room: &mut [u8], sums: Sums) -> Answer {
    answer((|| {
        let (blocks, calls) = journal_checked(journal, sums)?;
        let Some(list) = room.get_mut(..4 * calls) else {
            return Err((9, 0));
        };
        for (part, block) in list.chunks_mut(4 * CALLS).zip(blocks) {
            part.copy_from_slice(&block[4..][..part.len()]);
        }
        Ok([4 * calls as u64, 0, 0])
    })())
}

#[inline(always)]
fn journal_next_by(journal: &[u8], place: u64, sums: Sums) -> Answer {
    answer((|| {
        let (blocks, calls) = journal_checked(journal, sums)?;
        if place >= calls as u64 {
            return Ok([0; 3]);
        }
        let at = place as usize;
        let call = blocks[at / CALLS].as_chunks::<4>().0[1 + at % CALLS];
        Ok([1, u32::from_le_bytes(call).into(), place + 1])
    })())
}

pub fn journal_check(journal: &[u8]) -> Answer {
    journal_check_by(journal, sums)
}

pub fn journal_check_in_order(journal: &[u8]) -> Answer {
    journal_check_by(journal, sums_in_order)
}

pub fn journal_write(calls: &[u8], room: &mut [u8]) -> Answer {
    journal_write_by(calls, room, sums)
}

pub fn journal_write_in_order(calls: &[u8], room: &mut [u8]) -> Answer {
    journal_write_by(calls, room, sums_in_order)
}

pub fn journal_list(journal: &[u8], room: &mut [u8]) -> Answer {
    journal_list_by(journal, room, sums)
}

pub fn journal_list_in_order(journal: &[u8], room: &mut [u8]) -> Answer {
    journal_list_by(journal, room, sums_in_order)
}

pub fn journal_next(journal: &[u8], place: u64) -> Answer {
    journal_next_by(journal, place, sums)
}

pub fn journal_next_in_order(journal: &[u8], place: u64) -> Answer {
    journal_next_by(journal, place, sums_in_order)
}
