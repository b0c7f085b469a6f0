//! Tables of thresholds once more, in plain Rust, from the words of request W-205 alone: the second form of a table, which
//! every question and the voting take as the image itself. What does not depend on the form is in model.rs.

use super::{
    all_sites, ask_blocks, ask_largest, ask_quorum, ask_run, ask_run_records, ask_step, block_check_differs, block_of,
    check_set, check_state, check_verdict, contains, header_differs, image_sites, inside, intact_sites, number,
    put_in_memory, refused, refused_at, told_apart, Answer, Groups, Refusal, Table, BLOCK, MOST_SLICES, ROW,
};

/// "bytes 4 to 5 now the number of sets, 1 to 49"
pub const MOST_SETS: usize = 49;
/// "sets of ten bytes"
pub const SET: usize = 10;
/// "at most four levels, the root the first"
pub const LEVELS: usize = 4;

// ---- Sets

/// A set: "threshold, number of inner sets, mask of plain sites", its inner sets with it.
#[derive(Clone, Debug, PartialEq, Eq)]
pub struct Set {
    pub threshold: usize,
    pub plain: u64,
    pub inner: Vec<Set>,
}

impl Set {
    /// "A set is met when plain sites present plus inner sets met reach the threshold; a set is met through its members
    /// and members through their sets". "Counting the sites present is a count of ones in a mask."
    pub fn is_met(&self, present: u64) -> bool {
        let sites = (self.plain & present).count_ones() as usize;
        let sets = self.inner.iter().filter(|set| set.is_met(present)).count();
        sites + sets >= self.threshold
    }

    /// The sets "in preorder": a set, then each inner set with all that is inside it.
    pub fn preorder(&self) -> Vec<Written> {
        let own = Written { threshold: self.threshold as u8, inner: self.inner.len() as u8, plain: self.plain };
        std::iter::once(own).chain(self.inner.iter().flat_map(Set::preorder)).collect()
    }
}

/// A set as it is written: its inner sets are a number, and come behind it.
#[derive(Clone, Copy, Debug, PartialEq, Eq)]
pub struct Written {
    pub threshold: u8,
    pub inner: u8,
    pub plain: u64,
}

impl Written {
    /// "sets of ten bytes ..: threshold, number of inner sets, mask of plain sites"; "numbers little-endian".
    pub fn bytes(&self) -> [u8; SET] {
        let mut bytes = [0; SET];
        bytes[0] = self.threshold;
        bytes[1] = self.inner;
        bytes[2..].copy_from_slice(&self.plain.to_le_bytes());
        bytes
    }

    pub fn of(bytes: &[u8]) -> Written {
        Written { threshold: bytes[0], inner: bytes[1], plain: number(&bytes[2..SET]) }
    }
}

/// The first set of those left, with its inner sets, taken from them. There are as many as it is owed.
fn first_whole(left: &mut &[Written]) -> Set {
    let (first, rest) = left.split_first().expect("a set that was counted");
    *left = rest;
    let inner = (0..first.inner).map(|_| first_whole(left)).collect();
    Set { threshold: first.threshold.into(), plain: first.plain, inner }
}

// ---- Tables

/// A table of thresholds: of each site its root set.
#[derive(Clone, Debug, PartialEq, Eq)]
pub struct Thresholds {
    pub roots: Vec<Set>,
}

impl Groups for Thresholds {
    fn n(&self) -> usize {
        self.roots.len()
    }

    /// "A site has a slice inside U if U contains the site and its root set is met by U"
    fn has_slice_inside(&self, site: usize, set: u64) -> bool {
        contains(set, site) && self.roots[site].is_met(set)
    }

    /// A slice that the set does not meet is inside the sites outside the set.
    fn meets_every_slice(&self, set: u64, site: usize) -> bool {
        !self.has_slice_inside(site, self.sites() & !set)
    }
}

/// "all such U are its slices": of a few sites, all slices of each, ascending.
pub fn all_slices(table: &Thresholds) -> Table {
    let slices = |site| (0..=table.sites()).filter(|set| table.has_slice_inside(site, *set)).collect();
    Table { sites: table.sites(), slices: (0..table.n()).map(slices).collect() }
}

/// "the list of smallest slices": those of which no other slice is a part.
pub fn smallest_slices(slices: &[u64]) -> Vec<u64> {
    let smallest = |slice: &u64| !slices.iter().any(|other| other != slice && inside(*other, *slice));
    slices.iter().copied().filter(smallest).collect()
}

// ---- On file

/// "per site one block with 01's header and check, bytes 4 to 5 now the number of sets, .., and then sets of ten bytes".
pub fn block_on_file(site: usize, n: usize, sets: &[Written]) -> Vec<u8> {
    let bytes: Vec<u8> = sets.iter().flat_map(Written::bytes).collect();
    block_of(site, n, sets.len(), &bytes)
}

/// A table of thresholds on file: "Blocks of 512 bytes, one a site, in site order".
pub fn image_of(roots: &[Set]) -> Vec<u8> {
    roots.iter().enumerate().flat_map(|(site, root)| block_on_file(site, roots.len(), &root.preorder())).collect()
}

/// "set by set 5 a site at or above n, 21 threshold zero or above plain sites plus inner sets, 22 a set after the root is
/// whole or past four levels; 22 too if inner sets are owed at the end".
fn check_sets(sets: &[Written], place: usize, n: usize) -> Result<(), Refusal> {
    // The sets that are not whole, from the root down: how many inner sets each is still owed.
    let mut owed: Vec<u8> = Vec::new();
    for (i, set) in sets.iter().enumerate() {
        if !inside(set.plain, all_sites(n)) {
            return refused_at(5, place);
        }
        let members = set.plain.count_ones() + u32::from(set.inner);
        if set.threshold == 0 || u32::from(set.threshold) > members {
            return refused_at(21, place);
        }
        while owed.last() == Some(&0) {
            owed.pop();
        }
        let root_is_whole = i > 0 && owed.is_empty();
        let level = owed.len() + 1;
        if root_is_whole || level > LEVELS {
            return refused_at(22, place);
        }
        if let Some(last) = owed.last_mut() {
            *last -= 1;
        }
        owed.push(set.inner);
    }
    if owed.iter().any(|sets| *sets > 0) {
        return refused_at(22, place);
    }
    Ok(())
}

/// One block of an image of n blocks, at its place: 2, 3, "4 a number of sets outside 1 to 49; set by set 5 .., 21 .., 22
/// ..; 22 too if inner sets are owed at the end, then 8". "a fault in a block carries its number". The root, if none
/// holds.
fn block_root(block: &[u8], place: usize, n: usize) -> Result<Set, Refusal> {
    if block_check_differs(block) {
        return refused_at(2, place);
    }
    if header_differs(block, place, n) {
        return refused_at(3, place);
    }
    let count = number(&block[4..6]) as usize;
    if !(1..=MOST_SETS).contains(&count) {
        return refused_at(4, place);
    }
    let (used, filler) = block[8..504].split_at(SET * count);
    let sets: Vec<Written> = used.chunks(SET).map(Written::of).collect();
    check_sets(&sets, place, n)?;
    if filler.iter().any(|byte| *byte != 0) {
        return refused_at(8, place);
    }
    Ok(first_whole(&mut sets.as_slice()))
}

/// "Set questions and voting take the image itself in this form": 1, then block by block.
pub fn table_on_file(image: &[u8]) -> Result<Thresholds, Refusal> {
    let n = image_sites(image)?;
    let mut roots = Vec::new();
    for (place, block) in image.chunks(BLOCK).enumerate() {
        roots.push(block_root(block, place, n)?);
    }
    Ok(Thresholds { roots })
}

/// The check of an image by itself.
pub fn check(image: &[u8]) -> Answer {
    table_on_file(image).map(|_| [0; 3]).into()
}

// ---- Questions and voting

pub fn quorum(image: &[u8], set: u64) -> Answer {
    table_on_file(image).and_then(|table| ask_quorum(&table, set)).into()
}

pub fn largest(image: &[u8], set: u64) -> Answer {
    table_on_file(image).and_then(|table| ask_largest(&table, set)).into()
}

pub fn blocks(image: &[u8], set: u64, site: u64) -> Answer {
    table_on_file(image).and_then(|table| ask_blocks(&table, set, site)).into()
}

/// Shared sites, by all slices.
pub fn shared(image: &[u8]) -> Answer {
    let ask = || {
        let table = table_on_file(image)?;
        check_verdict(&table)?;
        Ok(told_apart(&all_slices(&table)))
    };
    ask().into()
}

/// Intact sites, by all slices: each loses the members of the set that is deleted.
pub fn intact(image: &[u8], faulty: u64) -> Answer {
    let ask = || {
        let table = table_on_file(image)?;
        check_set(&table, faulty)?;
        check_verdict(&table)?;
        Ok([intact_sites(&all_slices(&table), faulty), 0, 0])
    };
    ask().into()
}

pub fn sound(image: &[u8], faulty: u64, state: &[u64]) -> Answer {
    table_on_file(image).and_then(|table| check_state(&table, faulty, state)).into()
}

pub fn step(image: &[u8], faulty: u64, state: &mut [u64], call: [u8; 4]) -> Answer {
    table_on_file(image).and_then(|table| ask_step(&table, faulty, state, call)).into()
}

pub fn run(image: &[u8], faulty: u64, calls: &[u8], state: &mut [u64], answers: &mut [u8]) -> Answer {
    table_on_file(image).and_then(|table| ask_run(&table, faulty, calls, state, answers)).into()
}

pub fn run_records(image: &[u8], faulty: u64, calls: &[[u8; 4]], state: &mut [u64], answers: &mut [u8]) -> Answer {
    table_on_file(image).and_then(|table| ask_run_records(&table, faulty, calls, state, answers)).into()
}

// ---- The translation

/// "the translation into a table in memory for n up to 12 where that list has at most 62": the image's refusals, "16 above
/// 12, 9, then 23 more than 62 slices", with the first such site. 9 is of 63 numbers a site. A row has its slices ascending.
/// Answers n.
pub fn translate(image: &[u8], room: &mut [u64]) -> Answer {
    let mut ask = || {
        let table = table_on_file(image)?;
        check_verdict(&table)?;
        if room.len() < ROW * table.n() {
            return refused(9);
        }
        let Table { sites, slices } = all_slices(&table);
        let translated = Table { sites, slices: slices.iter().map(|slices| smallest_slices(slices)).collect() };
        if let Some(site) = translated.slices.iter().position(|slices| slices.len() > MOST_SLICES) {
            return refused_at(23, site);
        }
        put_in_memory(&translated, room);
        Ok([table.n() as u64, 0, 0])
    };
    ask().into()
}

#[cfg(test)]
#[path = "threshold_tests.rs"]
mod tests;
