//! The inputs of the benchmark over tables of thresholds.

use crate::inputs::{plain_day, Call, Rng};
use crate::model::all_sites;
use crate::model::thresholds::{image_of, largest, Set};

/// A set without inner sets.
fn leaf(threshold: usize, plain: u64) -> Set {
    Set { threshold, plain, inner: Vec::new() }
}

/// One set a site: more than half of about half of the sites.
pub fn alone(n: usize) -> Vec<Set> {
    let mut rng = Rng(88_172_645_463_325_252);
    let root = |v: usize| {
        let plain = rng.next() & all_sites(n) | 1 << v;
        leaf(plain.count_ones() as usize / 2 + 1, plain)
    };
    (0..n).map(root).collect()
}

/// One set a site: v needs v - 1. The largest quorum inside all sites but 0 takes n - 1 rounds, one site a round.
pub fn chain(n: usize) -> Vec<Set> {
    (0..n).map(|v: usize| leaf(1, 1 << v.saturating_sub(1))).collect()
}

/// 49 sets a site, on four levels: a root of four sets, each of four, and of these each but four of two, the last of one.
/// So many quarters of what each names are needed.
pub fn full(n: usize, quarters: usize) -> Vec<Set> {
    let mut rng = Rng(88_172_645_463_325_252);
    let mut site = |v: usize| {
        let mut drawn = |inner: Vec<Set>| {
            let plain = rng.next() & rng.next() & all_sites(n) | 1 << v;
            Set { threshold: (quarters * (plain.count_ones() as usize + inner.len())).div_ceil(4), plain, inner }
        };
        let mut third = |k: usize| {
            let inner = (0..if k < 12 { 2 } else { 1 }).map(|_| drawn(Vec::new())).collect();
            drawn(inner)
        };
        let thirds: Vec<Set> = (0..16).map(&mut third).collect();
        let seconds: Vec<Set> = thirds.chunks(4).map(|four| drawn(four.to_vec())).collect();
        drawn(seconds)
    };
    (0..n).map(&mut site).collect()
}

/// 49 sets a site: each of the 48 inner sets needs v - 1 or site 0. Inside all sites but 0, n - 1 rounds.
pub fn full_chain(n: usize) -> Vec<Set> {
    (0..n)
        .map(|v: usize| Set { threshold: 48, plain: 0, inner: vec![leaf(1, 1 | 1 << v.saturating_sub(1)); 48] })
        .collect()
}

/// So many of all sites.
fn symmetric(n: usize, threshold: usize) -> Vec<Set> {
    vec![leaf(threshold, all_sites(n)); n]
}

/// Groups of three sites: three of four groups, and of each two sites.
fn groups() -> Vec<Set> {
    let inner = (0..4).map(|k| leaf(2, 7 << (3 * k))).collect();
    vec![Set { threshold: 3, plain: 0, inner }; 12]
}

/// Two halves that have nothing to do with each other, four of six in each.
fn halves() -> Vec<Set> {
    (0..12).map(|v| leaf(4, if v < 6 { 63 } else { 63 << 6 })).collect()
}

/// Tables of 64 sites to ask for the largest quorum: name, image, set. Where nobody goes, some sites are missing from the
/// start, so that not all that is named is there.
pub fn questions() -> Vec<(&'static str, Vec<u8>, u64)> {
    let held = |image: &[u8]| largest(image, !0x0410_0204_0000_8120).values[0];
    let (alone, full) = (image_of(&alone(64)), image_of(&full(64, 2)));
    let (alone_held, full_held) = (held(&alone), held(&full));
    vec![
        ("root alone, no round", alone, alone_held),
        ("root alone, 63 rounds", image_of(&chain(64)), !1),
        ("49 sets, no round", full, full_held),
        ("49 sets, 63 rounds", image_of(&full_chain(64)), !1),
    ]
}

/// Images of 64 blocks to check.
pub fn images() -> Vec<(&'static str, Vec<u8>)> {
    vec![("root alone", image_of(&alone(64))), ("49 sets", image_of(&full(64, 2)))]
}

/// Tables of 12 sites for the verdicts: name, image, faulty set.
pub fn twelve_sites() -> Vec<(&'static str, Vec<u8>, u64)> {
    let mut rows = Vec::new();
    for faulty in [0, 0b1000_0010] {
        rows.push(("8 of 12", image_of(&symmetric(12, 8)), faulty));
        rows.push(("root alone, drawn", image_of(&alone(12)), faulty));
        rows.push(("three of four groups", image_of(&groups()), faulty));
        rows.push(("49 sets", image_of(&full(12, 3)), faulty));
        rows.push(("two halves", image_of(&halves()), faulty));
    }
    rows
}

/// Lists to run over 12 sites: name, image, calls.
pub fn lists() -> Vec<(&'static str, Vec<u8>, Vec<Call>)> {
    vec![
        ("plain day, 276 calls, 12 sites, 8 of 12", image_of(&symmetric(12, 8)), plain_day(12)),
        ("plain day, 276 calls, 12 sites, groups", image_of(&groups()), plain_day(12)),
        ("plain day, 276 calls, 12 sites, 49 sets", image_of(&full(12, 3)), plain_day(12)),
    ]
}
