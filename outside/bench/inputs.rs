//! The inputs of the benchmark: tables as rows of slices, and lists of calls.

use crate::model::{all_sites, row_in_memory};

pub type Rows = Vec<Vec<u64>>;
pub type Call = [u8; 4];

/// Numbers that are the same in each run.
pub struct Rng(pub u64);

impl Rng {
    pub fn next(&mut self) -> u64 {
        self.0 ^= self.0 << 13;
        self.0 ^= self.0 >> 7;
        self.0 ^= self.0 << 17;
        self.0
    }

    fn below(&mut self, end: usize) -> usize {
        (self.next() >> 11) as usize % end
    }
}

/// The rows as a table in memory.
pub fn memory(rows: &[Vec<u64>]) -> Vec<u64> {
    rows.iter().flat_map(|slices| row_in_memory(slices)).collect()
}

// ---- Tables

/// The first slices together with `base | k << shift` for k from 0 on, as far as there is room and no two are alike.
fn filled(first: Vec<u64>, base: u64, shift: u32, most: u64) -> Vec<u64> {
    let mut slices = first;
    for slice in (0..most).map(|k| base | k << shift) {
        if slices.len() == 62 {
            break;
        }
        if !slices.contains(&slice) {
            slices.push(slice);
        }
    }
    slices.sort();
    slices
}

/// 62 slices a site, each of about half of the sites.
pub fn full(n: usize) -> Rows {
    random(&mut Rng(88_172_645_463_325_252), n, 62, 1)
}

/// `count` slices a site, each of about one site in 2^thin.
pub fn random(rng: &mut Rng, n: usize, count: usize, thin: u32) -> Rows {
    let row = |v: usize| {
        let mut slices: Vec<u64> = Vec::new();
        for _ in 0..count {
            let mask = (1..thin).fold(rng.next(), |mask, _| mask & rng.next());
            slices.push(mask & all_sites(n) | 1 << v);
        }
        slices.sort();
        slices.dedup();
        slices
    };
    (0..n).map(row).collect()
}

/// Site v needs v - 1, and 61 slices that name site 0 come before the one that does not. The largest quorum inside all
/// sites but 0 takes n - 1 rounds, one site a round.
pub fn costly_chain(n: usize) -> Rows {
    let row = |v: usize| match v {
        0 => vec![1],
        1 => filled(vec![3], 3, 1, 1),
        _ => filled(vec![1 << v | 1 << (v - 1)], 1 << v | 1, 1, 1 << (v - 2).min(20)),
    };
    (0..n).map(row).collect()
}

/// Every slice of v holds v - 1, so that its accept alone blocks v; the last is {v - 1, v, v + 1}, and the others name
/// site 0.
pub fn block_chain(n: usize) -> Rows {
    let row = |v: usize| {
        if v == 0 {
            return vec![1];
        }
        let base = 1u64 << v | 1 << (v - 1);
        let first = if v == n - 1 || v < 2 { base } else { base | 1 << (v + 1) };
        filled(vec![first], base | 1, 1, if v < 2 { 1 } else { 1 << (v - 2).min(20) })
    };
    (0..n).map(row).collect()
}

/// Sites 0 and 1 hold each other, each further site the one before it.
pub fn longest(n: usize) -> Rows {
    (0..n).map(|v| vec![if v < 2 { 3 } else { 1 << v | 1 << (v - 1) }]).collect()
}

/// Every slice holds site `hub`; 62 slices a site, the smallest.
pub fn hub(n: usize, hub: usize) -> Rows {
    (0..n).map(|v| filled(Vec::new(), 1 << hub | 1 << v, 0, 1 << n)).collect()
}

/// The slices of a site are all sets of a size that contain it.
fn symmetric(n: usize, size: u32) -> Rows {
    let row = |v: usize| (0..1u64 << n).filter(|set| set.count_ones() == size && set >> v & 1 == 1).collect();
    (0..n).map(row).collect()
}

/// Two halves that have nothing to do with each other.
fn halves(n: usize) -> Rows {
    let low = all_sites(n / 2);
    (0..n).map(|v| vec![if v < n / 2 { low } else { all_sites(n) & !low }]).collect()
}

// ---- Lists

/// Accepts along the chain from its end, then every vote but those of site 0, then every proposal: 4,033 calls at 64
/// sites.
fn backward_chain(n: u8) -> Vec<Call> {
    let mut calls: Vec<Call> = (1..n).rev().map(|v| [2, v - 1, v, 0]).collect();
    calls.extend((1..n).rev().flat_map(|v| (1..n).rev().filter(move |u| *u != v).map(move |u| [1, u, v, 0])));
    calls.extend((0..n).map(|v| [0, v, v, 0]));
    calls
}

/// n + 3 passes, the most that there can be; with repeats of a vote that waits for its sender, as many calls as wanted,
/// at least n + 3.
pub fn longest_list(n: u8, count: usize) -> Vec<Call> {
    let mut calls = vec![[2, n - 1, 0, 0]];
    calls.extend((2..n).rev().map(|v| [2, v - 1, v, 0]));
    calls.push([2, 0, 1, 0]);
    calls.resize(count - 3, [1, 1, 0, 0]);
    calls.extend([[1, 1, 0, 0], [0, 0, 0, 0], [0, 1, 1, 0]]);
    calls
}

/// Drawn calls for drill: one in eight a proposal, the others votes and accepts between two sites.
pub fn drawn_list(n: usize, count: usize) -> Vec<Call> {
    let mut rng = Rng(4711);
    let mut call = || {
        let (from, to) = (rng.below(n), rng.below(n));
        match rng.below(8) {
            0 => [0, to as u8, to as u8, 0],
            drawn => [1 + drawn as u8 % 2, from as u8, to as u8, 0],
        }
    };
    (0..count).map(|_| call()).collect()
}

/// The faulty sites 1 to f send votes, then accepts, for both sides to each correct site: every call is new, and over
/// the costly chain with site 0 silent nearly every one meets a chain of many rounds.
fn faulty_flood(n: u8, f: u8) -> (u64, Vec<Call>) {
    let mut calls: Vec<Call> = (f + 1..n).map(|v| [0, v, v, 0]).collect();
    for v in (f + 1..n).rev() {
        for (side, kind) in [(0, 1), (0, 2), (1, 1), (1, 2)] {
            let senders = (1..n).filter(|u| *u != v && !(kind == 2 && *u + 1 == v));
            calls.extend(senders.map(|u| [kind, u, v, side]));
        }
    }
    calls.truncate(4096);
    (((1 << f) - 1) << 1, calls)
}

/// All proposals, then every vote and every accept of each site to each other, in an order that is drawn: what a day
/// brings.
pub fn plain_day(n: u8) -> Vec<Call> {
    let mut calls: Vec<Call> = (0..n).map(|v| [0, v, v, 0]).collect();
    for kind in [1, 2] {
        calls.extend((0..n).flat_map(|u| (0..n).filter(move |v| *v != u).map(move |v| [kind, u, v, 0])));
    }
    let mut rng = Rng(4711);
    for i in (1..calls.len()).rev() {
        calls.swap(i, rng.below(i + 1));
    }
    calls
}

/// Every site votes drill, and all hear each other's votes; no accept is told.
fn all_votes(n: u8) -> Vec<Call> {
    let mut calls: Vec<Call> = (0..n).map(|v| [0, v, v, 0]).collect();
    calls.extend((0..n).flat_map(|u| (0..n).filter(move |v| *v != u).map(move |v| [1, u, v, 0])));
    calls.truncate(4096);
    calls
}

/// Every site votes drill, and each hears all votes but the next site's, so that no two have heard the same.
fn all_votes_but_one(n: u8) -> Vec<Call> {
    all_votes(n).into_iter().filter(|call| call[0] == 0 || call[1] != (call[2] + 1) % n).collect()
}

/// States to ask about and to step from: name, table, faulty set, and the list that leads there.
pub fn states() -> Vec<(&'static str, Rows, u64, Vec<Call>)> {
    // All but site 0 vote, along the costly chain: each site that asks for the largest quorum meets up to 63 rounds,
    // and nobody accepts.
    let chain: Vec<Call> = all_votes(64).into_iter().filter(|call| call[1] != 0).collect();
    let chain_but_one: Vec<Call> = all_votes_but_one(64).into_iter().filter(|call| call[1] != 0).collect();
    vec![
        ("fresh, 64 sites, 62 slices", full(64), 0, Vec::new()),
        ("votes along a chain, 64 sites", costly_chain(64), 0, chain),
        ("all votes heard, 64 sites, 62 slices", full(64), 0, all_votes(64)),
        ("all votes but one, 64 sites, 62 slices", full(64), 0, all_votes_but_one(64)),
        ("votes but one along a chain, 64 sites", costly_chain(64), 0, chain_but_one),
        ("a plain day, 12 sites", random(&mut Rng(99), 12, 20, 1), 0, plain_day(12)),
    ]
}

/// A call that the state has not heard: the accept or vote of some correct site, told to one that lacks it; a proposal
/// if there is none.
pub fn one_more(n: usize, faulty: u64, state: &[u64]) -> Call {
    let correct = |v: &usize| faulty >> v & 1 == 0;
    for (kind, sent) in [(2, state[4 * n + 2]), (1, state[4 * n])] {
        for to in (0..n).rev().filter(correct) {
            let lacking = sent & !state[4 * to + 2 * (kind - 1)];
            if lacking != 0 {
                return [kind as u8, lacking.trailing_zeros() as u8, to as u8, 0];
            }
        }
    }
    [0, 0, 0, 0]
}

/// Lists to run: name, table, faulty set, calls, and whether the model is quick enough to be asked too.
pub fn lists() -> Vec<(&'static str, Rows, u64, Vec<Call>, bool)> {
    let (faulty, flood) = faulty_flood(64, 32);
    vec![
        ("block chain, 4,033 calls, 64 sites", block_chain(64), 0, backward_chain(64), false),
        ("flood by 32 faulty sites, 64 sites", costly_chain(64), faulty, flood, false),
        ("67 passes, 67 calls", longest(64), 0, longest_list(64, 67), true),
        ("67 passes, 4,096 calls", longest(64), 0, longest_list(64, 4096), true),
        ("plain day, 276 calls, 12 sites", random(&mut Rng(99), 12, 20, 1), 0, plain_day(12), true),
        ("plain day, 276 calls, 12 sites, symmetric", symmetric(12, 10), 0, plain_day(12), true),
    ]
}

/// The calls of the longest journal: a plain day of 64 sites, as much of it as may be kept.
pub fn kept_calls() -> Vec<u8> {
    let mut calls = plain_day(64);
    calls.truncate(4096);
    calls.concat()
}

/// Tables of 12 sites for the verdicts: name, table, faulty set.
pub fn twelve_sites() -> Vec<(&'static str, Rows, u64)> {
    let mut rows = Vec::new();
    for faulty in [0, 0b1000_0010] {
        rows.push(("hub at the last site", hub(12, 11), faulty));
        rows.push(("star around site 0", hub(12, 0), faulty));
        rows.push(("symmetric, 10 of 12", symmetric(12, 10), faulty));
        rows.push(("random, 20 slices", random(&mut Rng(5), 12, 20, 1), faulty));
        rows.push(("random, 3 slices", random(&mut Rng(5), 12, 3, 2), faulty));
        rows.push(("two halves", halves(12), faulty));
    }
    rows
}
