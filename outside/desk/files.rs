//! Tables and lists of calls: those of the samples, and those that the cases of the programs need.

use crate::model::{block_on_file, block_sums, ACCEPT, PROPOSE, VOTE};

pub const DRILL: u8 = 0;
pub const LIVE: u8 = 1;

/// The image of a table, given each site's slices.
pub fn image(slices: &[Vec<u64>]) -> Vec<u8> {
    slices.iter().enumerate().flat_map(|(site, own)| block_on_file(site, slices.len(), own)).collect()
}

/// Table A of the rules: 3; 3; 7; 11; 24.
pub fn table_a() -> Vec<Vec<u64>> {
    [3, 3, 7, 11, 24].map(|slice| vec![slice]).to_vec()
}

/// Table B of the rules: four sites, all three-site sets with the owner.
pub fn table_b() -> Vec<Vec<u64>> {
    vec![vec![7, 11, 13], vec![7, 11, 14], vec![7, 13, 14], vec![11, 13, 14]]
}

/// Four sites, each with every pair that it is in: any two of them decide, and nobody is intact.
pub fn table_pairs() -> Vec<Vec<u64>> {
    vec![vec![3, 5, 9], vec![3, 6, 10], vec![5, 6, 12], vec![9, 10, 12]]
}

/// The table of the rules that does not meet: 3; 3; 12; 12.
pub fn table_apart() -> Vec<Vec<u64>> {
    [3, 3, 12, 12].map(|slice| vec![slice]).to_vec()
}

/// Three sites that all take the word of site 3, which is faulty in the sample: 11; 11; 12; 8.
pub fn table_leaning() -> Vec<Vec<u64>> {
    [11, 11, 12, 8].map(|slice| vec![slice]).to_vec()
}

/// One site that takes its own word.
pub fn table_alone() -> Vec<Vec<u64>> {
    vec![vec![1]]
}

/// Table B's four sites in the middle, and others that each take the word of any three of them.
pub fn table_round_b(n: usize) -> Vec<Vec<u64>> {
    let mut slices = table_b();
    slices.extend((4..n).map(|site| [7, 11, 13, 14].map(|three| three | 1 << site).to_vec()));
    slices
}

/// Each site takes its own word and the next one's, in a ring.
pub fn table_ring(n: usize) -> Vec<Vec<u64>> {
    (0..n).map(|site| vec![1 << site | 1 << ((site + 1) % n)]).collect()
}

/// Twelve sites; site 0 has 62 slices, the others take its word.
pub fn table_of_62() -> Vec<Vec<u64>> {
    let mut slices: Vec<Vec<u64>> = (1..12).map(|site| vec![1 | 1 << site]).collect();
    slices.insert(0, (1..=62).map(|k| 2 * k + 1).collect());
    slices
}

/// One block of an image, changed, with its check worked out anew.
pub fn resealed(image: &[u8], block: usize, change: impl Fn(&mut [u8])) -> Vec<u8> {
    let mut image = image.to_vec();
    let bytes = &mut image[512 * block..512 * (block + 1)];
    change(bytes);
    let (s, t) = block_sums(bytes);
    bytes[504..508].copy_from_slice(&(s as u32).to_le_bytes());
    bytes[508..512].copy_from_slice(&(t as u32).to_le_bytes());
    image
}

/// One byte of an image changed, and its check left as it was.
pub fn damaged(image: &[u8], at: usize) -> Vec<u8> {
    let mut image = image.to_vec();
    image[at] ^= 4;
    image
}

pub fn propose(site: u8, side: u8) -> [u8; 4] {
    [PROPOSE, site, site, side]
}

pub fn vote(from: u8, to: u8, side: u8) -> [u8; 4] {
    [VOTE, from, to, side]
}

pub fn accept(from: u8, to: u8, side: u8) -> [u8; 4] {
    [ACCEPT, from, to, side]
}

/// Every word of some sites to all others of them: the proposals, the votes, the accepts.
pub fn whole_vote(sites: &[u8], side: u8) -> Vec<[u8; 4]> {
    let pairs: Vec<(u8, u8)> =
        sites.iter().flat_map(|from| sites.iter().map(|to| (*from, *to))).filter(|(from, to)| from != to).collect();
    let proposals = sites.iter().map(|site| propose(*site, side));
    let votes = pairs.iter().map(|(from, to)| vote(*from, *to, side));
    let accepts = pairs.iter().map(|(from, to)| accept(*from, *to, side));
    proposals.chain(votes).chain(accepts).collect()
}

/// A test window in a table of sites round table B: the four in the middle vote, the others below n hear them.
pub fn window_of(n: u8) -> Vec<[u8; 4]> {
    let mut calls = whole_vote(&[0, 1, 2, 3], DRILL);
    for site in 4..n {
        calls.push(propose(site, DRILL));
        calls.extend((0..3).map(|from| vote(from, site, DRILL)));
        calls.extend((0..3).map(|from| accept(from, site, DRILL)));
    }
    calls
}

/// The broken site 3 says live to some and drill to others, while the three correct ones hold a drill.
pub fn two_faced() -> Vec<[u8; 4]> {
    let mut calls = whole_vote(&[0, 1, 2], DRILL);
    calls.extend([vote(3, 0, LIVE), vote(3, 1, DRILL), accept(3, 0, LIVE), accept(3, 2, LIVE), accept(3, 1, DRILL)]);
    calls
}

/// Sites 0 and 1 vote live with site 3, and site 3 tells site 2 that it accepts drill.
pub fn leaning() -> Vec<[u8; 4]> {
    let mut calls = whole_vote(&[0, 1], LIVE);
    calls.extend([vote(3, 0, LIVE), vote(3, 1, LIVE), accept(3, 0, LIVE), accept(3, 1, LIVE), accept(3, 2, DRILL)]);
    calls
}

/// A drill of sites 0, 1 and 2 in which the accept of site 0 to site 1 is missing.
pub fn short() -> Vec<[u8; 4]> {
    whole_vote(&[0, 1, 2], DRILL).into_iter().filter(|call| *call != accept(0, 1, DRILL)).collect()
}

/// Sites 0 and 1 vote drill among themselves, 2 and 3 live.
pub fn split() -> Vec<[u8; 4]> {
    [whole_vote(&[0, 1], DRILL), whole_vote(&[2, 3], LIVE)].concat()
}

/// Sites 2 and 3 say drill to site 0 and live to site 1, each of which is proposed what it hears.
pub fn pushed() -> Vec<[u8; 4]> {
    let told = |to, side| {
        [propose(to, side), vote(2, to, side), vote(3, to, side), accept(2, to, side), accept(3, to, side)]
    };
    [told(0, DRILL), told(1, LIVE)].concat()
}

pub fn bytes(calls: &[[u8; 4]]) -> Vec<u8> {
    calls.concat()
}
