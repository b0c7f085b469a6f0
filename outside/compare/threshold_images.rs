//! The inputs with tables of thresholds: sound images of every shape and size, and damage to them, a way for each refusal.

use crate::generate::{mend, Near, Rng};
use crate::model::thresholds::{self, Set, Thresholds, Written, LEVELS, MOST_SETS, SET};
use crate::model::{all_sites, contains, only, Groups, BLOCK};

// ---- Sound tables

#[derive(Clone, Copy, Debug, PartialEq)]
pub enum Shape {
    /// A root alone over some sites, its owner among them or not.
    Alone,
    /// The same root alone for all, over all sites.
    Symmetric,
    /// A few sets, of any levels.
    Few,
    /// As many sets as there may be, of any levels.
    Full,
    /// 48 inner sets of the root, of few sites.
    Wide,
    /// Four levels, one set each or a few.
    Deep,
    /// Groups of sites, the same for all: so many of the groups, and of each so many of its sites.
    Groups,
    /// Site v needs v - 1.
    Chain,
    /// One other site of many will do.
    OneOf,
    /// Each site with itself alone, or with the next alone, so that its owner is not named.
    Loners,
    /// All members needed.
    Everybody,
    /// The sites fall into two parts, and sets stay in their part, but for one now and then.
    Apart,
    /// Sites named in a set and again in its inner sets.
    Twice,
    /// Each root of another shape.
    Mixed,
}

pub const SHAPES: [Shape; 14] = [
    Shape::Alone,
    Shape::Symmetric,
    Shape::Few,
    Shape::Full,
    Shape::Wide,
    Shape::Deep,
    Shape::Groups,
    Shape::Chain,
    Shape::OneOf,
    Shape::Loners,
    Shape::Everybody,
    Shape::Apart,
    Shape::Twice,
    Shape::Mixed,
];

/// How high the thresholds are.
#[derive(Clone, Copy)]
enum Height {
    One,
    Most,
    All,
    Any,
}

fn height(rng: &mut Rng) -> Height {
    rng.pick(&[Height::One, Height::Most, Height::Most, Height::All, Height::Any, Height::Any])
}

/// A set with a threshold within reach. Without a member it gets a site.
fn set(n: usize, plain: u64, inner: Vec<Set>, height: Height, rng: &mut Rng) -> Set {
    let plain = match plain & all_sites(n) {
        0 if inner.is_empty() => only(rng.below(n)),
        plain => plain,
    };
    let members = plain.count_ones() as usize + inner.len();
    let threshold = match height {
        Height::One => 1,
        Height::Most => members / 2 + 1,
        Height::All => members,
        Height::Any => rng.between(1, members),
    };
    Set { threshold, plain, inner }
}

/// A set of up to a number of levels and exactly a number of sets, itself counted; of one level it is alone.
fn drawn(rng: &mut Rng, n: usize, levels: usize, sets: usize, thin: usize) -> Set {
    let mut inner = Vec::new();
    let mut left = if levels == 1 { 0 } else { sets - 1 };
    while left > 0 {
        let part = match rng.below(3) {
            0 => 1,
            1 => rng.between(1, left),
            _ => rng.between(1, left.min(4)),
        };
        let part = if levels == 2 { 1 } else { part };
        inner.push(drawn(rng, n, levels - 1, part, thin));
        left -= part;
    }
    let plain = if !inner.is_empty() && rng.once_in(3) { 0 } else { rng.mask(thin) };
    let height = height(rng);
    set(n, plain, inner, height, rng)
}

/// The roots of a table of n sites of a shape.
pub fn roots(rng: &mut Rng, n: usize, shape: Shape) -> Vec<Set> {
    let all = all_sites(n);
    let (part, thin) = (rng.next(), rng.between(1, 3));
    let same_height = height(rng);
    let same = set(n, all, Vec::new(), same_height, rng);
    let size = rng.between(1, 4);
    let group_height = height(rng);
    let groups: Vec<Set> = (0..n.div_ceil(size).min(MOST_SETS - 1))
        .map(|k| set(n, all_sites(size) << (size * k), Vec::new(), group_height, rng))
        .collect();
    let make = |rng: &mut Rng, site: usize, shape: Shape| -> Set {
        let own = only(site);
        let before = only(site.saturating_sub(1));
        let height = height(rng);
        match shape {
            Shape::Alone => {
                let plain = rng.mask(thin) | if rng.once_in(2) { own } else { 0 };
                set(n, plain, Vec::new(), height, rng)
            }
            Shape::Symmetric => same.clone(),
            Shape::Few => {
                let sets = rng.between(1, 7);
                drawn(rng, n, LEVELS, sets, thin)
            }
            Shape::Full => drawn(rng, n, LEVELS, MOST_SETS, thin + 1),
            Shape::Wide => drawn(rng, n, 2, MOST_SETS, thin + 2),
            Shape::Deep => {
                let mut deep = drawn(rng, n, 1, 1, thin);
                for _ in 1..LEVELS {
                    let mut inner = vec![deep];
                    if rng.once_in(3) {
                        inner.insert(rng.below(2), drawn(rng, n, 1, 1, thin));
                    }
                    let plain = if rng.once_in(2) { 0 } else { rng.mask(thin) };
                    deep = set(n, plain, inner, height, rng);
                }
                deep
            }
            Shape::Groups => set(n, 0, groups.clone(), same_height, rng),
            Shape::Chain => set(n, own | before, Vec::new(), Height::All, rng),
            Shape::OneOf => {
                let others = vec![set(n, all & !own, Vec::new(), Height::One, rng)];
                set(n, own, others, Height::All, rng)
            }
            Shape::Loners => {
                set(n, if rng.once_in(3) { only((site + 1) % n) } else { own }, Vec::new(), Height::One, rng)
            }
            Shape::Everybody => {
                let sets = rng.between(1, 4);
                let inner = (1..sets).map(|_| drawn(rng, n, 1, 1, thin)).collect();
                set(n, rng.mask(thin) | own, inner, Height::All, rng)
            }
            Shape::Apart => {
                let side = if contains(part, site) { part } else { !part };
                let stray = if rng.once_in(2 * n) { rng.mask(3) } else { 0 };
                let inner = if rng.once_in(3) {
                    vec![set(n, rng.mask(1) & side | own, Vec::new(), height, rng)]
                } else {
                    Vec::new()
                };
                set(n, rng.mask(1) & side | own | stray, inner, height, rng)
            }
            Shape::Twice => {
                let plain = rng.mask(thin) | only(rng.below(n));
                let count = rng.between(1, 3);
                let inner = (0..count).map(|_| set(n, plain & (rng.next() | own), Vec::new(), height, rng)).collect();
                set(n, plain, inner, Height::Any, rng)
            }
            Shape::Mixed => unreachable!("a root has a shape of its own"),
        }
    };
    (0..n)
        .map(|site| {
            let shape = match shape {
                Shape::Mixed => SHAPES[rng.below(SHAPES.len() - 1)],
                shape => shape,
            };
            make(rng, site, shape)
        })
        .collect()
}

/// A table of a shape that is drawn.
pub fn table(rng: &mut Rng, n: usize) -> Thresholds {
    let shape = rng.pick(&SHAPES);
    Thresholds { roots: roots(rng, n, shape) }
}

/// Every root that a site of a few may have: alone, and with an inner set alone.
pub fn roots_of(n: usize) -> Vec<Set> {
    let leaves = |least: u64| {
        (least..=all_sites(n)).flat_map(|plain| {
            (1..=plain.count_ones() as usize).map(move |threshold| Set { threshold, plain, inner: Vec::new() })
        })
    };
    let with_inner = leaves(1).flat_map(|leaf| {
        (0..=all_sites(n)).flat_map(move |plain| {
            let inner = vec![leaf.clone()];
            (1..=1 + plain.count_ones() as usize).map(move |threshold| Set { threshold, plain, inner: inner.clone() })
        })
    });
    leaves(1).chain(with_inner).collect()
}

impl Near for Thresholds {
    fn near(&self, rng: &mut Rng, site: usize) -> u64 {
        let named = self.roots[site].preorder().iter().fold(0, |named, set| named | set.plain);
        let some = if rng.once_in(2) { rng.next() } else { u64::MAX };
        named & some | only(site)
    }
}

/// A set to ask about: any, of sets and their unions, nearly all, empty; now and then one that names a site that there is
/// not.
pub fn asked(rng: &mut Rng, table: &Thresholds) -> u64 {
    let (n, all) = (table.n(), table.sites());
    match rng.below(14) {
        0 => 0,
        1 => all,
        2 => rng.next(),
        3 => all & !rng.mask(4),
        4 => all & rng.mask(3),
        5 => all | rng.mask(5),
        6 => 1 << rng.below(64),
        7 | 8 => {
            let roots = rng.between(1, 4);
            (0..roots).fold(0, |set, _| {
                let site = rng.below(n);
                set | table.near(rng, site)
            })
        }
        9 => all & !table.near(rng, 0) | only(rng.below(n)),
        10 => all & !only(rng.below(n)),
        _ => all & rng.next(),
    }
}

// ---- Damage

/// The faults of a block.
pub const FAULTS: usize = 24;

/// Where the set at a place stands in a block.
fn at(place: usize) -> usize {
    8 + SET * place
}

/// Puts a fault into the block at a place of an image, at a set or about it. The check is left as it was.
pub fn damage_block(rng: &mut Rng, image: &mut [u8], place: usize, fault: usize) {
    let n = image.len() / BLOCK;
    let block = &mut image[BLOCK * place..BLOCK * (place + 1)];
    let count = usize::from(u16::from_le_bytes([block[4], block[5]])).clamp(1, MOST_SETS);
    let last = count - 1;
    let chosen = if rng.once_in(3) { last } else { rng.below(count) };
    let Written { threshold, inner, plain } = Written::of(&block[at(chosen)..]);
    let members = plain.count_ones() as u8 + inner.min(100);
    let values = [0, 1, 2, 48, 49, 50, 51, 255, 256, 257, 0x8000, 0xffff, n, n + 1, place + 256];
    let value = (rng.pick(&values) as u16).to_le_bytes();
    let mut put = |place: usize, set: Written| block[at(place)..at(place) + SET].copy_from_slice(&set.bytes());
    match fault {
        // The header.
        0 => block[0..2].copy_from_slice(&value),
        1 => block[2..4].copy_from_slice(&value),
        2 => block[6 + rng.below(2)] = 1 << rng.below(8),
        // The number of sets: none, one too many, a whole byte more, any.
        3 => block[4..6].fill(0),
        4 => block[4..6].copy_from_slice(&50u16.to_le_bytes()),
        5 => block[5] ^= 1,
        6 => block[4..6].copy_from_slice(&value),
        // A threshold of 0, one too many, far too many.
        7 => put(chosen, Written { threshold: 0, inner, plain }),
        8 => put(chosen, Written { threshold: members + 1, inner, plain }),
        9 => put(chosen, Written { threshold: 255, inner, plain }),
        // A site at or above n, the first and any.
        10 if n < 64 => put(chosen, Written { threshold, inner, plain: plain | 1 << n }),
        11 if n < 64 => put(chosen, Written { threshold, inner, plain: plain | 1 << rng.between(n, 63) }),
        // Inner sets too many, too few, far too many.
        12 => put(chosen, Written { threshold, inner: inner.wrapping_add(1), plain }),
        13 => put(chosen, Written { threshold: 1, inner: inner.wrapping_sub(1), plain }),
        14 => put(chosen, Written { threshold, inner: 255 - inner, plain }),
        // A set after the root is whole, with a fault of its own now and then.
        15 if count < MOST_SETS => {
            let threshold = rng.pick(&[1, 1, 1, 0, 200]);
            put(count, Written { threshold, inner: 0, plain: rng.pick(&[1, 1, 1, u64::MAX]) });
            block[4] = count as u8 + 1;
        }
        // The last set left out, with what stood there as filler or without.
        16 | 17 if count > 1 => {
            if fault == 17 {
                block[at(last)..at(count)].fill(0);
            }
            block[4] = last as u8;
        }
        // A fifth level: whole, owed, or with a fault of its own.
        18 | 19 => {
            let deep = |rng: &mut Rng| Written { threshold: 1, inner: 1, plain: only(rng.below(n)) };
            let chain: Vec<Written> = (0..LEVELS).map(|_| deep(rng)).collect();
            let mut fifth = Written { threshold: 1, inner: 0, plain: 1 };
            match rng.below(5) {
                0 => fifth.threshold = 0,
                1 => fifth.plain = 1 << 63,
                2 => fifth.inner = 1,
                _ => {}
            }
            let levels = if rng.once_in(4) { LEVELS } else { LEVELS + 1 };
            let sets: Vec<Written> = chain.into_iter().chain([fifth]).take(levels).collect();
            let head = [block[0], block[1], block[2], block[3]];
            block.copy_from_slice(&thresholds::block_on_file(place, n, &sets));
            block[..4].copy_from_slice(&head);
        }
        // The filler: its first byte and its last.
        20 => block[at(count).min(503)] |= 1,
        21 => block[503] = 128,
        22 => block[504 + rng.below(8)] ^= 1 << rng.below(8),
        _ => block[rng.below(504)] ^= 1 << rng.below(8),
    }
}

/// One to three faults, the check mended mostly; now and then blocks that change places, and another length.
pub fn damage(rng: &mut Rng, image: &mut Vec<u8>) {
    let n = image.len() / BLOCK;
    for _ in 0..rng.between(1, 3) {
        let place = rng.below(n);
        let fault = rng.below(FAULTS);
        damage_block(rng, image, place, fault);
        if fault != 22 && !rng.once_in(6) {
            mend(&mut image[BLOCK * place..BLOCK * (place + 1)]);
        }
        // Another fault in the same block.
        if rng.once_in(4) {
            let fault = rng.below(FAULTS - 2);
            damage_block(rng, image, place, fault);
            mend(&mut image[BLOCK * place..BLOCK * (place + 1)]);
        }
    }
    match rng.below(24) {
        0 => {
            let (one, other) = (BLOCK * rng.below(n), BLOCK * rng.below(n));
            image.copy_within(one..one + BLOCK, other);
        }
        1 => {
            let length = match rng.below(4) {
                0 => image.len() - 1,
                1 => image.len() + 1,
                2 => BLOCK * rng.below(67),
                _ => rng.below(BLOCK * 66),
            };
            image.resize(length, 0);
        }
        _ => {}
    }
}
