//! The examples of tables of thresholds, and the points in them that a plausible program gets wrong.

use super::*;
use crate::{block_sums, blocks_site, dispensable, is_quorum, only, state_length, table_in_memory};

const JUNK: u64 = 0x5a5a_1234_dead_beef;

/// A set without inner sets.
fn leaf(threshold: usize, plain: u64) -> Set {
    Set { threshold, plain, inner: Vec::new() }
}

fn with(threshold: usize, plain: u64, inner: &[Set]) -> Set {
    Set { threshold, plain, inner: inner.to_vec() }
}

/// n sites, each with the same root.
fn alike(n: usize, root: Set) -> Thresholds {
    Thresholds { roots: vec![root; n] }
}

fn on_file(table: &Thresholds) -> Vec<u8> {
    image_of(&table.roots)
}

/// Sets as they are written, by threshold, number of inner sets and mask.
fn written(sets: &[(u8, u8, u64)]) -> Vec<Written> {
    sets.iter()
        .map(|(threshold, inner, plain)| Written { threshold: *threshold, inner: *inner, plain: *plain })
        .collect()
}

/// The number of the refusal of three blocks, the second with these sets, and that it carries the block; 0 if the second has
/// no fault, so that the third is refused.
fn refusal_of(sets: &[(u8, u8, u64)]) -> u64 {
    let n = 3;
    let good = block_on_file(0, n, &written(&[(1, 0, 1)]));
    let bad = block_on_file(1, n, &written(sets));
    let answer = check(&[good, bad, block_on_file(2, n, &written(&[(0, 0, 0)]))].concat());
    assert_eq!(answer.values, [0; 3]);
    match (answer.number, answer.place) {
        (21, 2) => 0,
        (number, place) => {
            assert_eq!(place, 1);
            number
        }
    }
}

/// Writes the right check into a block.
fn mend(block: &mut [u8]) {
    let (s, t) = block_sums(block);
    block[504..508].copy_from_slice(&(s as u32).to_le_bytes());
    block[508..512].copy_from_slice(&(t as u32).to_le_bytes());
}

fn told(answer: Answer) -> (u64, u64) {
    assert!(answer.number == 0 || answer.values == [0; 3]);
    (answer.number, answer.place)
}

/// The rows of the translation, which has room to spare.
fn translated(table: &Thresholds) -> Vec<Vec<u64>> {
    let n = table.n();
    let mut room = vec![JUNK; ROW * n + 3];
    let answer = translate(&on_file(table), &mut room);
    assert_eq!((answer.number, answer.place, answer.values), (0, 0, [n as u64, 0, 0]));
    assert_eq!(room[ROW * n..], [JUNK; 3]);
    table_in_memory(&room[..ROW * n]).expect("a table").slices
}

/// Root (2, 2, mask 1), inner (1, 0, mask 6), inner (2, 0, mask 24).
fn one_and_two_inner() -> Set {
    with(2, 1, &[leaf(1, 6), leaf(2, 24)])
}

// ---- The examples

/// "three of these five"
#[test]
fn three_of_five() {
    let table = alike(5, leaf(3, 31));
    let image = on_file(&table);
    let quorums: Vec<u64> = (0..32).filter(|set| quorum(&image, *set).values[0] == 1).collect();
    assert_eq!(quorums, (0..32u64).filter(|set| set.count_ones() >= 3).collect::<Vec<u64>>());
    assert_eq!(quorums.len(), 16);
    assert!(table.has_slice_inside(0, 7) && !table.has_slice_inside(0, 3));
    assert_eq!(blocks(&image, 28, 0).values, [1, 0, 0]);
    assert_eq!(blocks(&image, 12, 0).values, [0, 0, 0]);
    // The site itself does not count.
    assert_eq!(blocks(&image, 13, 0).values, [0, 0, 0]);
}

#[test]
fn inner_sets() {
    let table = alike(5, one_and_two_inner());
    let root = &table.roots[0];
    assert!([3, 5, 25, 30].iter().all(|set| root.is_met(*set)));
    assert!(!root.is_met(9));
    // Met by both inner sets, and no slice of a site that is not in it.
    assert!(!table.has_slice_inside(0, 30) && table.has_slice_inside(1, 30));
    let rows = [vec![3, 5, 25], vec![3, 26], vec![5, 28], vec![11, 13, 25, 26, 28], vec![19, 21, 25, 26, 28]];
    assert_eq!(translated(&table), rows);
}

#[test]
fn a_site_named_twice_counts_twice() {
    let root = with(2, 2, &[leaf(1, 2)]);
    assert!(root.is_met(3) && !root.is_met(1) && root.is_met(2));
}

#[test]
fn refusals_of_sets() {
    assert_eq!(refusal_of(&[]), 4);
    assert_eq!(refusal_of(&[(1, 0, 2)]), 0);
    assert_eq!(refusal_of(&[(1, 0, 8)]), 5);
    assert_eq!(refusal_of(&[(0, 0, 2)]), 21);
    assert_eq!(refusal_of(&[(3, 0, 6)]), 21);
    assert_eq!(refusal_of(&[(3, 1, 6), (1, 0, 1)]), 0);
    assert_eq!(refusal_of(&[(4, 1, 6), (1, 0, 1)]), 21);
    // An empty set has no threshold.
    assert_eq!(refusal_of(&[(1, 0, 0)]), 21);
    // A second root, and its own faults first.
    assert_eq!(refusal_of(&[(1, 0, 2), (1, 0, 2)]), 22);
    assert_eq!(refusal_of(&[(1, 0, 2), (1, 0, 8)]), 5);
    assert_eq!(refusal_of(&[(1, 0, 2), (0, 0, 2)]), 21);
    assert_eq!(refusal_of(&[(1, 1, 2), (1, 0, 2), (1, 0, 1)]), 22);
    // Four levels, then five.
    let four = [(1, 1, 2), (1, 1, 2), (1, 1, 2), (1, 0, 2)];
    assert_eq!(refusal_of(&four), 0);
    let mut five = [four.as_slice(), &[(1, 0, 2)]].concat();
    five[3].1 = 1;
    assert_eq!(refusal_of(&five), 22);
    five[4].2 = 8;
    assert_eq!(refusal_of(&five), 5);
    five[4] = (2, 0, 2);
    assert_eq!(refusal_of(&five), 21);
    // Owed, at the root and further down.
    assert_eq!(refusal_of(&[(1, 1, 2)]), 22);
    assert_eq!(refusal_of(&[(1, 2, 2), (1, 0, 2)]), 22);
    assert_eq!(refusal_of(&[(1, 1, 2), (1, 1, 2)]), 22);
    assert_eq!(refusal_of(&five[..4]), 22);
    assert_eq!(refusal_of(&[(255, 255, 7)]), 22);
    // A fault in a set that is reached is first, whatever is owed before it.
    assert_eq!(refusal_of(&[(1, 3, 2), (1, 0, 8)]), 5);
    // A level is left again: three sets at level four, then one at level two.
    assert_eq!(refusal_of(&[(1, 2, 2), (1, 1, 0), (1, 3, 0), (1, 0, 2), (1, 0, 1), (1, 0, 4), (1, 0, 2)]), 0);
}

#[test]
fn numbers_of_sets() {
    let root = |count: usize| with(1, 1, &vec![leaf(1, 1); count - 1]);
    let most = on_file(&Thresholds { roots: vec![root(49)] });
    assert_eq!(told(check(&most)), (0, 0));
    let mut over = most.clone();
    over[4] = 50;
    mend(&mut over);
    assert_eq!(told(check(&over)), (4, 0));
    for (at, byte) in [(5, 1), (4, 0)] {
        let mut image = most.clone();
        image[at] = byte;
        mend(&mut image);
        assert_eq!(told(check(&image)), (4, 0));
    }
    // 8 + 490 = 498: the first byte of the filler, and the last.
    for at in [498, 503] {
        let mut image = most.clone();
        image[at] = 1;
        assert_eq!(told(check(&image)), (2, 0));
        mend(&mut image);
        assert_eq!(told(check(&image)), (8, 0));
    }
    let mut image = most.clone();
    image[497] = 1;
    mend(&mut image);
    assert_eq!(told(check(&image)), (5, 0));
    // A set less: what stood there is filler, and a set is owed before that.
    let mut image = most.clone();
    image[4] = 48;
    mend(&mut image);
    assert_eq!(told(check(&image)), (22, 0));
    image[9] = 47;
    mend(&mut image);
    assert_eq!(told(check(&image)), (8, 0));
}

#[test]
fn headers_and_lengths() {
    let good = on_file(&alike(3, leaf(2, 7)));
    assert_eq!(told(check(&good)), (0, 0));
    for length in [0, 1, 511, 513, 1535] {
        let mut image = good.clone();
        image.resize(length, 0);
        assert_eq!(told(check(&image)), (1, 0));
    }
    assert_eq!(told(check(&good[..1024])), (3, 0));
    for at in [0, 1, 2, 3, 6, 7] {
        let mut image = good.clone();
        image[1024 + at] ^= 128;
        assert_eq!(told(check(&image)), (2, 2));
        mend(&mut image[1024..]);
        assert_eq!(told(check(&image)), (3, 2));
    }
    assert_eq!(told(check(&on_file(&alike(64, leaf(64, u64::MAX))))), (0, 0));
    assert_eq!(told(check(&on_file(&alike(65, leaf(64, u64::MAX))))), (1, 0));
}

/// Four sites, each (3, 0, mask 15): the translation is table B exactly.
#[test]
fn table_b() {
    let b = [vec![7, 11, 13], vec![7, 11, 14], vec![7, 13, 14], vec![11, 13, 14]];
    let table = alike(4, leaf(3, 15));
    assert_eq!(translated(&table), b);
    let all = all_slices(&table);
    let sets: Vec<u64> = (0..16).filter(|set| dispensable(&all, *set)).collect();
    assert_eq!(sets, [0, 1, 2, 4, 8, 15]);
    let image = on_file(&table);
    assert_eq!(intact(&image, 3).values, [0, 0, 0]);
    assert_eq!(shared(&image).values, [1, 0, 0]);
    assert_eq!(blocks(&image, 6, 0).values, [1, 0, 0]);
    assert_eq!(blocks(&image, 2, 0).values, [0, 0, 0]);
    let mut state = vec![0; state_length(4)];
    for call in [[0, 0, 0, 0], [0, 1, 1, 0], [0, 2, 2, 0], [1, 1, 0, 0], [1, 2, 0, 0]] {
        assert_eq!(step(&image, 8, &mut state, call).number, 0);
    }
    assert_eq!((state[0], state[2], &state[16..]), (7, 1, &[7, 0, 1, 0, 0, 0][..]));
    assert_eq!(told(sound(&image, 8, &state)), (0, 0));
    let (mut state, mut answers) = (vec![JUNK; 23], vec![9; 3]);
    assert_eq!(run(&image, 0, &[1, 0, 1, 0, 0, 0, 0, 0], &mut state, &mut answers).values, [3, 0, 0]);
    assert_eq!((answers, state[22]), (vec![0, 0, 9], JUNK));
}

/// "3; 3; 12; 12": two pairs that do not meet.
#[test]
fn two_pairs() {
    let table = Thresholds { roots: vec![leaf(2, 3), leaf(1, 1), leaf(1, 8), leaf(2, 12)] };
    assert_eq!(translated(&table), [[3], [3], [12], [12]]);
    assert_eq!(shared(&on_file(&table)).values, [0, 3, 12]);
    assert_eq!(intact(&on_file(&table), 0).values, [15, 0, 0]);
}

/// One site that decides alone: a proposal accepts and confirms at once.
#[test]
fn one_site() {
    let image = on_file(&alike(1, leaf(1, 1)));
    let mut state = vec![0; state_length(1)];
    assert_eq!(step(&image, 0, &mut state, [0, 0, 0, 0]).number, 0);
    assert_eq!(state, [1, 0, 1, 0, 1, 0, 1, 0, 1, 0]);
    assert_eq!(blocks(&image, 1, 0).values, [0, 0, 0]);
}

#[test]
fn limits_of_the_translation() {
    // 6 of 12: C(11,5) = 462 slices.
    let table = alike(12, leaf(6, 4095));
    let image = on_file(&table);
    let mut room = vec![JUNK; ROW * 12];
    assert_eq!(told(translate(&image, &mut room)), (23, 0));
    assert_eq!(told(translate(&image, &mut room[1..])), (9, 0));
    assert_eq!(smallest_slices(&all_slices(&table).slices[0]).len(), 462);
    // The first site that has too many, and not the first that is asked for.
    let mut later = alike(12, leaf(1, 1));
    later.roots[7] = leaf(6, 4095);
    later.roots[9] = leaf(6, 4095);
    assert_eq!(told(translate(&on_file(&later), &mut room)), (23, 7));
    assert!(room.iter().all(|cell| *cell == JUNK));
    // 16 before 9, and the image before both.
    let mut image = on_file(&alike(13, leaf(6, 4095)));
    assert_eq!(told(translate(&image, &mut [])), (16, 0));
    image[600] ^= 1;
    assert_eq!(told(translate(&image, &mut [])), (2, 1));
}

/// 62 smallest slices are taken, 63 are not. Two of seven with one of three: 21 times 3. Two of seven with one of two, or
/// three of six: 42 and 20. A site that is one of the seven itself needs one other of them.
#[test]
fn sixty_two_slices() {
    let seven = 0b1111_1110;
    let over = with(2, 0, &[leaf(2, seven), leaf(1, 0b111 << 8)]);
    let most = with(1, 0, &[with(2, 0, &[leaf(2, seven), leaf(1, 0b11 << 8)]), leaf(3, 0b111_1110)]);
    let at = |site: usize, root: &Set| {
        let root_of = |v: usize| if v == site { root.clone() } else { leaf(1, only(v)) };
        Thresholds { roots: (0..12).map(root_of).collect() }
    };
    let count = |site: usize, root: &Set| smallest_slices(&all_slices(&at(site, root)).slices[site]).len();
    assert_eq!((count(0, &over), count(3, &over), count(0, &most)), (63, 18, 62));
    let mut room = vec![JUNK; ROW * 12];
    assert_eq!(told(translate(&on_file(&at(0, &over)), &mut room)), (23, 0));
    assert_eq!(room[0], JUNK);
    assert_eq!(told(translate(&on_file(&at(0, &most)), &mut room)), (0, 0));
    assert_eq!((room[0], room[63]), (62, 1));
}

#[test]
fn order_of_refusals() {
    let image = on_file(&alike(13, leaf(2, 7)));
    assert_eq!(told(quorum(&image, 1 << 13)), (10, 0));
    assert_eq!(told(largest(&image, 1 << 13)), (10, 0));
    assert_eq!(told(blocks(&image, 1 << 13, 13)), (10, 0));
    assert_eq!(told(blocks(&image, 1 << 12, 13)), (11, 0));
    assert_eq!(told(intact(&image, 1 << 13)), (10, 0));
    assert_eq!(told(intact(&image, 1 << 12)), (16, 0));
    assert_eq!(told(shared(&image)), (16, 0));
    assert_eq!(told(run(&image, 1 << 13, &[0; 3], &mut [], &mut [])), (10, 0));
    assert_eq!(told(run(&image, 0, &[0; 3], &mut [], &mut [])), (17, 0));
    assert_eq!(told(run(&image, 0, &[0; 4], &mut [], &mut [])), (9, 0));
    assert_eq!(told(run_records(&image, 0, &[[0; 4]; 4097], &mut [], &mut [])), (17, 0));
    assert_eq!(told(sound(&image, 0, &[0; 57])), (18, 0));
    assert_eq!(told(step(&image, 0, &mut [0; 58], [3, 0, 0, 0])), (11, 0));
}

// ---- Drawn tables

/// Numbers that are the same in each run.
struct Drawn(u64);

impl Drawn {
    fn below(&mut self, end: u64) -> u64 {
        self.0 = self.0.wrapping_mul(6364136223846793005).wrapping_add(1442695040888963407);
        (self.0 >> 33) % end
    }

    /// A set of up to `levels` levels.
    fn set(&mut self, n: usize, levels: usize) -> Set {
        let count = if levels > 1 { self.below(3) as usize } else { 0 };
        let inner: Vec<Set> = (0..count).map(|_| self.set(n, levels - 1)).collect();
        let plain = match self.below(1 << n) {
            0 if inner.is_empty() => 1,
            mask => mask,
        };
        let members = plain.count_ones() as usize + inner.len();
        Set { threshold: 1 + self.below(members as u64) as usize, plain, inner }
    }
}

/// "both forms give equal answers when one is the list of smallest slices of the other"; and blocking by its definition
/// over all slices.
#[test]
fn both_forms_agree() {
    let mut drawn = Drawn(205);
    for _ in 0..60 {
        let n = 1 + drawn.below(5) as usize;
        let table = Thresholds { roots: (0..n).map(|_| drawn.set(n, 4)).collect() };
        if table.roots.iter().any(|root| root.preorder().len() > MOST_SETS) {
            continue;
        }
        let image = on_file(&table);
        assert_eq!(table_on_file(&image), Ok(table.clone()));
        let mut memory = vec![0; ROW * n];
        assert_eq!(translate(&image, &mut memory).number, 0);
        let list = table_in_memory(&memory).unwrap();
        let all = all_slices(&table);
        // Each site has a slice: all sites meet every root.
        assert!(all.slices.iter().all(|slices| !slices.is_empty()));
        for set in 0..=table.sites() {
            assert_eq!(quorum(&image, set), crate::quorum(&memory, set));
            assert_eq!(is_quorum(&table, set), is_quorum(&all, set));
            assert_eq!(largest(&image, set), crate::largest(&memory, set));
            assert_eq!(intact(&image, set), crate::intact(&memory, set));
            assert_eq!(dispensable(&all, set), dispensable(&list, set));
            for site in 0..n {
                assert_eq!(table.has_slice_inside(site, set), all.has_slice_inside(site, set));
                assert_eq!(blocks_site(&table, set, site), blocks_site(&all, set, site));
                assert_eq!(blocks(&image, set, site as u64), crate::blocks(&memory, set, site as u64));
            }
        }
        assert_eq!(shared(&image), crate::shared(&memory));
        let calls: Vec<[u8; 4]> =
            (0..30).map(|_| [3, n as u64, n as u64, 2].map(|end| drawn.below(end) as u8)).collect();
        let faulty = drawn.below(1 << n) & drawn.below(1 << n);
        let rooms = || (vec![JUNK; 4 * n + 6], vec![9u8; 30]);
        let ((mut one, mut told), (mut other, mut told_too)) = (rooms(), rooms());
        let answer = run_records(&image, faulty, &calls, &mut one, &mut told);
        assert_eq!(answer, crate::run_records(&memory, faulty, &calls, &mut other, &mut told_too));
        assert_eq!((&one, told), (&other, told_too));
        assert_eq!(sound(&image, faulty, &one), crate::sound(&memory, faulty, &one));
    }
}
