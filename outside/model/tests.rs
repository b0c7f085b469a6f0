//! The examples of the rules, and the points in them that a plausible program gets wrong.

use super::*;

const JUNK: u64 = 0x5a5a_1234_dead_beef;

fn memory(rows: &[&[u64]]) -> Vec<u64> {
    rows.iter().flat_map(|slices| row_in_memory(slices)).collect()
}

fn table(rows: &[&[u64]]) -> Table {
    table_in_memory(&memory(rows)).unwrap()
}

fn image(rows: &[&[u64]]) -> Vec<u8> {
    rows.iter().enumerate().flat_map(|(site, slices)| block_on_file(site, rows.len(), slices)).collect()
}

/// Writes the right check into the block at a place.
fn mend(image: &mut [u8], place: usize) {
    let block = &mut image[BLOCK * place..BLOCK * (place + 1)];
    let (s, t) = block_sums(block);
    block[504..508].copy_from_slice(&(s as u32).to_le_bytes());
    block[508..512].copy_from_slice(&(t as u32).to_le_bytes());
}

fn refusal_of(answer: Answer) -> (u64, u64) {
    assert!(answer.number == 0 || answer.values == [0; 3]);
    (answer.number, answer.place)
}

/// "Table A, slices as masks: 3; 3; 7; 11; 24."
const A: [&[u64]; 5] = [&[3], &[3], &[7], &[11], &[24]];
/// "Table B, four sites, all three-site sets with the owner: 7 11 13; 7 11 14; 7 13 14; 11 13 14."
const B: [&[u64]; 4] = [&[7, 11, 13], &[7, 11, 14], &[7, 13, 14], &[11, 13, 14]];
/// "slices 3; 3; 12; 12"
const PAIRS: [&[u64]; 4] = [&[3], &[3], &[12], &[12]];

/// Sites in a row, each with the one slice of itself.
fn loners(n: usize) -> Vec<u64> {
    (0..n).flat_map(|site| row_in_memory(&[only(site)])).collect()
}

// ---- The examples

#[test]
fn quorums_of_a() {
    let a = table(&A);
    let quorums: Vec<u64> = (0..32).filter(|set| is_quorum(&a, *set)).collect();
    assert_eq!(quorums, [3, 7, 11, 15, 27, 31]);
}

#[test]
fn dispensable_sets_of_a() {
    let a = table(&A);
    let sets: Vec<u64> = (0..32).filter(|set| dispensable(&a, *set)).collect();
    assert_eq!(sets, [0, 4, 16, 20, 24, 28, 31]);
}

#[test]
fn intact_sites_of_a() {
    assert_eq!(intact(&memory(&A), 8).values, [7, 0, 0]);
}

#[test]
fn dispensable_sets_of_b() {
    let b = table(&B);
    let sets: Vec<u64> = (0..16).filter(|set| dispensable(&b, *set)).collect();
    assert_eq!(sets, [0, 1, 2, 4, 8, 15]);
}

#[test]
fn intact_sites_of_b() {
    assert_eq!(intact(&memory(&B), 3).values, [0, 0, 0]);
}

#[test]
fn two_pairs_do_not_meet() {
    assert_eq!(shared(&memory(&PAIRS)).values, [0, 3, 12]);
    assert_eq!(shared(&memory(&A)).values, [1, 0, 0]);
    // Intact is asked of each dispensable set, also where the table does not meet: 12 and 3 are dispensable.
    assert_eq!(intact(&memory(&PAIRS), 0).values, [15, 0, 0]);
}

/// The risk of a table, worked out by hand from its dispensable sets.
#[test]
fn sites_at_stake() {
    let at_stake = |rows: &[&[u64]]| risk(&memory(rows)).map(|risk| (risk.others, risk.fewest, risk.first));
    // A: 0, 4, 16, 20, 24, 28, 31. Only 31 contains 0, or 1; 4 contains 2, 24 contains 3 and has 4 too, 16 contains 4
    assert_eq!(at_stake(&A), Ok((vec![4, 4, 0, 1, 0], 1, 1)));
    // B: 0, 1, 2, 4, 8, 15. Each site alone is one of them, and of two sites only 15 has both
    assert_eq!(at_stake(&B), Ok((vec![0, 0, 0, 0], 2, 3)));
    // two pairs: 3, 12, 15. Each site takes its partner along; 3 spares the other pair, and 5 has one of each
    assert_eq!(at_stake(&PAIRS), Ok((vec![1, 1, 1, 1], 2, 5)));
    // all pairs of four sites: 15 alone, since with a site deleted each other one is a quorum by itself
    let all_pairs: [&[u64]; 4] = [&[3, 5, 9], &[3, 6, 10], &[5, 6, 12], &[9, 10, 12]];
    assert_eq!(at_stake(&all_pairs), Ok((vec![3, 3, 3, 3], 0, 0)));
    // two sites that lean on the third: 0, 1, 2, 7. Only 7 contains 3, and only 7 contains 4, which is above 3 and has fewer
    assert_eq!(at_stake(&[&[5], &[6], &[5, 6]]), Ok((vec![0, 0, 2], 1, 4)));
    // one site: 0 and 1
    assert_eq!(at_stake(&[&[1]]), Ok((vec![0], 1, 1)));
    // sites that are quorums by themselves: all but one site, and all
    assert_eq!(at_stake(&[&[1], &[2], &[4]]), Ok((vec![0, 0, 0], 3, 7)));
    assert_eq!(risk(&loners(13)), Err(Refusal { number: 16, place: 0 }));
    assert_eq!(risk(&memory(&A)[1..]), Err(Refusal { number: 1, place: 0 }));
}

#[test]
fn blocking_in_b() {
    assert_eq!(blocks(&memory(&B), 6, 0).values, [1, 0, 0]);
    assert_eq!(blocks(&memory(&B), 2, 0).values, [0, 0, 0]);
    assert_eq!(blocks(&memory(&B), 0, 0).values, [0, 0, 0]);
    // The site itself does not count.
    assert_eq!(blocks(&memory(&B), 1, 0).values, [0, 0, 0]);
    assert_eq!(blocks(&memory(&B), 3, 0).values, [0, 0, 0]);
    assert_eq!(blocks(&memory(&B), 7, 0).values, [1, 0, 0]);
    // With a slice of itself alone it is blocked by nobody.
    assert_eq!(blocks(&memory(&[&[1]]), 1, 0).values, [0, 0, 0]);
    // The set is asked as it was handed over.
    assert_eq!(refusal_of(blocks(&memory(&B), 16, 4)), (10, 0));
}

#[test]
fn one_site_decides_alone() {
    let mut state = vec![0; state_length(1)];
    assert_eq!(step(&memory(&[&[1]]), 0, &mut state, [PROPOSE, 0, 0, 0]).number, 0);
    assert_eq!(state, [1, 0, 1, 0, 1, 0, 1, 0, 1, 0]);
    assert_eq!(mark(0, state[confirmed_at(1, DRILL)], state[confirmed_at(1, LIVE)]).values, [1, 0, 0]);
}

#[test]
fn three_votes_accept_and_do_not_confirm() {
    let mut state = vec![0; state_length(4)];
    for call in [[0, 0, 0, 0], [0, 1, 1, 0], [0, 2, 2, 0], [1, 1, 0, 0], [1, 2, 0, 0]] {
        assert_eq!(step(&memory(&B), 8, &mut state, call).number, 0);
    }
    assert_eq!(state[votes_at(0, DRILL)], 7);
    assert_eq!(state[accepts_at(0, DRILL)], 1);
    assert_eq!(state[voted_at(4, DRILL)..], [7, 0, 1, 0, 0, 0]);
}

#[test]
fn passes_of_short_lists() {
    let (mut state, mut answers) = (vec![JUNK; 22], vec![9; 2]);
    assert_eq!(run(&memory(&B), 0, &[1, 0, 1, 0, 0, 0, 0, 0], &mut state, &mut answers).values, [3, 0, 0]);
    assert_eq!(answers, [0, 0]);
    assert_eq!((state[votes_at(0, DRILL)], state[votes_at(1, DRILL)]), (1, 1));

    // The empty list: one pass, no byte, and the state is made fresh.
    let (mut state, mut answers) = (vec![JUNK; 24], vec![9; 1]);
    assert_eq!(run(&memory(&B), 0, &[], &mut state, &mut answers).values, [1, 0, 0]);
    assert!(state[..22].iter().all(|cell| *cell == 0));
    assert_eq!((state[22], state[23], answers[0]), (JUNK, JUNK, 9));
}

#[test]
fn sums_of_the_one_site_image() {
    let block = block_on_file(0, 1, &[1]);
    assert_eq!(block_sums(&block), (65538, 8257785));
    assert_eq!(refusal_of(block_check(&block)), (0, 0));
}

#[test]
fn limits() {
    let slices: Vec<u64> = (0..64).map(|i| 2 * i + 1).collect();
    let rows = |count: usize| -> Vec<Vec<u64>> {
        (0..7).map(|site| if site == 0 { slices[..count].to_vec() } else { vec![only(site)] }).collect()
    };
    let most: Vec<u64> = rows(62).iter().flat_map(|row| row_in_memory(row)).collect();
    assert_eq!(refusal_of(table_check(&most)), (0, 0));
    let mut over = most.clone();
    over[0] = 63;
    assert_eq!(refusal_of(table_check(&over)), (4, 0));
    over[0] = (1 << 32) + 1;
    assert_eq!(refusal_of(table_check(&over)), (4, 0));

    assert_eq!(shared(&loners(12)).number, 0);
    assert_eq!(refusal_of(shared(&loners(13))), (16, 0));
    assert_eq!(intact(&loners(12), 1).number, 0);
    assert_eq!(refusal_of(intact(&loners(13), 1)), (16, 0));

    let (mut state, mut answers) = (vec![0; 10], vec![0; 5000]);
    let calls = vec![[0; 4]; 4097];
    assert_eq!(run_records(&loners(1), 0, &calls[..4096], &mut state, &mut answers).values, [2, 0, 0]);
    assert_eq!(refusal_of(run_records(&loners(1), 0, &calls, &mut state, &mut answers)), (17, 0));
    assert_eq!(run(&loners(1), 0, &[0; 16384], &mut state, &mut answers).values, [2, 0, 0]);
    assert_eq!(refusal_of(run(&loners(1), 0, &[0; 16388], &mut state, &mut answers)), (17, 0));
    assert_eq!(refusal_of(run(&loners(1), 0, &[0; 7], &mut state, &mut answers)), (17, 0));
}

#[test]
fn verdict_on_a() {
    let mut input = 8u64.to_le_bytes().to_vec();
    input.extend(image(&A));
    let lines = "sites 5\nfaulty 0000000000000008\nmeet yes\nintact 0000000000000007\nbefouled 0000000000000018\n\
                 quorum 0000000000000007\nrounds 1\n";
    assert_eq!(verdict(&input), lines);
}

// ---- Reading and writing

#[test]
fn round_trip() {
    for rows in [&A[..], &B[..], &PAIRS[..]] {
        let (table, file) = (memory(rows), image(rows));
        let (mut cells, mut bytes) = (vec![JUNK; table.len() + 2], vec![7; file.len() + 2]);
        assert_eq!(image_read(&file, &mut cells[..table.len() + 1]).values, [rows.len() as u64, 0, 0]);
        assert_eq!(image_write(&table, &mut bytes[..file.len() + 1]).values, [rows.len() as u64, 0, 0]);
        assert_eq!((&cells[..table.len()], &bytes[..file.len()]), (&table[..], &file[..]));
        assert_eq!((&cells[table.len()..], &bytes[file.len()..]), (&[JUNK, JUNK][..], &[7, 7][..]));
    }
}

#[test]
fn order_of_refusals_in_reading() {
    let good = image(&A);
    let ask = |image: &[u8], room: usize| {
        let mut cells = vec![JUNK; room];
        let answer = image_read(image, &mut cells);
        assert!(answer.number == 0 || cells.iter().all(|cell| *cell == JUNK));
        refusal_of(answer)
    };
    assert_eq!(ask(&good, 315), (0, 0));
    assert_eq!(ask(&good, 314), (9, 0));
    assert_eq!(ask(&[], 315), (1, 0));
    assert_eq!(ask(&good[..511], 0), (1, 0));
    assert_eq!(ask(&vec![0; 33280], 0), (1, 0));
    // 512 zero bytes have a right check.
    assert_eq!(ask(&[0; 512], 63), (3, 0));

    // One fault after the other is put into block 3, the last in the order first; the first in the order is the answer
    // each time.
    let mut bad = good.clone();
    let at = 3 * BLOCK;
    bad[at + 503] = 1;
    mend(&mut bad, 3);
    assert_eq!(ask(&bad, 315), (8, 3));
    bad[at + 4] = 3;
    bad[at + 16..at + 32].copy_from_slice(&[11, 0, 0, 0, 0, 0, 0, 0, 16, 0, 0, 0, 0, 0, 0, 0]);
    mend(&mut bad, 3);
    assert_eq!(ask(&bad, 315), (6, 3), "slice 1 is not above slice 0, before slice 2 lacks its owner");
    bad[at + 8] = 32 + 8;
    mend(&mut bad, 3);
    assert_eq!(ask(&bad, 315), (5, 3));
    bad[at + 4] = 63;
    mend(&mut bad, 3);
    assert_eq!(ask(&bad, 315), (4, 3));
    bad[at + 5] = 1;
    mend(&mut bad, 3);
    assert_eq!(ask(&bad, 315), (4, 3), "the count has two bytes");
    bad[at + 1] = 1;
    mend(&mut bad, 3);
    assert_eq!(ask(&bad, 315), (3, 3), "the site has two bytes, and the refusal carries the block's place");
    bad[at + 508] ^= 128;
    assert_eq!(ask(&bad, 315), (2, 3));
    assert_eq!(ask(&bad, 314), (9, 0));
}

#[test]
fn order_of_refusals_in_writing() {
    let mut table = memory(&A);
    table[2 * ROW] = 0;
    table[3 * ROW + 62] = 1;
    let mut room = vec![7; 2560];
    assert_eq!(refusal_of(image_write(&table, &mut room[..2559])), (9, 0));
    assert_eq!(refusal_of(image_write(&table[..314], &mut [])), (1, 0));
    assert_eq!(refusal_of(image_write(&table, &mut room)), (4, 2));
    table[2 * ROW] = 1;
    assert_eq!(refusal_of(image_write(&table, &mut room)), (8, 3));
    assert!(room.iter().all(|byte| *byte == 7));
}

#[test]
fn tables_in_memory() {
    assert_eq!(refusal_of(table_check(&[])), (1, 0));
    assert_eq!(refusal_of(table_check(&loners(64))), (0, 0));
    assert_eq!(refusal_of(table_check(&loners(64)[..4031])), (1, 0));
    assert_eq!(refusal_of(table_check(&vec![1; 63 * 65])), (1, 0));
    // Room for more sites than the table has is no table.
    let mut longer = loners(5);
    longer.resize(64 * ROW, 0);
    assert_eq!(refusal_of(table_check(&longer)), (4, 5));
    // With 64 sites no mask names a site that there is not.
    let mut full = loners(64);
    full[63 * ROW + 1] = u64::MAX;
    assert_eq!(refusal_of(table_check(&full)), (0, 0));
    let mut high = loners(63);
    high[62 * ROW + 1] = u64::MAX;
    assert_eq!(refusal_of(table_check(&high)), (5, 62));
}

#[test]
fn lone_blocks() {
    assert_eq!(refusal_of(block_check(&[0; 512])), (0, 0));
    assert_eq!(refusal_of(block_check(&[0; 511])), (1, 0));
    assert_eq!(refusal_of(block_check(&[])), (1, 0));
    let mut block = block_on_file(0, 1, &[1]);
    block[511] ^= 1;
    assert_eq!(refusal_of(block_check(&block)), (2, 0));
}

// ---- Set questions

#[test]
fn rounds_drop_all_together() {
    // Site v needs v - 1, and site 0 is not in the set: one site goes each round.
    let chain: Vec<u64> = (0..64).flat_map(|v| row_in_memory(&[only(v) | only(usize::max(v, 1) - 1)])).collect();
    assert_eq!(largest(&chain, !1).values, [0, 63, 0]);
    assert_eq!(largest(&chain, !0).values, [u64::MAX, 0, 0]);
    assert_eq!(largest(&chain, 0).values, [0, 0, 0]);
    // In A site 3 falls for want of 0 and 1, and site 4 only in the round after, for want of 3.
    assert_eq!(largest(&memory(&A), 0b11000).values, [0, 2, 0]);
    assert_eq!(largest(&memory(&A), 0b10101).values, [0, 1, 0]);
}

#[test]
fn order_of_refusals_in_questions() {
    let five = memory(&A);
    assert_eq!(refusal_of(quorum(&five, 32)), (10, 0));
    assert_eq!(refusal_of(largest(&five, 1 << 63)), (10, 0));
    assert_eq!(refusal_of(blocks(&five, 32, 5)), (10, 0));
    assert_eq!(refusal_of(blocks(&five, 31, 5)), (11, 0));
    assert_eq!(refusal_of(blocks(&five, 31, 1 << 32)), (11, 0));
    assert_eq!(refusal_of(intact(&loners(13), 1 << 20)), (10, 0));
    assert_eq!(quorum(&five, 0).values, [0, 0, 0]);
}

// ---- The voting

#[test]
fn order_of_refusals_in_a_step() {
    let b = memory(&B);
    let fresh = vec![0; 22];
    let ask = |state: &[u64], call: [u8; 4]| {
        let mut after = state.to_vec();
        let answer = step(&b, 8, &mut after, call);
        assert!(answer.number == 0 || after == state);
        refusal_of(answer).0
    };
    for bad in [[3, 0, 0, 0], [0, 4, 4, 0], [1, 0, 4, 0], [1, 4, 0, 0], [0, 0, 0, 2], [255, 255, 255, 255]] {
        assert_eq!(ask(&fresh, bad), 11);
        assert_eq!(ask(&fresh[1..], bad), 18);
    }
    assert_eq!(ask(&fresh, [0, 0, 3, 0]), 13, "before 12");
    assert_eq!(ask(&fresh, [0, 3, 3, 0]), 12);
    assert_eq!(ask(&fresh, [2, 0, 3, 0]), 12);
    assert_eq!(ask(&fresh, [1, 1, 0, 0]), 15);
    assert_eq!(ask(&fresh, [1, 0, 0, 0]), 15, "a site tells itself only what it has sent");
    assert_eq!(ask(&fresh, [1, 3, 0, 1]), 0, "a faulty site may send anything");
    let mut voted = fresh.clone();
    take(&table(&B), 8, &mut voted, [0, 0, 0, 0]);
    assert_eq!(ask(&voted, [0, 0, 0, 1]), 14);
    assert_eq!(ask(&voted, [0, 0, 0, 0]), 0);
    assert_eq!(ask(&voted, [1, 0, 0, 0]), 0);
    assert_eq!(refusal_of(step(&b, 16, &mut voted, [9; 4])), (10, 0));
}

#[test]
fn accepting_does_not_vote() {
    // Sites 2 and 3 are faulty and block site 0 for drill; it may still vote live.
    let b = table(&B);
    let mut state = vec![0; 22];
    for call in [[2, 2, 0, 0], [2, 3, 0, 0], [0, 0, 0, 1]] {
        assert_eq!(take(&b, 12, &mut state, call), 0);
    }
    assert_eq!(state[voted_at(4, DRILL)..], [0, 1, 1, 0, 1, 0]);
    assert!(is_sound(&b, 12, &state));
}

#[test]
fn circular_state_is_sound() {
    // Sites 0, 1 and 2 have accepted and confirmed both sides, each blocked by the other two, and nobody has voted.
    let mut state = Vec::new();
    for site in 0..4 {
        state.extend(if site < 3 { [0, 0, 7, 7] } else { [0; 4] });
    }
    state.extend([0, 0, 7, 7, 7, 7]);
    assert_eq!(refusal_of(sound(&memory(&B), 0, &state)), (0, 0));
    state[21] = 3;
    assert_eq!(refusal_of(sound(&memory(&B), 0, &state)), (18, 0));
}

#[test]
fn each_unsound_kind() {
    let b = memory(&B);
    let end = |faulty| {
        let (mut state, mut answers) = (vec![0; 22], vec![0; 64]);
        let mut calls: Vec<[u8; 4]> = (0..3).map(|v| [0, v, v, 0]).collect();
        for kind in [1, 2] {
            calls.extend((0..9).map(|pair| [kind, pair / 3, pair % 3, 0]));
        }
        assert_eq!(run_records(&b, faulty, &calls, &mut state, &mut answers).number, 0);
        state
    };
    let good = end(8);
    assert_eq!(good[..4], [7, 0, 7, 0]);
    assert_eq!(good[16..], [7, 0, 7, 0, 7, 0]);
    let asked = |state: &[u64]| refusal_of(sound(&b, 8, state)).0;
    assert_eq!(asked(&good), 0);
    let changed = |cell: usize, bits: u64| {
        let mut state = good.clone();
        state[cell] ^= bits;
        asked(&state)
    };
    assert_eq!(asked(&good[..21]), 18);
    assert_eq!(changed(1, 16), 18, "a bit at or above n");
    assert_eq!(changed(12, 1), 18, "a faulty receiver heard");
    assert_eq!(changed(20, 8), 18, "a faulty receiver confirmed");
    assert_eq!(changed(0, 1), 18, "own vote bit");
    assert_eq!(changed(2, 1), 18, "own accept bit");
    assert_eq!(changed(18, 1), 18, "accepted mask");
    assert_eq!(changed(20, 1), 18, "confirmed mask");
    assert_eq!(changed(1, 2), 18, "heard what a correct site has not sent");
    assert_eq!(changed(1, 8), 0, "faulty sites may have sent anything");
    let mut both = good.clone();
    both[17] |= 1;
    both[1] |= 1;
    assert_eq!(asked(&both), 18, "voting both sides");
}

// ---- The run

#[test]
fn longest_run_of_two_sites() {
    let calls = [[2, 1, 0, 0], [2, 0, 1, 0], [1, 1, 0, 0], [0, 0, 0, 0], [0, 1, 1, 0]];
    assert_eq!(passes(&table(&[&[3], &[3]]), 0, &calls).1, 5);
}

#[test]
fn opposite_proposals() {
    let (state, passes, answers) = passes(&table(&B), 0, &[[0, 1, 1, 1], [0, 1, 1, 0]]);
    assert_eq!((passes, &answers[..]), (2, &[0, 14][..]));
    assert_eq!(state[voted_at(4, DRILL)..][..2], [0, 2]);
}

#[test]
fn order_of_refusals_in_a_run() {
    let b = memory(&B);
    let (mut state, mut answers) = (vec![JUNK; 22], vec![7; 2]);
    assert_eq!(refusal_of(run(&b[1..], 16, &[0; 3], &mut [], &mut [])), (1, 0));
    assert_eq!(refusal_of(run(&b, 16, &[0; 3], &mut [], &mut [])), (10, 0));
    assert_eq!(refusal_of(run(&b, 8, &[0; 3], &mut [], &mut [])), (17, 0));
    assert_eq!(refusal_of(run(&b, 8, &[0; 8], &mut state[..21], &mut answers)), (9, 0));
    assert_eq!(refusal_of(run(&b, 8, &[0; 8], &mut state, &mut answers[..1])), (9, 0));
    assert!(state.iter().all(|cell| *cell == JUNK) && answers == [7, 7]);
}

/// Numbers that are the same in each run.
struct Rng(u64);

impl Rng {
    fn below(&mut self, end: u64) -> u64 {
        self.0 ^= self.0 << 13;
        self.0 ^= self.0 >> 7;
        self.0 ^= self.0 << 17;
        (self.0 >> 16) % end
    }
}

#[test]
fn order_and_repeats_do_not_matter() {
    let mut rng = Rng(88172645463325252);
    let mut most_passes = 0;
    for _ in 0..2000 {
        let n = 1 + rng.below(5) as usize;
        let mut row = |site| {
            let mut slices: Vec<u64> = (0..=rng.below(3)).map(|_| rng.below(1 << n) | only(site)).collect();
            slices.sort();
            slices.dedup();
            slices
        };
        let slices: Vec<Vec<u64>> = (0..n).map(&mut row).collect();
        let table = Table { sites: all_sites(n), slices };
        let faulty = rng.below(1 << n) & rng.below(1 << n);
        // No site is proposed both sides; the other calls are any.
        let mut calls: Vec<[u8; 4]> = (0..n as u8).map(|site| [PROPOSE, site, site, rng.below(4) as u8 / 3]).collect();
        for _ in 0..rng.below(40) {
            let (from, to) = (rng.below(n as u64) as u8, rng.below(n as u64) as u8);
            calls.push([1 + rng.below(2) as u8, from, to, rng.below(4) as u8 / 3]);
        }
        let mut other = calls.clone();
        for _ in 0..rng.below(8) {
            other.push(calls[rng.below(calls.len() as u64) as usize]);
        }
        for i in (1..other.len()).rev() {
            other.swap(i, rng.below(i as u64 + 1) as usize);
        }

        let (state, count, answers) = passes(&table, faulty, &calls);
        let (other_state, other_count, other_answers) = passes(&table, faulty, &other);
        assert_eq!(state, other_state);
        for (call, answer) in other.iter().zip(other_answers) {
            let first = calls.iter().position(|one| one == call).unwrap();
            assert_eq!(answer, answers[first]);
        }
        // The passes do not exceed the calls by more than one; nor the correct sites by more than three.
        let correct = (table.sites & !faulty).count_ones() as usize;
        for (count, calls) in [(count, &calls), (other_count, &other)] {
            assert!(count as usize <= calls.len() + 1 && count as usize <= correct + 3);
            most_passes = most_passes.max(count);
        }
        assert!(is_sound(&table, faulty, &state));
    }
    assert!(most_passes >= 5, "lists of more than a few passes were among them");
}

#[test]
fn steps_lead_from_sound_states_to_sound_states() {
    let mut rng = Rng(4711);
    for rows in [&A[..], &B[..], &PAIRS[..]] {
        let table = table(rows);
        let n = table.n() as u64;
        for faulty in 0..1 << n {
            let mut state = vec![0; state_length(table.n())];
            for _ in 0..60 {
                let call = [rng.below(3), rng.below(n), rng.below(n), rng.below(2)].map(|byte| byte as u8);
                take(&table, faulty, &mut state, call);
                assert!(is_sound(&table, faulty, &state));
            }
        }
    }
}

// ---- The journal of calls

/// Calls that are all different: the place in the list in the first two bytes.
fn numbered(count: usize) -> Vec<[u8; 4]> {
    (0..count as u16).map(|i| [i as u8, (i >> 8) as u8, 255, 7]).collect()
}

/// A journal that is written, into room with bytes beyond it that must stay.
fn written(calls: &[[u8; 4]], blocks: usize) -> Vec<u8> {
    let mut room = vec![0x5a; BLOCK * blocks + 3];
    assert_eq!(journal_write(&calls.concat(), &mut room).values, [blocks as u64, 0, 0]);
    assert_eq!(room.split_off(BLOCK * blocks), [0x5a; 3]);
    room
}

/// The list of a journal by `journal_list`, and once more call by call.
fn read_back(journal: &[u8], count: usize) -> Vec<u8> {
    let mut room = vec![0x5a; 4 * count + 3];
    assert_eq!(journal_list(journal, &mut room).values, [4 * count as u64, 0, 0]);
    assert_eq!(room.split_off(4 * count), [0x5a; 3]);
    let mut place = 0;
    for call in room.chunks(4) {
        let value = u32::from_le_bytes(call.try_into().unwrap());
        assert_eq!(journal_next(journal, place).values, [1, value.into(), place + 1]);
        place += 1;
    }
    assert_eq!(place, count as u64);
    for beyond in [place, place, place + 1, 4096, 1 << 32, u64::MAX] {
        assert_eq!(journal_next(journal, beyond), Answer { number: 0, place: 0, values: [0; 3] }, "none is left");
    }
    room
}

/// What every call of the reader answers of a journal that is refused; the room is kept.
fn journal_refusal(journal: &[u8]) -> (u64, u64) {
    let mut room = vec![0x5a; 4 * 4200];
    let refusal = refusal_of(journal_check(journal));
    assert_ne!(refusal.0, 0);
    assert_eq!(refusal_of(journal_list(journal, &mut room)), refusal);
    assert_eq!(refusal_of(journal_list(journal, &mut [])), refusal, "9 comes last");
    assert!(room.iter().all(|byte| *byte == 0x5a));
    assert_eq!(refusal_of(journal_next(journal, 0)), refusal);
    assert_eq!(refusal_of(journal_next(journal, u64::MAX)), refusal);
    refusal
}

#[test]
fn sums_of_a_journal() {
    // One call of zeros: the one word that is not zero is the first, 1 << 16, and t counts it 126 times.
    let one = written(&[[0; 4]], 1);
    assert_eq!(block_sums(&one), (65536, 8257536));
    assert_eq!(one[..4], [0, 0, 1, 0]);
    // "vote 0 to 1 drill, propose 0 drill": words 2 << 16, counted 126 times, and 0x10001, counted 125 times.
    let two = written(&[[1, 0, 1, 0], [0; 4]], 1);
    assert_eq!(block_sums(&two), (196609, 24707197));
    assert_eq!(two[..8], [0, 0, 2, 0, 1, 0, 1, 0], "the calls begin at byte 4");
    assert_eq!(two[504..512], [1, 0, 3, 0, 125, 0, 121, 1], "196,609 is 0x30001, and 24,707,197 is 0x179007d");
}

#[test]
fn blocks_and_calls_of_a_journal() {
    for (count, blocks, last) in [
        (1, 1, 1),
        (124, 1, 124),
        (125, 1, 125),
        (126, 2, 1),
        (250, 2, 125),
        (251, 3, 1),
        (4000, 32, 125),
        (4096, 33, 96),
    ] {
        let calls = numbered(count);
        let journal = written(&calls, blocks);
        for (place, block) in journal.chunks(BLOCK).enumerate() {
            let held = if place + 1 == blocks { last } else { 125 };
            assert_eq!(block[..4], [place as u8, 0, held as u8, 0]);
            assert_eq!(refusal_of(block_check(block)), (0, 0));
        }
        assert_eq!(journal_check(&journal).values, [blocks as u64, count as u64, 0]);
        if count <= 251 {
            assert_eq!(read_back(&journal, count), calls.concat());
        }
        // A byte less of room does not do, and stays.
        let mut short = vec![0x5a; journal.len() - 1];
        assert_eq!(refusal_of(journal_write(&calls.concat(), &mut short)), (9, 0));
        assert!(short.iter().all(|byte| *byte == 0x5a));
        let mut short = vec![0x5a; 4 * count - 1];
        assert_eq!(refusal_of(journal_list(&journal, &mut short)), (9, 0));
        assert!(short.iter().all(|byte| *byte == 0x5a));
    }
    // At the ends of the blocks of the longest journal.
    let journal = written(&numbered(4096), 33);
    for place in [0, 124, 125, 126, 3999, 4000, 4094, 4095] {
        let value = place | 0x07ff_0000;
        assert_eq!(journal_next(&journal, place).values, [1, value, place + 1]);
    }
    assert_eq!(journal_next(&journal, 4096).values, [0; 3]);
}

#[test]
fn lists_that_are_not_kept() {
    let mut room = vec![0x5a; 34 * BLOCK];
    let list = numbered(4097).concat();
    assert_eq!(refusal_of(journal_write(&list, &mut room)), (17, 0));
    assert_eq!(refusal_of(journal_write(&list, &mut [])), (17, 0), "before 9");
    assert_eq!(refusal_of(journal_write(&list[..4 * 4096 + 1], &mut room)), (17, 0));
    for length in [1, 2, 3, 5, 503] {
        assert_eq!(refusal_of(journal_write(&list[..length], &mut room)), (17, 0));
    }
    assert_eq!(refusal_of(journal_write(&list[..4], &mut [])), (9, 0));
    assert!(room.iter().all(|byte| *byte == 0x5a));
}

#[test]
fn empty_journal() {
    assert_eq!(written(&[], 0), []);
    assert_eq!(refusal_of(journal_check(&[])), (0, 0));
    assert_eq!(journal_check(&[]).values, [0; 3]);
    assert_eq!(read_back(&[], 0), []);
    // 512 zero bytes have a right check and the right number, and hold no call.
    assert_eq!(journal_refusal(&[0; 512]), (20, 0));
}

#[test]
fn lengths_of_a_journal() {
    let block = |place: usize, count: usize| journal_block(place, &numbered(count));
    let full: Vec<u8> = (0..33).flat_map(|place| block(place, 125)).collect();
    assert_eq!(journal_refusal(&full), (17, 0), "33 times 125 calls are 4,125");
    assert_eq!(journal_check(&full[..32 * BLOCK]).values, [32, 4000, 0]);
    assert_eq!(journal_refusal(&[&full[..32 * BLOCK], &block(32, 97)].concat()), (17, 0));
    assert_eq!(journal_check(&[&full[..32 * BLOCK], &block(32, 96)].concat()).values, [33, 4096, 0]);
    assert_eq!(journal_refusal(&[&full[..], &block(33, 1)].concat()), (19, 0));
    for length in [1, 511, 513, 1023, 16895, 16897, 16898] {
        let mut odd = full.clone();
        odd.resize(length, 0);
        assert_eq!(journal_refusal(&odd), (19, 0));
    }
    // Writing what was read gives the bytes.
    for blocks in [1, 2, 3, 32] {
        let journal = &full[..BLOCK * blocks];
        let mut list = vec![0; 500 * blocks];
        assert_eq!(journal_list(journal, &mut list).values, [500 * blocks as u64, 0, 0]);
        assert_eq!(list, numbered(125).concat().repeat(blocks));
        assert_eq!(written(&calls_of(&list), blocks), journal);
    }
    // The blocks come before the number of calls, the length before the blocks.
    let mut damaged = full.clone();
    damaged[31 * BLOCK + 100] ^= 1;
    assert_eq!(journal_refusal(&damaged), (2, 31));
    damaged.push(0);
    assert_eq!(journal_refusal(&damaged), (19, 0));
}

#[test]
fn order_of_refusals_in_a_journal() {
    // One fault after the other is put into the last block, the last in the order first.
    let good = written(&numbered(260), 3);
    let mut bad = good.clone();
    let at = 2 * BLOCK;
    assert_eq!(bad[at..at + 4], [2, 0, 10, 0]);
    bad[at + 503] = 1;
    mend(&mut bad, 2);
    assert_eq!(journal_refusal(&bad), (8, 2));
    bad[at + 503] = 0;
    bad[at + 44] = 1;
    mend(&mut bad, 2);
    assert_eq!(journal_refusal(&bad), (8, 2), "right behind the last call");
    bad[at] = 3;
    mend(&mut bad, 2);
    assert_eq!(journal_refusal(&bad), (20, 2), "number and filler both wrong");
    bad[at] = 2;
    bad[at + 1] = 1;
    mend(&mut bad, 2);
    assert_eq!(journal_refusal(&bad), (20, 2), "the number has two bytes");
    bad[at + 1] = 0;
    for count in [[0, 0], [126, 0], [255, 0], [10, 1], [0, 1], [0, 128], [255, 255]] {
        bad[at + 2..at + 4].copy_from_slice(&count);
        mend(&mut bad, 2);
        assert_eq!(journal_refusal(&bad), (20, 2), "count {count:?}");
    }
    bad[at + 511] ^= 128;
    assert_eq!(journal_refusal(&bad), (2, 2));
    // A block before it comes first, with whatever it has.
    bad[BLOCK + 2] = 124;
    mend(&mut bad, 1);
    assert_eq!(journal_refusal(&bad), (20, 1));
    bad[10] ^= 1;
    assert_eq!(journal_refusal(&bad), (2, 0));
}

#[test]
fn short_blocks_before_the_last() {
    let two = [journal_block(0, &numbered(124)), journal_block(1, &numbered(1))].concat();
    assert_eq!(journal_refusal(&two), (20, 0));
    assert_eq!(journal_check(&two[..BLOCK]).values, [1, 124, 0]);
    // A block of 125 that stands elsewhere than its number says.
    let second = journal_block(1, &numbered(125));
    assert_eq!(journal_refusal(&second), (20, 0));
    assert_eq!(journal_refusal(&[second.clone(), second].concat()), (20, 0));
}

#[test]
fn bytes_of_calls_are_not_judged() {
    let calls = [[255, 255, 255, 255], [3, 64, 64, 2], [0; 4]];
    let journal = written(&calls, 1);
    assert_eq!(read_back(&journal, 3), calls.concat());
    assert_eq!(journal_next(&journal, 0).values, [1, 0xffff_ffff, 1]);
    // The run takes them as they are, and answers 11.
    let (mut state, mut answers) = (vec![0; 10], vec![0; 3]);
    assert_eq!(run(&loners(1), 0, &read_back(&journal, 3), &mut state, &mut answers).number, 0);
    assert_eq!(answers, [11, 11, 0]);
}

// ---- The accept calls that are missing

/// The calls of some sites to all others of them: proposals, votes, accepts.
fn all_calls(sites: &[u8], side: u8) -> Vec<[u8; 4]> {
    let mut calls: Vec<[u8; 4]> = sites.iter().map(|site| [PROPOSE, *site, *site, side]).collect();
    for kind in [VOTE, ACCEPT] {
        for from in sites {
            calls.extend(sites.iter().filter(|to| *to != from).map(|to| [kind, *from, *to, side]));
        }
    }
    calls
}

fn missing_of(memory: &[u64], faulty: u64, calls: &[[u8; 4]]) -> (bool, [Vec<(usize, usize)>; 2]) {
    let missing =
        missing(memory, faulty, &calls.concat()).map_err(refusal_of).unwrap_or_else(|refusal| panic!("{refusal:?}"));
    (missing.meet, missing.sides)
}

#[test]
fn one_accept_missing() {
    let full = all_calls(&[0, 1, 2], 0);
    assert_eq!(missing_of(&memory(&B), 8, &full), (true, [vec![], vec![]]));
    // without the accept of site 0 to site 1 two intact sites end with different marks
    let short: Vec<[u8; 4]> = full.iter().copied().filter(|call| *call != [ACCEPT, 0, 1, 0]).collect();
    assert_eq!(missing_of(&memory(&B), 8, &short), (true, [vec![(0, 1)], vec![]]));
    // an accept of the other side, a vote, and the same accept to another site stand for it as little
    let beside = [&short[..], &[[ACCEPT, 0, 1, 1], [VOTE, 0, 1, 0], [ACCEPT, 0, 2, 0]]].concat();
    assert_eq!(missing_of(&memory(&B), 8, &beside), (true, [vec![(0, 1)], vec![]]));
}

#[test]
fn nobody_is_asked_who_has_not_accepted() {
    // no calls: nobody accepted anything
    assert_eq!(missing_of(&memory(&B), 0, &[]), (true, [vec![], vec![]]));
    // the four propose live and vote: each accepts, and tells nobody
    let votes: Vec<[u8; 4]> = all_calls(&[0, 1, 2, 3], 1).into_iter().filter(|call| call[0] != ACCEPT).collect();
    let (meet, [drill, live]) = missing_of(&memory(&B), 0, &votes);
    assert!(meet && drill.is_empty());
    let pairs: Vec<(usize, usize)> =
        (0..4).flat_map(|from| (0..4).map(move |to| (from, to))).filter(|(u, v)| u != v).collect();
    assert_eq!(live, pairs);
    // with nobody intact nothing is missing
    assert_eq!(missing_of(&memory(&B), 3, &votes), (true, [vec![], vec![]]));
}

#[test]
fn befouled_sites_are_not_asked() {
    // table A with site 3 faulty: sites 0, 1, 2 are intact, site 4 is correct and befouled
    let calls = [[PROPOSE, 0, 0, 0], [PROPOSE, 1, 1, 0], [VOTE, 0, 1, 0], [VOTE, 1, 0, 0]];
    assert_eq!(missing_of(&memory(&A), 8, &calls).1[0], [(0, 1), (0, 2), (1, 0), (1, 2)]);
}

#[test]
fn complete_on_a_table_that_does_not_meet() {
    assert_eq!(missing_of(&memory(&PAIRS), 0, &[]), (false, [vec![], vec![]]));
}

#[test]
fn refusals_of_missing_calls() {
    let refusal = |memory: &[u64], faulty, list: &[u8]| missing(memory, faulty, list).map_err(refusal_of).err();
    assert_eq!(refusal(&[0; 62], 1, &[0]), Some((1, 0)));
    assert_eq!(refusal(&loners(13), 1 << 13, &[0]), Some((10, 0)));
    assert_eq!(refusal(&loners(13), 1, &[0]), Some((16, 0)));
    assert_eq!(refusal(&loners(12), 1, &[0]), Some((17, 0)));
    assert_eq!(refusal(&loners(12), 1, &[0; 16388]), Some((17, 0)));
    assert_eq!(refusal(&loners(12), 1, &[0; 16384]), None);
}

// ---- The mark and the program

#[test]
fn marks() {
    assert_eq!(mark(63, 1 << 63, 0).values[0], 1);
    assert_eq!(mark(63, 1 << 63, 1 << 63).values[0], 0);
    assert_eq!(mark(2, 0, 4).values[0], 0);
    assert_eq!(refusal_of(mark(64, u64::MAX, 0)), (11, 0));
}

#[test]
fn refusals_of_the_program() {
    let input = |faulty: u64, image: &[u8]| [&faulty.to_le_bytes()[..], image].concat();
    let thirteen: Vec<u8> = (0..13).flat_map(|site| block_on_file(site, 13, &[only(site)])).collect();
    assert_eq!(verdict(&[0; 7]), "refused 1 0\n");
    assert_eq!(verdict(&[0; 8]), "refused 1 0\n");
    assert_eq!(verdict(&[0; 32777]), "refused 1 0\n");
    assert_eq!(verdict(&input(1 << 20, &thirteen)), "refused 10 0\n");
    assert_eq!(verdict(&input(1, &thirteen)), "refused 16 0\n");
    let mut damaged = thirteen.clone();
    damaged[5 * BLOCK + 8] ^= 1;
    assert_eq!(verdict(&input(1 << 20, &damaged)), "refused 2 5\n");
    let all = verdict(&input(31, &image(&A)));
    assert!(all.ends_with("intact 0000000000000000\nbefouled 000000000000001f\nquorum 0000000000000000\nrounds 0\n"));
}
