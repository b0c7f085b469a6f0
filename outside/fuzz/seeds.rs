//! The first inputs of the fuzzer, one file each, written to the folder named: images, states, lists and journals that
//! are right, and each with something wrong.

#[allow(dead_code)]
#[path = "../model/model.rs"]
mod model;

use std::path::Path;

// The bytes of decode.rs: the place of a question in its list, the ways, the flags of a table.
const READ: u8 = 0;
const STEP: u8 = 1;
const RUN: u8 = 2;
const RECORDS: u8 = 3;
const SOUND: u8 = 4;
const CHECK: u8 = 5;
const WRITE: u8 = 6;
const BLOCK: u8 = 7;
const QUORUM: u8 = 8;
const LARGEST: u8 = 9;
const BLOCKS: u8 = 10;
const SHARED: u8 = 11;
const INTACT: u8 = 12;
const MARK: u8 = 13;
const JOURNAL: u8 = 14;
const KEEP: u8 = 15;
const LIST: u8 = 16;
const NEXT: u8 = 17;

const RAW: u8 = 1;
const SUMS: u8 = 2;
const RANGE: u8 = 2;
const CUT: u8 = 4;
const SHORT_CELLS: u8 = 8;
const LONG_CELLS: u8 = 16;
const SHORT_BYTES: u8 = 32;
const LONG_BYTES: u8 = 64;
const AGAIN: u8 = 128;

const MENDED: u8 = 1;
const LONGER: u8 = 2;
const PATCHED: u8 = 4;

type Call = [u8; 4];

/// A set of n sites in as many bytes as decode.rs reads.
fn set(n: usize, mask: u64) -> Vec<u8> {
    let width = match n {
        0..=8 => 1,
        9..=16 => 2,
        _ => 8,
    };
    mask.to_le_bytes()[..width].to_vec()
}

/// A table by its rows, mended or as it is.
fn table(rows: &[Vec<u64>], flags: u8) -> Vec<u8> {
    let n = rows.len();
    let mut bytes = vec![n as u8, flags];
    for row in rows {
        bytes.push(row.len() as u8 - (flags & MENDED));
        bytes.extend(row.iter().flat_map(|slice| set(n, *slice)));
    }
    bytes
}

fn seed(question: u8, way: u8, parts: &[&[u8]]) -> Vec<u8> {
    let mut bytes = vec![question, way];
    parts.iter().for_each(|part| bytes.extend(*part));
    bytes
}

/// Bits to change in a state: how many, then of each the cell and the mask.
fn patches(n: usize, changes: &[(u16, u64)]) -> Vec<u8> {
    let mut bytes = vec![changes.len() as u8];
    for (cell, mask) in changes {
        bytes.extend(cell.to_le_bytes());
        bytes.extend(set(n, *mask));
    }
    bytes
}

/// A step or a soundness: table, faulty set, call, the calls that lead to the state, the changes.
fn at_state(
    question: u8,
    rows: &[Vec<u64>],
    faulty: u64,
    call: Call,
    calls: &[Call],
    changes: &[(u16, u64)],
) -> Vec<u8> {
    let n = rows.len();
    let lead = [vec![calls.len() as u8], calls.concat()].concat();
    seed(question, 0, &[&table(rows, MENDED), &set(n, faulty), &call, &lead, &patches(n, changes)])
}

/// A journal and a place in it: blocks, the calls of the last, the first call, and bytes to change, each with where it
/// stands and the bits.
fn journal(place: u64, blocks: u8, last: u8, call: Call, changes: &[(u16, u8)]) -> Vec<u8> {
    let mut bytes = place.to_le_bytes().to_vec();
    bytes.extend([blocks, last]);
    bytes.extend(call);
    bytes.push(changes.len() as u8);
    for (at, bits) in changes {
        bytes.extend(at.to_le_bytes());
        bytes.push(*bits);
    }
    bytes
}

fn all_calls(n: u8) -> Vec<Call> {
    let mut calls: Vec<Call> = (0..n).map(|v| [0, v, v, 0]).collect();
    for kind in [1, 2] {
        calls.extend((0..n).flat_map(|u| (0..n).filter(move |v| *v != u).map(move |v| [kind, u, v, 0])));
    }
    calls
}

fn main() {
    let folder = std::env::args().nth(1).expect("a folder");
    let a = vec![vec![3], vec![3], vec![7], vec![11], vec![24]];
    let b = vec![vec![7, 11, 13], vec![7, 11, 14], vec![7, 13, 14], vec![11, 13, 14]];
    let one = vec![vec![1]];
    let apart = vec![vec![3], vec![3], vec![12], vec![12]];
    let chain = |n: usize| -> Vec<Vec<u64>> {
        (0..n).map(|v| vec![if v < 2 { 3 & ((1 << n) - 1) | 1 << v } else { 1 << v | 1 << (v - 1) }]).collect()
    };
    let wide: Vec<Vec<u64>> = (0..64).map(|v| vec![1 << v, 1 << v | 1 << (v / 2) | 1 << 63]).collect();
    let twelve: Vec<Vec<u64>> = (0..12).map(|v| vec![1 << v | 1, 1 << v | 0x803, 0xfff]).collect();
    let many: Vec<Vec<u64>> = (0..7).map(|v| (0..62).map(|k| 1 << v | k).collect()).collect();
    let mut seeds: Vec<(&str, Vec<u8>)> = Vec::new();

    // The reader.
    for (name, rows) in [("a", &a), ("b", &b), ("one", &one), ("wide", &wide), ("twelve", &twelve), ("many", &many)] {
        seeds.push((["read-", name].concat().leak(), seed(READ, 0, &[&table(rows, MENDED), &[0]])));
    }
    let image = model::block_on_file(0, 1, &[1]);
    seeds.push(("read-raw", seed(READ, RAW, &[&image])));
    seeds.push(("read-raw-short", seed(READ, RAW, &[&image[..511]])));
    seeds.push(("read-short-room", seed(READ, SHORT_CELLS, &[&table(&a, MENDED), &[0]])));
    seeds.push(("read-long-room", seed(READ, LONG_CELLS, &[&table(&a, MENDED), &[0]])));
    seeds.push(("read-65-blocks", seed(READ, 0, &[&table(&[wide.clone(), one.clone()].concat(), MENDED), &[0]])));
    // A byte changed: a sum, the site, n, the count, byte 6, a slice, the filler; with the sums put right again.
    for (name, way, at, value) in [
        ("sum", 0, 504u16, 1u8),
        ("sum-2", 0, 511, 128),
        ("site", SUMS, 512, 3),
        ("sites", SUMS, 515, 1),
        ("count-0", SUMS, 4, 3),
        ("count", SUMS, 4, 60),
        ("zero", SUMS, 7, 1),
        ("owner", SUMS, 8, 1),
        ("beyond", SUMS, 9, 1),
        ("order", SUMS, 24, 8),
        ("filler", SUMS, 503, 1),
        ("cut", 0, 2048, 0),
    ] {
        let [low, high] = at.to_le_bytes();
        let parts: [&[u8]; 2] = [&table(&b, MENDED), &[1, low, high, value]];
        seeds.push((["read-bad-", name].concat().leak(), seed(READ, way, &parts)));
    }
    seeds.push(("block", seed(BLOCK, RAW, &[&image])));
    seeds.push(("block-damaged", seed(BLOCK, 0, &[&table(&one, MENDED), &[1, 9, 0, 1]])));

    // Tables in memory, writing, questions.
    seeds.push(("check-a", seed(CHECK, 0, &[&table(&a, 0)])));
    seeds.push(("check-longer", seed(CHECK, 0, &[&table(&a, LONGER)])));
    seeds.push(("check-count-0", seed(CHECK, 0, &[&table(&[vec![1], vec![]], 0)])));
    seeds.push(("check-count-63", seed(CHECK, 0, &[&[1, 0, 63, 1]])));
    seeds.push(("check-owner", seed(CHECK, 0, &[&table(&[vec![1], vec![1]], 0)])));
    seeds.push(("check-order", seed(CHECK, 0, &[&table(&[vec![3, 1], vec![2]], 0)])));
    seeds.push(("check-unused", seed(CHECK, 0, &[&table(&a, MENDED | PATCHED), &[1, 0, 185, 11]])));
    seeds.push(("check-beyond", seed(CHECK, 0, &[&table(&a, MENDED | PATCHED), &[1, 3, 0, 5]])));
    seeds.push(("write-b", seed(WRITE, 0, &[&table(&b, MENDED)])));
    seeds.push(("write-short", seed(WRITE, SHORT_BYTES, &[&table(&b, MENDED)])));
    seeds.push(("write-long", seed(WRITE, LONG_BYTES, &[&table(&many, MENDED)])));
    seeds.push(("quorum-a", seed(QUORUM, 0, &[&table(&a, MENDED), &[27]])));
    seeds.push(("largest-chain", seed(LARGEST, CUT, &[&table(&chain(8), MENDED), &[0xfe]])));
    seeds.push(("largest-set", seed(LARGEST, 0, &[&table(&a, MENDED), &[32]])));
    seeds.push(("blocks-b", seed(BLOCKS, 0, &[&table(&b, MENDED), &[6, 0]])));
    seeds.push(("blocks-site", seed(BLOCKS, 0, &[&table(&b, MENDED), &[6, 4]])));
    // The site itself in the set; and a set that names a site too many, which is the one that is asked for.
    for (name, rows, mask, site) in
        [("0", &b, 1, 0), ("0-1", &b, 3, 0), ("0-1-2", &b, 7, 0), ("alone", &one, 1, 0), ("outside", &b, 16, 4)]
    {
        seeds.push((format!("blocks-own-{name}").leak(), seed(BLOCKS, 0, &[&table(rows, MENDED), &[mask, site]])));
    }

    seeds.push(("shared-apart", seed(SHARED, 0, &[&table(&apart, MENDED)])));
    seeds.push(("shared-b", seed(SHARED, 0, &[&table(&b, MENDED)])));
    seeds.push(("shared-wide", seed(SHARED, 0, &[&table(&wide, MENDED)])));
    seeds.push(("intact-a", seed(INTACT, 0, &[&table(&a, MENDED), &[8]])));
    seeds.push(("intact-apart", seed(INTACT, CUT, &[&table(&apart, MENDED), &[4]])));
    seeds.push(("mark", seed(MARK, CUT, &[&[63], &[255; 8], &[0; 8]])));
    seeds.push(("mark-64", seed(MARK, CUT, &[&[64], &[255; 8], &[0; 8]])));

    // Every question with each fault of a table: its length, a count of 0, a site that there is not, a slice twice, an
    // unused place.
    for question in [STEP, RUN, RECORDS, SOUND, CHECK, WRITE, QUORUM, LARGEST, BLOCKS, SHARED, INTACT] {
        seeds.push((format!("table-1-{question}").leak(), seed(question, 0, &[&table(&b, MENDED | LONGER), &[0; 8]])));
        for (number, place, fault) in [(4, 0, 0), (5, 2, 5), (6, 1, 7), (8, 185, 11)] {
            let parts: [&[u8]; 3] = [&table(&b, MENDED | PATCHED), &[1, 2, place, fault], &[0; 8]];
            seeds.push((format!("table-{number}-{question}").leak(), seed(question, 0, &parts)));
        }
    }

    // Steps and states.
    let votes = [[0, 0, 0, 0], [0, 1, 1, 0], [0, 2, 2, 0], [1, 1, 0, 0]];
    let day = all_calls(4);
    seeds.push(("step-one", at_state(STEP, &one, 0, [0, 0, 0, 0], &[], &[])));
    seeds.push(("step-accepts", at_state(STEP, &b, 8, [1, 2, 0, 0], &votes, &[])));
    seeds.push(("step-blocked", at_state(STEP, &b, 6, [2, 1, 0, 1], &[[2, 2, 0, 1]], &[])));
    seeds.push(("step-confirms", at_state(STEP, &b, 0, day[27], &day[..27], &[])));
    seeds.push(("step-again", at_state(STEP, &b, 0, [0, 0, 0, 0], &votes, &[])));
    for (name, call) in [
        ("kind", [3, 0, 0, 0]),
        ("side", [1, 0, 0, 2]),
        ("from", [1, 4, 0, 0]),
        ("to", [1, 0, 4, 0]),
        ("differ", [0, 1, 0, 0]),
        ("faulty", [1, 0, 3, 0]),
        ("voted", [0, 0, 0, 1]),
        ("unsent-vote", [1, 0, 1, 1]),
        ("unsent-accept", [2, 0, 1, 0]),
    ] {
        seeds.push((["step-", name].concat().leak(), at_state(STEP, &b, 8, call, &votes, &[])));
    }
    seeds.push(("sound-day", at_state(SOUND, &b, 0, [0; 4], &day, &[])));
    seeds.push(("sound-chain", at_state(SOUND, &chain(6), 0, [0; 4], &all_calls(6)[..50], &[])));
    seeds.push(("sound-set", at_state(SOUND, &b, 32, [0; 4], &votes, &[])));
    // Cells of table B: four a site, then the six masks from cell 16.
    for (name, changes) in [
        ("beyond", vec![(0u16, 16u64)]),
        ("receiver", vec![(12, 1)]),
        ("mask", vec![(16, 8)]),
        ("both", vec![(17, 1), (1, 1)]),
        ("own-vote", vec![(0, 1)]),
        ("own-accept", vec![(2, 1)]),
        ("accepted", vec![(18, 1), (2, 1)]),
        ("confirmed", vec![(20, 1)]),
        ("unsent", vec![(4, 4)]),
        ("heard-of-a-faulty-site", vec![(0, 8), (6, 8)]),
        ("length", vec![(22, 23)]),
    ] {
        seeds.push((["sound-", name].concat().leak(), at_state(SOUND, &b, 8, [0; 4], &votes, &changes)));
    }

    // Lists.
    let list = |rows: &[Vec<u64>], way: u8, question: u8, faulty: u64, calls: &[Call]| {
        seed(question, way, &[&table(rows, MENDED), &set(rows.len(), faulty), &calls.concat()])
    };
    let mut backward = all_calls(4);
    backward.reverse();
    let mut longest = vec![[2, 5, 0, 0]];
    longest.extend((2..6).rev().map(|v| [2, v - 1, v, 0]));
    longest.extend([[2, 0, 1, 0], [1, 1, 0, 0], [0, 0, 0, 0], [0, 1, 1, 0]]);
    let opposite: Vec<Call> = all_calls(4).iter().flat_map(|[k, u, v, _]| [[*k, *u, *v, 0], [*k, *u, *v, 1]]).collect();
    seeds.push(("run-empty", list(&b, 0, RUN, 0, &[])));
    seeds.push(("run-3-passes", list(&b, 0, RUN, 0, &[[1, 0, 1, 0], [0, 0, 0, 0]])));
    seeds.push(("run-day", list(&b, RANGE, RUN, 0, &all_calls(4))));
    seeds.push(("run-backward", list(&b, RANGE, RUN, 0, &backward)));
    seeds.push(("run-longest", list(&chain(6), 0, RUN, 0, &longest)));
    seeds.push(("run-opposite", list(&b, 0, RUN, 0, &opposite)));
    seeds.push(("run-faulty", list(&b, 0, RUN, 12, &opposite)));
    seeds.push(("run-apart", list(&apart, 0, RUN, 0, &all_calls(4))));
    seeds.push(("run-twelve", list(&twelve, RANGE, RUN, 1, &all_calls(12)[..80])));
    seeds.push(("run-wide", list(&wide, RANGE, RUN, 1 << 40, &all_calls(64)[..100])));
    seeds.push(("run-4096", list(&a, RANGE | AGAIN, RUN, 8, &all_calls(5)[..32])));
    seeds.push(("run-4097", list(&a, AGAIN, RUN, 8, &[&[[1, 0, 0, 0]], &all_calls(5)[..31]].concat())));
    seeds.push(("run-short-state", list(&b, SHORT_CELLS, RUN, 0, &votes)));
    seeds.push(("run-short-answers", list(&b, SHORT_BYTES, RUN, 0, &votes)));
    seeds.push(("run-long-rooms", list(&b, LONG_CELLS | LONG_BYTES, RUN, 0, &votes)));
    seeds.push(("run-part-of-a-call", seed(RUN, 0, &[&table(&b, MENDED), &[0], &[0, 0, 0, 0, 1]])));
    seeds.push(("run-set", list(&b, 0, RUN, 16, &votes)));
    seeds.push(("records-day", list(&b, RANGE, RECORDS, 0, &all_calls(4))));
    seeds.push(("records-4097", list(&a, AGAIN, RECORDS, 8, &[&[[1, 0, 0, 0]], &all_calls(5)[..31]].concat())));
    seeds.push(("records-longest", list(&chain(6), LONG_BYTES, RECORDS, 0, &longest)));

    // Journals.
    for (name, question) in [("journal", JOURNAL), ("list", LIST), ("next", NEXT)] {
        let mut add = |what: &str, way: u8, journal: &[u8]| {
            seeds.push((format!("{name}-{what}").leak(), seed(question, way, &[journal])));
        };
        add("empty", 0, &journal(0, 0, 0, [0; 4], &[]));
        add("one", 0, &journal(0, 1, 1, [0; 4], &[]));
        add("126", 0, &journal(125, 2, 1, [255, 255, 0, 0], &[]));
        add("4096", 0, &journal(4095, 33, 96, [1, 0, 1, 0], &[]));
        add("4097", 0, &journal(0, 33, 97, [1, 0, 1, 0], &[]));
        add("34-blocks", 0, &journal(0, 34, 1, [0; 4], &[]));
        add("raw", RAW, &[&[0; 8], &model::journal_block(0, &[[0, 0, 0, 0], [1, 0, 1, 0]])[..]].concat());
        add("zeros", RAW, &[0; 8 + 512]);
        // Changes in a journal of 130 calls: a sum; the number and the count of the second block; the count of the
        // first; the filler; the length.
        for (what, way, at, bits) in [
            ("sum", 0, 508u16, 1u8),
            ("number", SUMS, 512, 2),
            ("number-256", SUMS, 513, 1),
            ("count-0", SUMS, 514, 5),
            ("count-126", SUMS, 514, 123),
            ("count-256", SUMS, 515, 1),
            ("short-amid", SUMS, 2, 1),
            ("filler", SUMS, 512 + 24, 1),
            ("filler-503", SUMS, 512 + 503, 128),
            ("cut", 0, 1024, 1),
        ] {
            add(what, way, &journal(0, 2, 5, [7; 4], &[(at, bits)]));
        }
    }
    seeds.push(("list-short-room", seed(LIST, SHORT_BYTES, &[&journal(0, 2, 5, [7; 4], &[])])));
    seeds.push(("list-long-room", seed(LIST, LONG_BYTES, &[&journal(0, 2, 5, [7; 4], &[])])));
    seeds.push(("next-none-left", seed(NEXT, 0, &[&journal(130, 2, 5, [7; 4], &[])])));
    seeds.push(("next-far-beyond", seed(NEXT, 0, &[&journal(u64::MAX, 2, 5, [7; 4], &[])])));
    let keep = |way: u8, calls: &[Call]| seed(KEEP, way, &[&calls.concat()]);
    seeds.push(("keep-empty", keep(0, &[])));
    seeds.push(("keep-one", keep(0, &[[255; 4]])));
    seeds.push(("keep-126", keep(LONG_BYTES, &all_calls(9)[..126])));
    seeds.push(("keep-4096", keep(AGAIN, &all_calls(5)[..32])));
    seeds.push(("keep-4097", keep(AGAIN, &[&[[1, 0, 0, 0]], &all_calls(5)[..31]].concat())));
    seeds.push(("keep-short-room", keep(SHORT_BYTES, &votes)));
    seeds.push(("keep-part-of-a-call", seed(KEEP, 0, &[&[0, 0, 0, 0, 1]])));

    for (name, bytes) in &seeds {
        std::fs::write(Path::new(&folder).join(name), bytes).unwrap_or_else(|error| panic!("{name}: {error}"));
    }
    println!("fuzz: {} seeds written", seeds.len());
}
