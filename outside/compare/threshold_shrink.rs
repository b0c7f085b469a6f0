//! From an input with a table of thresholds that shows a difference to a smaller one: calls, sites, sets and bits are
//! dropped one after the other, as long as some difference stays.

use crate::generate::mend;
use crate::input::{Input, Question};
use crate::model::thresholds::{self, Set};
use crate::model::{self, BLOCK};
use std::time::{Duration, Instant};

/// The smallest input found for which `differs` holds.
pub fn shrink(input: &Input, mut differs: impl FnMut(&Input) -> bool) -> Input {
    let end = Instant::now() + Duration::from_secs(30);
    let mut smallest = input.clone();
    while let Some(candidate) =
        smaller(&smallest).into_iter().find(|candidate| Instant::now() < end && differs(candidate))
    {
        smallest = candidate;
    }
    smallest
}

/// The inputs one step smaller, the greatest steps first.
fn smaller(input: &Input) -> Vec<Input> {
    let mut steps = Vec::new();
    drop_calls(input, &mut steps);
    drop_last_site(input, &mut steps);
    simpler_roots(input, &mut steps);
    clear_bytes(input, &mut steps);
    for bit in (0..64).rev().filter(|bit| input.set >> bit & 1 == 1) {
        steps.push(Input { set: input.set & !(1 << bit), ..input.clone() });
    }
    for at in 0..input.state.len() {
        for bit in (0..64).rev().filter(|bit| input.state[at] >> bit & 1 == 1) {
            let mut less = input.clone();
            less.state[at] &= !(1 << bit);
            steps.push(less);
        }
    }
    if input.gap > 0 {
        steps.push(Input { gap: 0, ..input.clone() });
    }
    steps
}

/// Half of the calls, a quarter, and so on down to each single one.
fn drop_calls(input: &Input, steps: &mut Vec<Input>) {
    let calls = input.list.len() / 4;
    let mut part = calls.div_ceil(2);
    while part > 0 {
        for first in (0..calls).step_by(part) {
            let last = (first + part).min(calls);
            let mut less = input.clone();
            less.list.drain(4 * first..4 * last);
            less.bytes_room = less.bytes_room.saturating_sub(last - first);
            steps.push(less);
        }
        part /= 2;
    }
}

/// The last site less, in a sound table, in the sets, the state and the rooms.
fn drop_last_site(input: &Input, steps: &mut Vec<Input>) {
    let Ok(table) = thresholds::table_on_file(&input.image) else {
        return;
    };
    let n = table.roots.len();
    let all = model::all_sites(n - 1);
    let mut less = input.clone();
    let roots: Vec<Set> = table.roots[..n - 1].iter().map(|root| inside(root, all)).collect();
    less.image = thresholds::image_of(&roots);
    less.set &= all;
    if less.state.len() == model::state_length(n) {
        less.state.drain(4 * (n - 1)..4 * n);
        less.state.iter_mut().for_each(|mask| *mask &= all);
    }
    let room = match input.question {
        Question::Translate => model::ROW,
        _ => 4,
    };
    less.cells_room = less.cells_room.saturating_sub(room);
    steps.push(less);
}

/// The set with the plain sites that are left, its threshold within reach.
fn inside(set: &Set, all: u64) -> Set {
    let inner: Vec<Set> = set.inner.iter().map(|set| inside(set, all)).collect();
    let plain = match set.plain & all {
        0 if inner.is_empty() => 1,
        plain => plain,
    };
    let members = plain.count_ones() as usize + inner.len();
    Set { threshold: set.threshold.min(members), plain, inner }
}

/// A root of a sound table with a part of it less: an inner set, a site, one from a threshold.
fn simpler_roots(input: &Input, steps: &mut Vec<Input>) {
    let Ok(table) = thresholds::table_on_file(&input.image) else {
        return;
    };
    for (site, root) in table.roots.iter().enumerate() {
        for simpler in simpler_sets(root) {
            let mut roots = table.roots.clone();
            roots[site] = simpler;
            steps.push(Input { image: thresholds::image_of(&roots), ..input.clone() });
        }
    }
}

fn simpler_sets(set: &Set) -> Vec<Set> {
    let mut sets: Vec<Set> = set.inner.clone();
    let fits = |set: &Set| set.threshold <= set.plain.count_ones() as usize + set.inner.len();
    for k in 0..set.inner.len() {
        let mut less = set.clone();
        less.inner.remove(k);
        sets.push(less);
        for simpler in simpler_sets(&set.inner[k]) {
            let mut less = set.clone();
            less.inner[k] = simpler;
            sets.push(less);
        }
    }
    for bit in (0..64).rev().filter(|bit| set.plain >> bit & 1 == 1) {
        sets.push(Set { plain: set.plain & !(1 << bit), ..set.clone() });
    }
    if set.threshold > 1 {
        sets.push(Set { threshold: set.threshold - 1, ..set.clone() });
    }
    sets.retain(fits);
    sets
}

/// Parts of a block of an image that is not sound cleared: half of it, an eighth, down to a set. The check of a block whose
/// check is right follows.
fn clear_bytes(input: &Input, steps: &mut Vec<Input>) {
    if thresholds::table_on_file(&input.image).is_ok() {
        return;
    }
    for start in (0..input.image.len() / BLOCK).map(|place| BLOCK * place) {
        let right = model::block_check(&input.image[start..start + BLOCK]).number == 0;
        for part in [240, 60, thresholds::SET] {
            for first in (8..504).step_by(part) {
                let (first, last) = (start + first, start + (first + part).min(504));
                if input.image[first..last].iter().any(|byte| *byte != 0) {
                    let mut less = input.clone();
                    less.image[first..last].fill(0);
                    if right {
                        mend(&mut less.image[start..start + BLOCK]);
                    }
                    steps.push(less);
                }
            }
        }
    }
}
