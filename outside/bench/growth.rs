//! How the cost grows: runs over longer lists and more sites, verdicts on more sites, each beside the definitional
//! algorithm, that is the rules word by word (../model/model.rs: a run looks at every call in every pass, a verdict at all
//! sets), on the same inputs in the same run. The answers are compared before they are timed.
//!
//! Prints a line a point, its parts set apart by tabs: the panel of the figures, the line, x, and the nanoseconds; `-` for
//! a point that the definitional algorithm would take too long for. growth.py draws them.

#[allow(dead_code)]
mod inputs;
#[allow(dead_code)]
#[path = "../compare/library.rs"]
mod library;
#[path = "../model/model.rs"]
mod model;

use inputs::{memory, Call, Rng, Rows};
use library::*;
use model::Answer;
use std::hint::black_box;
use std::time::Instant;

/// How long one call of the definitional algorithm may take, as foretold by the two points before; and how much time is
/// given to a point. In nanoseconds.
const LONGEST: f64 = 1e9;
const ENOUGH: f64 = 4e7;
const REPETITION: f64 = 1e5;

/// The nanoseconds of one call, over as many as fill a repetition.
fn time(side: &mut dyn FnMut() -> Answer) -> f64 {
    let (start, mut calls) = (Instant::now(), 0.0);
    loop {
        black_box(side());
        calls += 1.0;
        let time = start.elapsed().as_nanos() as f64;
        if time >= REPETITION {
            return time / calls;
        }
    }
}

/// A line of the definitional algorithm: the nanoseconds of its points so far.
struct Line<'a> {
    panel: &'a str,
    name: &'a str,
    points: Vec<f64>,
}

impl Line<'_> {
    fn new<'a>(panel: &'a str, name: &'a str) -> Line<'a> {
        Line { panel, name, points: Vec::new() }
    }

    fn next_is_too_long(&self) -> bool {
        match self.points.as_slice() {
            [.., before, last] => last * (last / before).max(1.0) > LONGEST,
            _ => false,
        }
    }

    /// Times the next point of both sides in turn, and prints it.
    fn point(&mut self, x: usize, library: &mut dyn FnMut() -> Answer, rules: &mut dyn FnMut() -> Answer) {
        let (panel, name) = (self.panel, self.name);
        let (mut best, mut best_rules) = (f64::INFINITY, f64::INFINITY);
        if self.next_is_too_long() {
            (0..50).for_each(|_| best = best.min(time(library)));
            println!("{panel}\tlibrary, {name}\t{x}\t{best:.0}\n{panel}\trules, {name}\t{x}\t-");
            return;
        }
        assert_eq!(library(), rules(), "{panel}, {name}, {x}: the library and the rules differ");
        let start = Instant::now();
        for repetition in 0..100 {
            best = best.min(time(library));
            if repetition < 2 || (start.elapsed().as_nanos() as f64) < ENOUGH {
                best_rules = best_rules.min(time(rules));
            }
        }
        self.points.push(best_rules);
        println!("{panel}\tlibrary, {name}\t{x}\t{best:.0}\n{panel}\trules, {name}\t{x}\t{best_rules:.0}");
    }
}

/// An answer as the functions for C give it.
fn answer(call: impl FnOnce(*mut u64) -> u64) -> Answer {
    let mut out = [0; 4];
    let number = call(out.as_mut_ptr());
    Answer { number, place: out[0], values: [out[1], out[2], out[3]] }
}

fn run_point(line: &mut Line, x: usize, rows: &Rows, calls: &[Call]) {
    let table = memory(rows);
    let rooms = || (vec![7; model::state_length(rows.len())], vec![7; calls.len()]);
    let ((mut state, mut answers), (mut other_state, mut other_answers)) = (rooms(), rooms());
    let list = calls.as_flattened();
    // SAFETY (here and below): each pointer goes with the length of what it points to.
    let mut library = || {
        let (cells, cells_length) = (state.as_mut_ptr(), state.len());
        let (room, room_length) = (answers.as_mut_ptr(), answers.len());
        let (table, length) = (table.as_ptr(), table.len());
        let (list, bytes) = (list.as_ptr(), list.len());
        answer(|out| unsafe { siren_run(table, length, 0, list, bytes, cells, cells_length, room, room_length, out) })
    };
    let mut rules = || model::run(black_box(&table), 0, list, &mut other_state, &mut other_answers);
    let too_long = line.next_is_too_long();
    line.point(x, &mut library, &mut rules);
    assert!(too_long || (state == other_state && answers == other_answers), "the rooms differ");
}

fn runs_by_calls() {
    for (name, n) in [("12 sites", 12), ("64 sites", 64)] {
        let mut line = Line::new("run by calls", name);
        let rows = inputs::random(&mut Rng(99), n, 20, 1);
        for count in [16, 64, 256, 1024, 4096] {
            run_point(&mut line, count, &rows, &inputs::drawn_list(n, count));
        }
    }
}

fn runs_by_sites() {
    let sites = [4, 8, 12, 16, 24, 32, 48, 64];
    let mut line = Line::new("run by sites", "drawn calls");
    for n in sites {
        run_point(&mut line, n, &inputs::random(&mut Rng(99), n, 20, 1), &inputs::drawn_list(n, 1024));
    }
    let mut line = Line::new("run by sites", "n + 3 passes");
    for n in sites {
        run_point(&mut line, n, &inputs::longest(n), &inputs::longest_list(n as u8, 1024));
    }
}

fn verdicts() {
    let mut line = Line::new("verdict by sites", "shared sites");
    for n in 1..=12 {
        let table = memory(&inputs::hub(n, n - 1));
        let mut library = || answer(|out| unsafe { siren_shared(table.as_ptr(), table.len(), out) });
        line.point(n, &mut library, &mut || model::shared(black_box(&table)));
    }
    let mut line = Line::new("verdict by sites", "intact sites");
    for n in 1..=12 {
        let table = memory(&inputs::hub(n, n - 1));
        let mut library = || answer(|out| unsafe { siren_intact(table.as_ptr(), table.len(), 0, out) });
        line.point(n, &mut library, &mut || model::intact(black_box(&table), 0));
    }
}

fn main() {
    runs_by_calls();
    runs_by_sites();
    verdicts();
}
