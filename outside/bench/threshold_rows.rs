//! The rows over tables of thresholds: check and largest quorum of 64 blocks, verdicts and runs of 12 sites. Every call
//! checks its image, and the Rust beside it adds the sums in order, as the rules name it; of the check alone there is a row
//! apart, in eight lanes.

use crate::fast::thresholds::{self as fast, BY_LIST, BY_SEARCH, IN_LANES, IN_ORDER};
use crate::model::thresholds as model;
use crate::threshold_library::*;
use crate::{answer, only, rows_of_sums, threshold_inputs as inputs, way, Bench};
use std::hint::black_box;

pub fn rows(bench: &Bench) {
    checks(bench);
    set_questions(bench);
    runs(bench);
    verdicts(bench);
}

fn checks(bench: &Bench) {
    for (name, image) in &inputs::images() {
        // SAFETY (here and below): each pointer goes with the length of what it points to.
        rows_of_sums(
            bench,
            &format!("thresholds, check, {name}"),
            model::check(image),
            || answer(|out| unsafe { siren_threshold_check(image.as_ptr(), image.len(), out) }),
            || fast::check(black_box(image), IN_ORDER),
            || fast::check(black_box(image), IN_LANES),
        );
    }
}

fn set_questions(bench: &Bench) {
    for (name, image, set) in &inputs::questions() {
        let row = format!("thresholds, largest quorum, {name}");
        if bench.wants(&row) {
            let (bytes, length) = (image.as_ptr(), image.len());
            let library = || answer(|out| unsafe { siren_threshold_largest(bytes, length, black_box(*set), out) });
            let rust = || fast::largest(black_box(image), black_box(*set), IN_ORDER);
            bench.row(&row, Some(model::largest(image, *set)), Box::new(library), only(rust));
        }
    }
}

fn runs(bench: &Bench) {
    for (name, image, calls) in inputs::lists() {
        let row = format!("thresholds, run, {name}");
        if !bench.wants(&row) {
            continue;
        }
        let (image, calls) = (&image, calls.as_flattened());
        let rooms = || (vec![7; 4 * 12 + 6], vec![7; calls.len() / 4]);
        let (mut state, mut answers) = rooms();
        let library = || {
            let (cells, cells_length) = (state.as_mut_ptr(), state.len());
            let (room, room_length) = (answers.as_mut_ptr(), answers.len());
            let (image, length, list, many) = (image.as_ptr(), image.len(), calls.as_ptr(), calls.len());
            answer(|out| unsafe {
                siren_threshold_run(image, length, 0, list, many, cells, cells_length, room, room_length, out)
            })
        };
        let mut others = [rooms(), rooms()];
        let ways = [("search", BY_SEARCH), ("list", BY_LIST)].into_iter().zip(&mut others);
        let ways = ways.map(|((name, passes), (state, answers))| {
            way(name, move || fast::run(black_box(image), 0, black_box(calls), state, answers, (IN_ORDER, passes)))
        });
        let mut by_rules = rooms();
        let expected = model::run(image, 0, calls, &mut by_rules.0, &mut by_rules.1);
        bench.row(&row, Some(expected), Box::new(library), ways.collect());
        assert!(others.iter().chain([&(state, answers)]).all(|rooms| *rooms == by_rules), "{row}: the rooms differ");
    }
}

fn verdicts(bench: &Bench) {
    for (name, image, faulty) in &inputs::twelve_sites() {
        let faulty = *faulty;
        let row = format!("thresholds, shared, {name}");
        if faulty == 0 && bench.wants(&row) {
            let library = || answer(|out| unsafe { siren_threshold_shared(image.as_ptr(), image.len(), out) });
            let ways = vec![
                way("words", || fast::shared(black_box(image), IN_ORDER)),
                way("list", || fast::shared_by_list(black_box(image), IN_ORDER)),
                way("search", || fast::shared_by_search(black_box(image), IN_ORDER)),
            ];
            bench.row(&row, Some(model::shared(image)), Box::new(library), ways);
        }
        let row = format!("thresholds, intact, {name}, {} faulty", faulty.count_ones());
        if bench.wants(&row) {
            let library = || answer(|out| unsafe { siren_threshold_intact(image.as_ptr(), image.len(), faulty, out) });
            let ways = vec![
                way("words", || fast::intact(black_box(image), faulty, IN_ORDER)),
                way("list", || fast::intact_by_list(black_box(image), faulty, IN_ORDER)),
                way("search", || fast::intact_by_search(black_box(image), faulty, IN_ORDER)),
            ];
            bench.row(&row, Some(model::intact(image, faulty)), Box::new(library), ways);
        }
    }
}
