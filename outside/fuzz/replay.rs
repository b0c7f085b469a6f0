//! The fuzz target without the fuzzer: every file of the folders named, one after the other. Says which numbers each
//! question was answered with.

use std::collections::{BTreeMap, BTreeSet};
use std::path::PathBuf;

fn main() {
    let mut files: Vec<PathBuf> = Vec::new();
    for folder in std::env::args().skip(1) {
        let entries = std::fs::read_dir(&folder).unwrap_or_else(|error| panic!("{folder}: {error}"));
        files.extend(entries.map(|entry| entry.unwrap().path()));
    }
    files.sort();
    let mut numbers: BTreeMap<target::Question, BTreeSet<u64>> = BTreeMap::new();
    for file in &files {
        let bytes = std::fs::read(file).unwrap_or_else(|error| panic!("{}: {error}", file.display()));
        match target::compare(&bytes) {
            Ok((question, number)) => drop(numbers.entry(question).or_default().insert(number)),
            Err(difference) => {
                println!("fuzz: {}: {difference}", file.display());
                std::process::exit(1);
            }
        }
    }
    assert!(!files.is_empty(), "no file to replay");
    for (question, numbers) in numbers {
        println!("fuzz: {:<12} answered {numbers:?}", format!("{question:?}"));
    }
    println!("fuzz: {} kept inputs replayed, no difference", files.len());
}
