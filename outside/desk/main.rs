//! The samples, and what each program is run on when it is built: `write ROOT` makes the files under ROOT. `try ROOT` runs
//! the programs, from the folder of ROOT that PROGRAMS names (outside/build/bin), on all cases and compares.

mod cases;
mod expected;
mod files;
#[path = "../model/model.rs"]
mod model;
mod programs;

use cases::File;
use expected::Leaflet;
use std::fs;
use std::path::Path;

/// The samples: a name, what it holds.
fn samples() -> Vec<File> {
    use files::*;
    let b = image(&table_b());
    let twenty = model::journal_of(&window_of(20));
    let late = [vote(0, 1, DRILL), propose(0, DRILL)];
    let opposite = [propose(2, LIVE), propose(2, DRILL), propose(0, DRILL), propose(1, DRILL), vote(2, 0, LIVE)];
    let comma = |calls: &[[u8; 4]]| expected::listed(&bytes(calls)).replace(' ', ",");
    let window = [propose(0, DRILL), propose(1, DRILL), propose(2, DRILL), vote(1, 0, DRILL), vote(2, 0, DRILL)];
    let mail = "# from the owner's mail of 12 November\nsites 4\n0: 0 1 2 | 0 3\n1: 0 1 2\n2: 0 1 2\n3: 0 3\n";
    let head = "# kind,from,to,side\n";
    vec![
        ("mail.table.txt", mail.into()),
        ("mail.csv", (head.to_string() + &comma(&whole_vote(&[0, 1, 2], DRILL))).into()),
        ("window.csv", (head.to_string() + &comma(&window)).into()),
        ("a.table.txt", expected::shown(&table_a()).into()),
        ("b.table.txt", expected::shown(&table_b()).into()),
        ("apart.table.txt", expected::shown(&table_apart()).into()),
        ("leaning.table.txt", expected::shown(&table_leaning()).into()),
        ("sixty-four.table.txt", expected::shown(&table_round_b(64)).into()),
        ("drill.calls.txt", expected::listed(&bytes(&two_faced())).into()),
        ("live.calls.txt", expected::listed(&bytes(&whole_vote(&[0, 1, 2], LIVE))).into()),
        ("late.calls.txt", expected::listed(&bytes(&late)).into()),
        ("opposite.calls.txt", expected::listed(&bytes(&opposite)).into()),
        ("leaning.calls.txt", expected::listed(&bytes(&leaning())).into()),
        ("short.calls.txt", expected::listed(&bytes(&short())).into()),
        ("split.calls.txt", expected::listed(&bytes(&split())).into()),
        ("sixty-four.calls.txt", expected::listed(&bytes(&window_of(64))).into()),
        ("a.table", image(&table_a())),
        ("b.table", b.clone()),
        ("apart.table", image(&table_apart())),
        ("leaning.table", image(&table_leaning())),
        ("sixty-four.table", image(&table_round_b(64))),
        ("damaged.table", damaged(&b, 512 + 9)),
        ("drill.calls", bytes(&two_faced())),
        ("live.calls", bytes(&whole_vote(&[0, 1, 2], LIVE))),
        ("late.calls", bytes(&late)),
        ("opposite.calls", bytes(&opposite)),
        ("leaning.calls", bytes(&leaning())),
        ("short.calls", bytes(&short())),
        ("split.calls", bytes(&split())),
        ("sixty-four.calls", bytes(&window_of(64))),
        ("cut.calls", bytes(&late)[..7].to_vec()),
        ("empty.calls", vec![]),
        ("twenty.journal", twenty.clone()),
        ("damaged.journal", damaged(&twenty, 512 + 9)),
    ]
}

fn put(folder: &Path, files: &[File]) {
    fs::create_dir_all(folder).expect("a folder");
    for (name, bytes) in files {
        fs::write(folder.join(name), bytes).expect("a file");
    }
}

/// The folder in which the desk's cases run.
fn put_data(folder: &Path, files: &[File]) {
    put(folder, files);
    put(&folder.join("folder"), &[("inside", vec![])]);
}

/// The words of a program, one to a line.
fn args(words: &[&str]) -> String {
    words.iter().map(|word| format!("{word}\n")).collect()
}

fn write(root: &Path, leaflet: &Leaflet) {
    put(&root.join("samples"), &samples());
    let verdicts = cases::verdict_files();
    let (program, (_, input)) = (root.join("crates/verdict"), &verdicts[10]);
    put(&program, &[("stdin", input.clone()), ("stdout", model::verdict(input).into_bytes())]);
    let files = cases::desk_files();
    let (program, call) = (root.join("crates/desk"), ["run", "b.table", "8", "two-faced.calls"]);
    let named: Vec<File> = files.iter().filter(|(name, _)| call.contains(name)).cloned().collect();
    let text = cases::desk_answer(leaflet, &mut files.clone(), &call).expect("an answer");
    put(&program.join("data"), &named);
    put(&program, &[("args", args(&call).into_bytes()), ("stdout", text.into_bytes())]);
}

fn main() {
    let words: Vec<String> = std::env::args().collect();
    let leaflet = Leaflet::of(&fs::read_to_string("docs/LEAFLET.md").expect("the leaflet"));
    assert_eq!(leaflet.len(), 23, "the leaflet has a row for each number");
    match words.iter().map(String::as_str).collect::<Vec<_>>()[1..] {
        ["write", root] => write(Path::new(root), &leaflet),
        ["try", root] => programs::try_all(Path::new(root), &leaflet, &samples()),
        _ => panic!("call it as: desk write ROOT, or desk try ROOT"),
    }
}
