//! The programs themselves, run as a person runs them: words, files, standard input, standard error.

use crate::cases::{desk_answer, desk_calls, desk_files, verdict_files, File};
use crate::expected::{self, Leaflet};
use crate::{files, model};
use std::io::Write;
use std::path::Path;
use std::process::{Command, Output, Stdio};

/// A program run in a folder, with words and standard input.
fn run(program: &Path, folder: &Path, words: &[&str], input: &[u8]) -> Output {
    let mut command = Command::new(program);
    command.current_dir(folder).args(words).stdin(Stdio::piped()).stdout(Stdio::piped()).stderr(Stdio::piped());
    let mut child = command.spawn().unwrap_or_else(|error| panic!("{}: {error}", program.display()));
    // a program that has read enough closes the pipe
    let _ = child.stdin.take().expect("a pipe").write_all(input);
    child.wait_with_output().expect("the program ends")
}

fn text(bytes: &[u8]) -> String {
    String::from_utf8_lossy(bytes).into_owned()
}

/// The answer on standard output and nothing on standard error, or a line that doubts the calls where most of a run's
/// answer 11; or nothing, and one line that begins as it should.
fn held(what: &str, output: &Output, answer: &Option<String>, blame: &str) {
    let (out, err) = (text(&output.stdout), text(&output.stderr));
    assert!(output.status.success(), "{what}: ended with {}", output.status);
    match answer {
        Some(answer) => {
            assert_eq!(&out, answer, "{what}");
            let doubt = if expected::doubtful(answer) { blame.to_string() + DOUBT } else { String::new() };
            assert_eq!(err, doubt, "{what}");
        }
        None => {
            assert_eq!(out, "", "{what}");
            assert!(err.starts_with(blame) && err.ends_with('\n') && err.lines().count() == 1, "{what}: {err:?}");
        }
    }
}

/// What is said of a list of which most calls answer 11, behind the words of the call.
const DOUBT: &str =
    "most of these calls name a site, kind or side that there is not (11); this may be no list of calls\n";

/// How the line of a wrong call begins.
fn blame(words: &[&str]) -> &'static str {
    match words {
        ["make", ..] => "desk make TEXT TABLE: ",
        ["show", ..] => "desk show TABLE: ",
        ["check", ..] => "desk check TABLE: ",
        ["verdict", ..] => "desk verdict TABLE FAULTY: ",
        ["risk", ..] => "desk risk TABLE: ",
        ["calls", ..] => "desk calls TEXT CALLS: ",
        ["list", ..] => "desk list CALLS: ",
        ["same", ..] => "desk same CALLS CALLS: ",
        ["run", ..] => "desk run TABLE FAULTY CALLS: ",
        ["missing", ..] => "desk missing TABLE FAULTY CALLS: ",
        ["keep", ..] => "desk keep CALLS JOURNAL: ",
        ["journal", ..] => "desk journal JOURNAL: ",
        ["replay", ..] => "desk replay TABLE FAULTY JOURNAL: ",
        _ => "desk: ",
    }
}

/// A small generator of numbers, by its seed.
struct Dice(u64);

impl Dice {
    fn below(&mut self, bound: u64) -> u64 {
        self.0 = self.0.wrapping_mul(6364136223846793005).wrapping_add(1442695040888963407);
        (self.0 >> 33) % bound
    }
}

/// A table of up to 16 sites with some slices each, a list of calls, and now and then a byte changed.
fn random(dice: &mut Dice) -> (Vec<u8>, u64, Vec<u8>) {
    let n = 1 + dice.below(16);
    let mut slices: Vec<Vec<u64>> = vec![];
    for site in 0..n {
        let mut own: Vec<u64> = (0..1 + dice.below(4)).map(|_| dice.below(1 << n) | 1 << site).collect();
        own.sort_unstable();
        own.dedup();
        slices.push(own);
    }
    let mut image = files::image(&slices);
    if dice.below(8) == 0 {
        let at = dice.below(image.len() as u64) as usize;
        image[at] = image[at].wrapping_add(1 + dice.below(255) as u8);
    }
    let faulty = dice.below(1 << n) & dice.below(1 << n) & dice.below(2 << n);
    // now and then bytes that are no calls, or that may be some
    let strange = [0, 0, 0, 1, 2, 4][dice.below(6) as usize];
    let calls: Vec<[u8; 4]> = (0..dice.below(200))
        .map(|_| {
            if dice.below(4) < strange {
                return [0; 4].map(|_| dice.below(256) as u8);
            }
            let (kind, from, to, side) = (dice.below(3), dice.below(n), dice.below(n), dice.below(10) / 9);
            [kind as u8, from as u8, if kind == 0 { from as u8 } else { to as u8 }, side as u8]
        })
        .collect();
    (image, faulty, calls.concat())
}

/// The names in a folder.
fn names(folder: &Path) -> Vec<String> {
    let entries = std::fs::read_dir(folder).expect("a folder");
    let mut names: Vec<String> =
        entries.map(|entry| entry.expect("a name").file_name().to_string_lossy().into_owned()).collect();
    names.sort();
    names
}

/// The folder holds the files, each with its bytes, and nothing else but the names told.
fn holds(folder: &Path, files: &[File], besides: &[&str]) {
    let mut expected: Vec<String> = files.iter().map(|(name, _)| name.to_string()).collect();
    expected.extend(besides.iter().map(|name| name.to_string()));
    expected.sort();
    assert_eq!(names(folder), expected, "what the folder holds");
    for (name, bytes) in files {
        assert!(&std::fs::read(folder.join(name)).expect("a file") == bytes, "{name} has other bytes");
    }
}

/// `desk keep` where there is something in the way, or no room: one line that names it, no file more, none changed.
fn try_keep(desk: &Path, folder: &Path) -> usize {
    let list = files::bytes(&files::window_of(64));
    let journal = model::journal_of(&files::window_of(64));
    let there: Vec<File> =
        vec![("list", list), ("there", vec![1, 2, 3]), ("left.part", vec![4, 5]), ("five", vec![0; 5])];
    crate::put(folder, &there);
    std::fs::create_dir(folder.join("taken")).expect("a folder");
    std::os::unix::fs::symlink("there", folder.join("link")).expect("a link");
    std::os::unix::fs::symlink("nowhere", folder.join("loose")).expect("a link");
    let besides = ["taken", "link", "loose"];
    let line = |name: &str, told: &str| {
        let output = run(desk, folder, &["keep", "list", name], &[]);
        held(name, &output, &None, &format!("desk keep CALLS JOURNAL: {told}"));
        holds(folder, &there, &besides);
        assert_eq!(names(&folder.join("taken")), Vec::<String>::new(), "the folder is empty");
    };
    let long = "x".repeat(252);
    line("there", "there: the name is taken");
    line("list", "list: the name is taken");
    line("taken", "taken: the name is taken");
    line("link", "link: the name is taken");
    line("loose", "loose: the name is taken");
    line("left", "cannot make left.part: File exists");
    line("no-such/new", "cannot make no-such/new.part: ");
    line("there/new", "cannot make there/new.part: ");
    line("/proc/new", "cannot make /proc/new.part: ");
    line(&long, &format!("cannot make {long}.part: "));
    line(&"x/".repeat(2500), "cannot make ");
    line("", "cannot make : ");
    // a file may have 1,024 bytes and not more, as on a disk that is full then; and the same with a journal that fits
    let limited = |list: &str, name: &str| {
        let script = "trap '' XFSZ; ulimit -f 1; exec \"$0\" keep \"$1\" \"$2\"";
        let mut command = Command::new("bash");
        command.arg("-c").arg(script).arg(desk).args([list, name]).current_dir(folder).output().expect("bash")
    };
    held("a full disk", &limited("list", "new"), &None, "desk keep CALLS JOURNAL: cannot write new.part: ");
    holds(folder, &there, &besides);
    let refused = text(&run(desk, folder, &["keep", "five", "new"], &[]).stdout);
    assert!(refused.starts_with("refused 17 0\n"), "{refused}");
    holds(folder, &there, &besides);
    let closed = Command::new("sh").arg("-c").arg("\"$0\" keep list new >&-").arg(desk).current_dir(folder).output();
    held("keep, no standard output", &closed.expect("sh"), &None, "the answer could not be written whole: ");
    holds(folder, &[&there[..], &[("new", journal)]].concat(), &besides);
    std::fs::remove_file(folder.join("new")).expect("the file goes");
    let small = files::bytes(&files::window_of(20));
    std::fs::write(folder.join("small"), &small).expect("a file");
    held("a disk with room", &limited("small", "new"), &Some("blocks 2\ncalls 140\n".to_string()), "");
    let kept = model::journal_of(&files::window_of(20));
    holds(folder, &[&there[..], &[("small", small), ("new", kept)]].concat(), &besides);
    16
}

/// The text that stands beside a sample.
fn beside(samples: &[File], name: &str) -> Option<String> {
    let (_, text) = samples.iter().find(|(other, _)| *other == format!("{name}.txt"))?;
    Some(String::from_utf8(text.clone()).expect("a text"))
}

pub fn try_all(root: &Path, leaflet: &Leaflet, samples: &[File]) {
    let root = root.canonicalize().expect("the repository");
    // the folder that outside/programs prints
    let programs = root.join(std::env::var("PROGRAMS").unwrap_or("outside/build/bin".into()));
    let (desk, verdict) = (programs.join("desk"), programs.join("verdict"));
    let folder = std::env::temp_dir().join(format!("siren-desk-{}", std::process::id()));
    let data = folder.join("data");
    let none = Path::new("/dev/null");

    // the cases, each by the program itself
    let files = verdict_files();
    for (name, bytes) in &files {
        held(name, &run(&verdict, &root, &[], bytes), &Some(model::verdict(bytes)), "");
    }
    let (mut kept, calls) = (desk_files(), desk_calls());
    crate::put_data(&data, &kept);
    for words in &calls {
        let output = run(&desk, &data, words, &[]);
        held(&words.join(" "), &output, &desk_answer(leaflet, &mut kept, words), blame(words));
    }
    holds(&data, &kept, &["folder"]);

    // what the cases cannot hold: words that are empty or very long, files that no one can read, files without an end
    let long = "x".repeat(5000);
    let odd: [&[&str]; 14] = [
        &["check", ""],
        &["check", &long],
        &["check", "/proc/self/mem"],
        &["check", "/dev/zero"],
        &["check", "a.table/x"],
        &["verdict", "a.table", ""],
        &["verdict", "a.table", &long],
        &["run", "b.table", "0", "/proc/self/mem"],
        &["run", "b.table", "0", "/dev/zero"],
        &["journal", "/dev/zero"],
        &["journal", &long],
        &["replay", "b.table", "0", "/proc/self/mem"],
        &["keep", "/dev/zero", "none"],
        &["help"],
    ];
    for words in odd {
        held(&words.join(" "), &run(&desk, &data, words, &[]), &None, blame(words));
    }

    // standard input or output that is not there
    let shell = |script: &str| {
        let output =
            Command::new("sh").arg("-c").arg(script).arg("sh").arg(&verdict).arg(&desk).current_dir(&data).output();
        output.expect("sh")
    };
    let too_short = Some("refused 1 0\n".to_string());
    held("verdict, no standard input", &shell("\"$1\" <&-"), &too_short, "");
    held("verdict, a folder as standard input", &shell("\"$1\" < folder"), &too_short, "");
    held("verdict, input without an end", &shell("\"$1\" < /dev/zero"), &too_short, "");
    held("desk, no standard input", &shell("\"$2\" check b.table <&-"), &Some("sound 4\n".to_string()), "");
    held(
        "desk, no standard output",
        &shell("\"$2\" check b.table >&-"),
        &None,
        "the answer could not be written whole: ",
    );
    held(
        "desk, standard output is full",
        &shell("\"$2\" check b.table > /dev/full"),
        &None,
        "the answer could not be written whole: ",
    );
    held(
        "verdict, standard output is full",
        &shell("\"$1\" < folder > /dev/full"),
        &None,
        "the answer could not be written whole: ",
    );

    // what stands in the way of a new file
    let kept_or_not = try_keep(&desk, &folder.join("keep"));

    // each text beside a table is what is shown of it
    for (name, text) in samples.iter().filter(|(name, _)| name.ends_with(".table.txt")) {
        let table = name.trim_end_matches(".txt");
        if samples.iter().any(|(other, _)| *other == table) {
            let path = root.join("samples").join(table);
            let output = run(&desk, none.parent().expect("a folder"), &["show", path.to_str().expect("a path")], &[]);
            held(name, &output, &Some(String::from_utf8(text.clone()).expect("a text")), "");
        }
    }

    // the samples are what a reader is told that they are
    for (name, bytes) in samples {
        let path = root.join("samples").join(name);
        let (word, answer) = match name.rsplit('.').next() {
            Some("table") => ("check", expected::check(leaflet, bytes)),
            Some("journal") => ("journal", expected::journal(leaflet, bytes)),
            Some("calls") if beside(samples, name).is_some() => ("list", beside(samples, name).expect("its text")),
            _ => continue,
        };
        held(
            name,
            &run(&desk, none.parent().expect("a folder"), &[word, path.to_str().expect("a path")], &[]),
            &Some(answer),
            "",
        );
    }

    // tables and lists that are in no file of the repository
    let seed = std::env::var("SEED").ok().and_then(|seed| seed.parse().ok()).unwrap_or(20261115);
    let mut dice = Dice(seed);
    let (mut drills, mut doubts) = (0, 0);
    for round in 0..500 {
        let (image, faulty, list) = random(&mut dice);
        std::fs::write(folder.join("t"), &image).expect("a file");
        std::fs::write(folder.join("l"), &list).expect("a file");
        let mask = format!("{faulty:x}");
        let what = format!("seed {seed}, round {round}");
        held(&what, &run(&desk, &folder, &["check", "t"], &[]), &Some(expected::check(leaflet, &image)), "");
        held(&what, &run(&desk, &folder, &["verdict", "t", &mask], &[]), &Some(expected::verdict(&image, faulty)), "");
        let ran = expected::run(leaflet, &image, faulty, &list);
        drills += usize::from(ran.contains(" drill intact\n"));
        doubts += usize::from(expected::doubtful(&ran));
        let (told, journal) = expected::keep(leaflet, &list);
        let mut journal = journal.expect("a list of whole calls is kept");
        let _ = std::fs::remove_file(folder.join("j"));
        held(&what, &run(&desk, &folder, &["keep", "l", "j"], &[]), &Some(told.clone()), "");
        assert!(std::fs::read(folder.join("j")).expect("a file") == journal, "{what}: the journal has other bytes");
        held(&what, &run(&desk, &folder, &["journal", "j"], &[]), &Some(told), "");
        let replay = ["replay", "t", &mask, "j"];
        held(&what, &run(&desk, &folder, &replay, &[]), &Some(ran.clone()), blame(&replay));
        let again = ["run", "t", &mask, "l"];
        held(&what, &run(&desk, &folder, &again, &[]), &Some(ran), blame(&again));
        let lacks = expected::missing(leaflet, &image, faulty, &list);
        held(&what, &run(&desk, &folder, &["missing", "t", &mask, "l"], &[]), &Some(lacks), "");
        // the dearest question, so of some tables only
        if round % 5 == 0 {
            held(&what, &run(&desk, &folder, &["risk", "t"], &[]), &Some(expected::risk(leaflet, &image)), "");
        }
        if let Some(last) = journal.len().checked_sub(1) {
            let at = dice.below(last as u64 + 1) as usize;
            journal[at] = journal[at].wrapping_add(1 + dice.below(255) as u8);
            std::fs::write(folder.join("d"), &journal).expect("a file");
            held(&what, &run(&desk, &folder, &["journal", "d"], &[]), &Some(expected::journal(leaflet, &journal)), "");
            let replayed = expected::replay(leaflet, &image, faulty, &journal);
            let replay = ["replay", "t", &mask, "d"];
            held(&what, &run(&desk, &folder, &replay, &[]), &Some(replayed), blame(&replay));
        }
    }
    std::fs::remove_dir_all(&folder).expect("the folder goes");
    assert!(drills > 50, "some of the lists end in a drill of an intact site");
    assert!(doubts > 50, "some of the lists are doubted");
    println!(
        "desk: {} verdicts, {} calls, {} odd ones, {kept_or_not} files kept or not, 500 random tables and lists (seed {seed}; {drills} with a drill, {doubts} doubted)",
        files.len(),
        calls.len(),
        odd.len() + 7
    );
}
