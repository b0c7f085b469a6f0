//! What the desk is to print, worked out by the model and by the words of the leaflet.

use crate::model;

/// What each refusal means: the second column of the leaflet's table.
pub struct Leaflet(Vec<String>);

impl Leaflet {
    pub fn of(text: &str) -> Leaflet {
        let cell = |line: &str, k: usize| line.split('|').nth(k).map(|cell| cell.trim().to_string());
        let rows = text.lines().filter(|line| line.starts_with("| "));
        let numbered = rows.filter(|line| cell(line, 1).is_some_and(|number| number.parse::<u64>().is_ok()));
        Leaflet(numbered.map(|line| cell(line, 2).expect("a leaflet's row has a meaning")).collect())
    }

    pub fn len(&self) -> usize {
        self.0.len()
    }

    fn refused(&self, answer: model::Answer) -> String {
        format!("refused {} {}\n{}\n", answer.number, answer.place, self.0[answer.number as usize - 1])
    }
}

/// The table in memory that an image holds, or the refusal.
fn read(image: &[u8]) -> Result<Vec<u64>, model::Answer> {
    let mut memory = vec![0; model::ROW * model::MOST_SITES];
    let answer = model::image_read(image, &mut memory);
    if answer.number != 0 {
        return Err(answer);
    }
    memory.truncate(model::ROW * answer.values[0] as usize);
    Ok(memory)
}

/// `desk check`
pub fn check(leaflet: &Leaflet, image: &[u8]) -> String {
    match read(image) {
        Ok(memory) => format!("sound {}\n", memory.len() / model::ROW),
        Err(answer) => leaflet.refused(answer),
    }
}

/// The sites of a set, each with a blank before it.
fn members(set: u64) -> String {
    (0..64).filter(|site| set >> site & 1 == 1).map(|site| format!(" {site}")).collect()
}

/// `desk verdict`: the lines of the verdict program; then its sets by their sites' numbers, and two quorums that have no
/// common site where there are such
pub fn verdict(image: &[u8], faulty: u64) -> String {
    let seven = model::verdict(&[&faulty.to_le_bytes(), image].concat());
    let Ok(memory) = read(image) else { return seven };
    if seven.starts_with("refused") {
        return seven;
    }
    let n = memory.len() / model::ROW;
    let all = u64::MAX >> (64 - n);
    let intact = model::intact(&memory, faulty).values[0];
    let mut text = seven + &format!("faulty sites{}\n", members(faulty));
    text += &format!("intact sites{}\nbefouled sites{}\n", members(intact), members(all & !intact));
    text += &format!("quorum sites{}\n", members(model::largest(&memory, all & !faulty).values[0]));
    match model::shared(&memory).values {
        [0, p, q] => text + &format!("parted{} |{}\n", members(p), members(q)),
        _ => text,
    }
}

/// `desk risk`: of each site how many others are befouled if it alone is faulty; the fewest faulty sites that leave
/// nobody intact, and the lowest such set
pub fn risk(leaflet: &Leaflet, image: &[u8]) -> String {
    let memory = match read(image) {
        Ok(memory) => memory,
        Err(answer) => return leaflet.refused(answer),
    };
    let risk = match model::risk(&memory) {
        Ok(risk) => risk,
        Err(refusal) => return leaflet.refused(Err(refusal).into()),
    };
    let sites = risk.others.iter().enumerate().map(|(site, others)| format!("site {site} {others}\n"));
    let first = format!("first {:016x}\nfirst sites{}\n", risk.first, members(risk.first));
    sites.collect::<String>() + &format!("fewest {}\n", risk.fewest) + &first
}

/// The faulty sites as they are typed: a mask in 1 to 16 hexadecimal digits, or sites behind an s
pub fn faulty(word: &str) -> Option<u64> {
    let Some(sites) = word.strip_prefix('s') else {
        let digits = (1..=16).contains(&word.len()) && word.bytes().all(|byte| byte.is_ascii_hexdigit());
        return digits.then(|| u64::from_str_radix(word, 16).expect("up to 16 digits fit"));
    };
    let mut set = 0;
    for site in sites.split(',').filter(|_| !sites.is_empty()) {
        let digits = !site.is_empty() && site.bytes().all(|byte| byte.is_ascii_digit());
        // zeros in front count for nothing, and a number of more than two digits is no site
        let site = match site.trim_start_matches('0') {
            "" => 0,
            few => few.parse().unwrap_or(64),
        };
        let one = 1u64.checked_shl(site).filter(|one| digits && set & one == 0)?;
        set |= one;
    }
    Some(set)
}

/// A table as text, given each site's slices: `desk show`
pub fn shown(slices: &[Vec<u64>]) -> String {
    let line = |own: &Vec<u64>| own.iter().map(|slice| members(*slice)).collect::<Vec<_>>().join(" |");
    let rows = slices.iter().enumerate().map(|(site, own)| format!("{site}:{}\n", line(own)));
    format!("sites {}\n", slices.len()) + &rows.collect::<String>()
}

/// A call as text: in words, or as four numbers where it cannot be said so
fn said(call: &[u8]) -> String {
    let [kind, from, to, side] = call else { panic!("a call has four bytes") };
    let numbers = format!("{kind} {from} {to} {side}");
    let Some(word) = ["drill", "live"].get(*side as usize) else { return numbers };
    match *kind {
        model::PROPOSE if from == to => format!("propose {from} {word}"),
        model::VOTE => format!("vote {from} {to} {word}"),
        model::ACCEPT => format!("accept {from} {to} {word}"),
        _ => numbers,
    }
}

/// Calls as text, a line each: `desk list`
pub fn listed(calls: &[u8]) -> String {
    calls.chunks(4).map(|call| said(call) + "\n").collect()
}

/// What the register's entry of a site is worth: whether it is faulty; up to 12 sites, whether it is one of the intact
fn worth(intact: Option<u64>, faulty: u64, site: usize) -> &'static str {
    let has = |set: u64| set >> site & 1 == 1;
    match intact {
        _ if has(faulty) => "faulty",
        None => "unknown",
        Some(intact) if has(intact) => "intact",
        Some(_) => "befouled",
    }
}

/// `desk run`
pub fn run(leaflet: &Leaflet, image: &[u8], faulty: u64, calls: &[u8]) -> String {
    let memory = match read(image) {
        Ok(memory) => memory,
        Err(answer) => return leaflet.refused(answer),
    };
    let n = memory.len() / model::ROW;
    let mut state = vec![0; model::state_length(n)];
    let mut answers = vec![0; calls.len() / 4];
    let ran = model::run(&memory, faulty, calls, &mut state, &mut answers);
    if ran.number != 0 {
        return leaflet.refused(ran);
    }
    let two = |at: fn(usize, usize) -> usize| format!("{:016x} {:016x}", state[at(n, 0)], state[at(n, 1)]);
    let mut text = format!("sites {n}\nfaulty {faulty:016x}\npasses {}\n", ran.values[0]);
    text += &format!("voted {}\n", two(model::voted_at));
    text += &format!("accepted {}\n", two(model::accepted_at));
    text += &format!("confirmed {}\n", two(model::confirmed_at));
    let intact = (n <= 12).then(|| model::intact(&memory, faulty).values[0]);
    for site in 0..n {
        let mark = model::mark(site as u64, state[model::confirmed_at(n, 0)], state[model::confirmed_at(n, 1)]);
        let entry = if mark.values[0] == 1 { "drill" } else { "live" };
        text += &format!("site {site} {entry} {}\n", worth(intact, faulty, site));
    }
    for (i, (answer, call)) in answers.iter().zip(calls.chunks(4)).enumerate() {
        text += &format!("call {i} {answer} {}\n", said(call));
    }
    text
}

/// `desk missing`: `meet no` where the table does not meet; of drill, then of live, the missing accept calls, side, from,
/// to; where none is missing, that the list is complete for the side
pub fn missing(leaflet: &Leaflet, image: &[u8], faulty: u64, calls: &[u8]) -> String {
    let missing = match read(image).and_then(|memory| model::missing(&memory, faulty, calls)) {
        Ok(missing) => missing,
        Err(answer) => return leaflet.refused(answer),
    };
    let mut text = if missing.meet { String::new() } else { "meet no\n".to_string() };
    for (side, calls) in ["drill", "live"].iter().zip(&missing.sides) {
        for (from, to) in calls {
            text += &format!("{side} {from} {to}\n");
        }
        if calls.is_empty() {
            text += &format!("complete {side}\n");
        }
    }
    text
}

/// Whether more than half of the calls of a run answer 11, by the text of the run
pub fn doubtful(text: &str) -> bool {
    let calls: Vec<&str> = text.lines().filter(|line| line.starts_with("call ")).collect();
    let strange = calls.iter().filter(|line| line.split(' ').nth(2) == Some("11")).count();
    2 * strange > calls.len()
}

/// `blocks K` and `calls N`
fn counts(blocks: u64, calls: usize) -> String {
    format!("blocks {blocks}\ncalls {calls}\n")
}

/// `desk keep`: what is printed, and the file; none where the list is refused
pub fn keep(leaflet: &Leaflet, calls: &[u8]) -> (String, Option<Vec<u8>>) {
    let mut room = vec![0; model::LONGEST_JOURNAL];
    let written = model::journal_write(calls, &mut room);
    if written.number != 0 {
        return (leaflet.refused(written), None);
    }
    room.truncate(model::BLOCK * written.values[0] as usize);
    (counts(written.values[0], calls.len() / 4), Some(room))
}

/// `desk journal`
pub fn journal(leaflet: &Leaflet, journal: &[u8]) -> String {
    let checked = model::journal_check(journal);
    match checked.number {
        0 => counts(checked.values[0], checked.values[1] as usize),
        _ => leaflet.refused(checked),
    }
}

/// `desk replay`: the refusals of the table and 10, which a run without calls has alone, then the journal's, then the run
pub fn replay(leaflet: &Leaflet, image: &[u8], faulty: u64, journal: &[u8]) -> String {
    let asked = run(leaflet, image, faulty, &[]);
    if asked.starts_with("refused") {
        return asked;
    }
    let mut list = vec![0; model::LONGEST_JOURNAL];
    let listed = model::journal_list(journal, &mut list);
    match listed.number {
        0 => run(leaflet, image, faulty, &list[..listed.values[0] as usize]),
        _ => leaflet.refused(listed),
    }
}
