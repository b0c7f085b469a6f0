//! The cases of the two programs: what they are given, and what they are to print.

use crate::expected::{self, Leaflet};
use crate::files::*;
use crate::model;

/// A file of the verdict's cases: its name and its bytes.
pub type File = (&'static str, Vec<u8>);

/// The faulty mask, then an image.
fn input(faulty: u64, image: &[u8]) -> Vec<u8> {
    [&faulty.to_le_bytes()[..], image].concat()
}

fn put16(block: &mut [u8], at: usize, x: u16) {
    block[at..at + 2].copy_from_slice(&x.to_le_bytes());
}

fn put64(block: &mut [u8], at: usize, x: u64) {
    block[at..at + 8].copy_from_slice(&x.to_le_bytes());
}

/// What standard input holds, case by case: every length at an edge, every refusal, every kind of verdict.
pub fn verdict_files() -> Vec<File> {
    let (a, b) = (image(&table_a()), image(&table_b()));
    let apart = image(&table_apart());
    let twelve = image(&table_round_b(12));
    let thirteen = image(&table_round_b(13));
    let most = image(&table_round_b(64));
    let full = image(&table_of_62());
    let mut sixty_three = image(&table_alone());
    for k in 0..62 {
        put64(&mut sixty_three, 8 + 8 * k, 1);
    }
    vec![
        ("length-0", vec![]),
        ("length-7", vec![0; 7]),
        ("length-8", vec![0; 8]),
        ("image-of-511", input(0, &a[..511])),
        ("image-of-513", input(0, &a[..513])),
        ("zero-block", input(0, &[0; 512])),
        ("length-32776", input(0, &most)),
        ("length-32777", input(0, &[&most[..], &[0]].concat())),
        ("length-33288", input(0, &[&most[..], &most[..512]].concat())),
        ("length-40000", vec![7; 40000]),
        ("a-8", input(8, &a)),
        ("a-nobody", input(0, &a)),
        ("a-everybody", input(31, &a)),
        ("a-20", input(20, &a)),
        ("a-1", input(1, &a)),
        ("b-nobody", input(0, &b)),
        ("b-8", input(8, &b)),
        ("b-3", input(3, &b)),
        ("b-everybody", input(15, &b)),
        ("apart-nobody", input(0, &apart)),
        ("apart-1", input(1, &apart)),
        ("apart-3", input(3, &apart)),
        ("apart-everybody", input(15, &apart)),
        ("alone-nobody", input(0, &image(&table_alone()))),
        ("alone-everybody", input(1, &image(&table_alone()))),
        ("twelve-nobody", input(0, &twelve)),
        ("twelve-8", input(8, &twelve)),
        ("twelve-everybody", input(4095, &twelve)),
        ("ring-of-twelve", input(1, &image(&table_ring(12)))),
        ("sixty-two-slices", input(2, &full)),
        ("thirteen", input(0, &thirteen)),
        ("thirteen-set-outside", input(1 << 13, &thirteen)),
        ("sixty-four-last-site", input(1 << 63, &most)),
        ("a-set-outside", input(32, &a)),
        ("a-set-far-outside", input(1 << 63, &a)),
        ("damaged-first", input(0, &damaged(&a, 8))),
        ("damaged-last", input(0, &damaged(&a, 4 * 512 + 100))),
        ("damaged-check", input(0, &damaged(&a, 511))),
        ("damaged-before-set", input(1 << 40, &damaged(&a, 8))),
        ("other-site", input(0, &resealed(&a, 2, |block| put16(block, 0, 3)))),
        ("other-n", input(0, &resealed(&a, 1, |block| put16(block, 2, 4)))),
        ("bytes-6-to-7", input(0, &resealed(&a, 3, |block| put16(block, 6, 256)))),
        ("no-slice", input(0, &resealed(&a, 4, |block| put16(block, 4, 0)))),
        ("sixty-three-slices", input(0, &resealed(&sixty_three, 0, |block| put16(block, 4, 63)))),
        ("owner-missing", input(0, &resealed(&a, 2, |block| put64(block, 8, 3)))),
        ("site-n-named", input(0, &resealed(&a, 2, |block| put64(block, 8, 36)))),
        ("slice-twice", input(0, &resealed(&b, 1, |block| put64(block, 16, 7)))),
        ("slices-descend", input(0, &resealed(&b, 3, |block| put64(block, 24, 9)))),
        ("filler", input(0, &resealed(&a, 0, |block| block[503] = 1))),
        ("slice-behind-the-count", input(0, &resealed(&b, 0, |block| put16(block, 4, 2)))),
        ("filler-before-damage", input(0, &damaged(&resealed(&a, 0, |block| block[400] = 9), 512))),
        ("owner-before-order", input(0, &resealed(&b, 2, |block| put64(block, 16, 3)))),
        ("blocks-swapped", input(0, &[&a[512..1024], &a[..512], &a[1024..]].concat())),
        ("one-block-missing", input(0, &a[..4 * 512])),
    ]
}

/// The files that the desk's cases name.
pub fn desk_files() -> Vec<File> {
    let (a, b) = (image(&table_a()), image(&table_b()));
    let most = image(&table_round_b(64));
    let proposals: Vec<[u8; 4]> = (0..4096).map(|i| propose((i % 4) as u8, DRILL)).collect();
    let late = [vote(0, 1, DRILL), propose(0, DRILL)];
    let opposite = [propose(2, LIVE), propose(2, DRILL), propose(0, DRILL), propose(1, DRILL), vote(2, 0, LIVE)];
    let two = model::journal_of(&window_of(20));
    let over: Vec<[u8; 4]> = (0..34 * 125).map(|i| propose((i % 4) as u8, DRILL)).collect();
    let bad = [[3, 0, 0, 0], [0, 4, 4, 0], [1, 0, 1, 2], [0, 0, 1, 0], [1, 0, 3, 0], [2, 1, 0, 0], [0, 0, 0, 0]];
    let votes: Vec<[u8; 4]> =
        whole_vote(&[0, 1, 2, 3], LIVE).into_iter().filter(|call| call[0] != model::ACCEPT).collect();
    vec![
        ("a.table", a.clone()),
        ("b.table", b.clone()),
        ("apart.table", image(&table_apart())),
        ("pairs.table", image(&table_pairs())),
        ("alone.table", image(&table_alone())),
        ("twelve.table", image(&table_round_b(12))),
        ("thirteen.table", image(&table_round_b(13))),
        ("most.table", most.clone()),
        ("over.table", [&most[..], &[0; 512]].concat()),
        ("empty", vec![]),
        ("cut.table", a[..1000].to_vec()),
        ("damaged.table", damaged(&b, 512 + 9)),
        ("head.table", resealed(&b, 2, |block| put16(block, 0, 3))),
        ("count.table", resealed(&a, 4, |block| put16(block, 4, 0))),
        ("owner.table", resealed(&a, 2, |block| put64(block, 8, 3))),
        ("order.table", resealed(&b, 1, |block| put64(block, 16, 7))),
        ("filler.table", resealed(&a, 3, |block| block[503] = 1)),
        ("longest", vec![0; 65535]),
        ("too-long", vec![0; 65536]),
        ("drill.calls", bytes(&whole_vote(&[0, 1, 2, 3], DRILL))),
        ("three.calls", bytes(&whole_vote(&[0, 1, 2], DRILL))),
        ("live.calls", bytes(&whole_vote(&[0, 1, 2], LIVE))),
        ("two-faced.calls", bytes(&two_faced())),
        ("short.calls", bytes(&short())),
        ("split.calls", bytes(&split())),
        ("pushed.calls", bytes(&pushed())),
        ("votes.calls", bytes(&votes)),
        ("opposite.calls", bytes(&opposite)),
        ("late.calls", bytes(&late)),
        ("bad.calls", bytes(&bad)),
        ("half.calls", bytes(&bad[..6])),
        ("strange.calls", bytes(&bad[..5])),
        ("window.calls", bytes(&window_of(64))),
        ("most.calls", bytes(&proposals)),
        ("over.calls", bytes(&[&proposals[..], &[propose(0, DRILL)]].concat())),
        ("cut.calls", bytes(&late)[..7].to_vec()),
        ("one.calls", bytes(&[propose(0, DRILL)])),
        ("full.calls", bytes(&over[..125])),
        ("two.calls", bytes(&over[..126])),
        ("drill.journal", model::journal_of(&whole_vote(&[0, 1, 2, 3], DRILL))),
        ("two-faced.journal", model::journal_of(&two_faced())),
        ("bad.journal", model::journal_of(&[&bad[..], &[[255; 4]]].concat())),
        ("strange.journal", model::journal_of(&bad[..5])),
        ("two.journal", two.clone()),
        ("most.journal", model::journal_of(&proposals)),
        ("last.journal", model::journal_of(&over[..4097])),
        ("over.journal", model::journal_of(&over)),
        ("cut.journal", two[..1000].to_vec()),
        ("damaged.journal", damaged(&two, 512 + 9)),
        ("number.journal", resealed(&two, 1, |block| put16(block, 0, 2))),
        ("swapped.journal", [&two[512..], &two[..512]].concat()),
        ("few.journal", resealed(&two, 0, |block| put16(block, 2, 124))),
        ("many.journal", resealed(&two, 1, |block| put16(block, 2, 126))),
        ("zeros.journal", vec![0; 512]),
        ("filler.journal", resealed(&two, 1, |block| block[503] = 1)),
        ("behind.journal", resealed(&two, 1, |block| put16(block, 2, 14))),
    ]
}

/// The desk's calls, word by word.
pub fn desk_calls() -> Vec<Vec<&'static str>> {
    let lines = "\
        |check a.table|check b.table|check apart.table|check alone.table|check most.table|check empty|check over.table|check cut.table\
        |check damaged.table|check head.table|check count.table|check owner.table|check order.table|check filler.table\
        |check longest|check too-long|check missing.table|check folder|check|check a.table b.table|look a.table|CHECK a.table\
        |verdict a.table 8|verdict a.table 0000000000000008|verdict a.table 0|verdict a.table 1f|verdict a.table 1F|verdict a.table 20\
        |verdict a.table 00000000000000008|verdict a.table g|verdict a.table 0x8|verdict a.table -8|verdict a.table|verdict 8\
        |verdict b.table 3|verdict b.table f|verdict apart.table 0|verdict alone.table 1|verdict twelve.table 8|verdict thirteen.table 8\
        |verdict most.table 8000000000000000|verdict most.table ffffffffffffffff|verdict damaged.table 0|verdict damaged.table ffff\
        |verdict a.table s3|verdict a.table s|verdict a.table s0,4|verdict a.table s4,2|verdict a.table s003|verdict a.table s5\
        |verdict a.table s63|verdict a.table s64|verdict a.table s640|verdict a.table s3,3|verdict a.table s3,|verdict a.table s,3\
        |verdict a.table s3,,4|verdict a.table S3|verdict a.table s3.4|verdict a.table s-1|verdict a.table s18446744073709551616\
        |verdict b.table s1,0|verdict apart.table s|verdict twelve.table s11,10|verdict thirteen.table s12|verdict apart.table s0\
        |verdict empty 0|verdict missing.table 0|verdict folder 0|verdict too-long 0|verdict missing.table g\
        |risk a.table|risk b.table|risk apart.table|risk pairs.table|risk alone.table|risk twelve.table|risk thirteen.table|risk damaged.table|risk empty\
        |risk missing.table|risk too-long|risk folder|risk|risk a.table b.table|--help|-h|--help a.table|-help\
        |run apart.table 0 split.calls|run b.table s2,3 pushed.calls|run b.table 8 short.calls\
        |run b.table 0 empty|run b.table 0 drill.calls|run b.table 8 three.calls|run b.table 8 live.calls|run b.table 8 two-faced.calls\
        |run b.table 0 late.calls|run b.table 0 opposite.calls|run b.table 8 bad.calls|run b.table f drill.calls|run a.table 8 three.calls\
        |run b.table 8 half.calls|run b.table 8 strange.calls|run b.table 10 strange.calls|run twelve.table 8 strange.calls\
        |run twelve.table 8 three.calls|run thirteen.table 8 three.calls|run thirteen.table 1000 three.calls\
        |run most.table 8000000000000001 three.calls|run apart.table 1 strange.calls\
        |run alone.table 0 one.calls|run alone.table 1 one.calls|run apart.table 0 drill.calls|run most.table 0 window.calls\
        |run b.table 0 most.calls|run b.table 0 over.calls|run b.table 0 cut.calls|run b.table 10 over.calls|run b.table 10 drill.calls\
        |run damaged.table 10 cut.calls|run owner.table 0 drill.calls|run cut.table 0 drill.calls|run b.table 0 missing.calls\
        |run b.table 0 too-long|run b.table 0 folder|run missing.table 0 drill.calls|run b.table zz drill.calls|run b.table 0\
        |run b.table 0 drill.calls drill.calls|run\
        |missing b.table 8 three.calls|missing b.table 8 short.calls|missing b.table 8 live.calls|missing b.table s3 two-faced.calls\
        |missing b.table 0 votes.calls|missing b.table 1 votes.calls|missing b.table 3 votes.calls|missing b.table f drill.calls\
        |missing b.table 0 empty|missing b.table 0 bad.calls|missing b.table 0 most.calls|missing a.table 8 three.calls\
        |missing a.table 0 opposite.calls|missing apart.table 0 drill.calls|missing apart.table 0 votes.calls|missing apart.table 0 split.calls\
        |missing alone.table 0 one.calls|missing twelve.table 0 window.calls|missing twelve.table 0 votes.calls\
        |missing thirteen.table 0 window.calls|missing thirteen.table 2000 cut.calls|missing thirteen.table 0 cut.calls\
        |missing b.table 0 cut.calls|missing b.table 0 over.calls|missing b.table 10 cut.calls|missing damaged.table 10 cut.calls\
        |missing owner.table 0 drill.calls|missing b.table 0 missing.calls|missing b.table 0 too-long|missing b.table 0 folder\
        |missing missing.table 0 drill.calls|missing b.table zz drill.calls|missing b.table 0|missing b.table 0 drill.calls drill.calls|missing\
        |journal two.journal|journal drill.journal|journal bad.journal|journal empty|journal most.journal|journal last.journal\
        |journal over.journal|journal cut.journal|journal damaged.journal|journal number.journal|journal swapped.journal\
        |journal few.journal|journal many.journal|journal zeros.journal|journal filler.journal|journal behind.journal\
        |journal drill.calls|journal longest|journal too-long|journal missing.journal|journal folder|journal|journal two.journal empty\
        |replay b.table 0 drill.journal|replay b.table 8 two-faced.journal|replay b.table 8 bad.journal|replay b.table 8 strange.journal|replay b.table 0 empty\
        |replay most.table 0 two.journal|replay most.table f two.journal|replay b.table 0 last.journal|replay b.table 0 cut.journal\
        |replay b.table 0 damaged.journal|replay b.table 0 number.journal|replay b.table 0 behind.journal|replay b.table 0 drill.calls\
        |replay b.table 10 drill.journal|replay b.table 10 damaged.journal|replay b.table 10 last.journal|replay b.table 10 cut.journal\
        |replay damaged.table 10 damaged.journal|replay owner.table 0 cut.journal|replay cut.table 0 last.journal\
        |replay b.table 0 missing.journal|replay b.table 0 too-long|replay b.table 0 folder|replay missing.table 0 drill.journal\
        |replay b.table zz drill.journal|replay b.table 0|replay\
        |keep drill.calls new|journal new|replay b.table 0 new|keep two-faced.calls new|replay b.table 0 new\
        |keep empty new-empty|journal new-empty|replay b.table 0 new-empty|keep full.calls new-full|journal new-full|keep two.calls new-two\
        |journal new-two|keep most.calls new-most|journal new-most|keep bad.calls new-bad|replay b.table 8 new-bad\
        |keep cut.calls none|keep over.calls none|keep longest none|journal none|keep cut.calls new|keep missing.calls none|keep too-long none\
        |keep folder none|journal none|keep drill.calls folder|keep drill.calls a.table|check a.table|keep drill.calls no-such/new\
        |keep drill.calls a.table/new|keep drill.calls|keep|keep drill.calls none none";
    lines.split('|').map(|line| line.split_whitespace().collect()).collect()
}

/// What a call of the desk is to print on standard output; nothing where the call itself is wrong. A file that it keeps
/// is one of the files then.
pub fn desk_answer(leaflet: &Leaflet, files: &mut Vec<File>, words: &[&'static str]) -> Option<String> {
    let file =
        |name: &str| files.iter().find(|(file, bytes)| *file == name && bytes.len() < 65536).map(|(_, bytes)| bytes);
    let free = |name: &str| !name.contains('/') && name != "folder" && files.iter().all(|(file, _)| *file != name);
    let mask = expected::faulty;
    match words {
        [] | ["--help"] | ["-h"] => Some(USAGE.to_string()),
        ["check", table] => Some(expected::check(leaflet, file(table)?)),
        ["verdict", table, faulty] => Some(expected::verdict(file(table)?, mask(faulty)?)),
        ["risk", table] => Some(expected::risk(leaflet, file(table)?)),
        ["run", table, faulty, calls] => Some(expected::run(leaflet, file(table)?, mask(faulty)?, file(calls)?)),
        ["missing", table, faulty, calls] => {
            Some(expected::missing(leaflet, file(table)?, mask(faulty)?, file(calls)?))
        }
        ["keep", calls, name] => {
            let (text, journal) = expected::keep(leaflet, file(calls).filter(|_| free(name))?);
            files.extend(journal.map(|bytes| (*name, bytes)));
            Some(text)
        }
        ["journal", journal] => Some(expected::journal(leaflet, file(journal)?)),
        ["replay", table, faulty, journal] => {
            Some(expected::replay(leaflet, file(table)?, mask(faulty)?, file(journal)?))
        }
        _ => None,
    }
}

/// What `desk` alone prints.
const USAGE: &str = "\
desk make TEXT TABLE                makes a table, as a new file, of a text in which a person wrote it
desk show TABLE                     the table as such a text
desk check TABLE                    is the table sound?
desk verdict TABLE FAULTY           which sites can be relied on when the sites of FAULTY are faulty?
desk risk TABLE                     how many sites does each take with it, and how few broken ones leave none to rely on?
desk calls TEXT CALLS               makes a list of calls, as a new file, of a text or a spreadsheet
desk list CALLS                     the calls as such a text
desk same CALLS CALLS               are these the same calls, in any order and with any repeats?
desk run TABLE FAULTY CALLS         the vote: its passes, what was confirmed, drill or live for each site
desk missing TABLE FAULTY CALLS     which accept calls between intact sites does the list lack?
desk keep CALLS JOURNAL             keeps the list of calls as a new file, whole or not at all
desk journal JOURNAL                is the journal sound, and how many calls does it keep?
desk replay TABLE FAULTY JOURNAL    the vote, as desk run prints it, of the calls that the journal keeps
TEXT, TABLE, CALLS and JOURNAL name files; FAULTY is site numbers behind an s, as in s3,12, s alone for nobody;
or 1 to 16 hexadecimal digits, bit v for site v, 0 for nobody
";
