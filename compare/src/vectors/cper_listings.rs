//! Listings of the regions in a CPER (document 02, C-15): rows, answers, tries and `whole` are written out by hand for some, and
//! for others all but the rows. What `expected` says, by the Rust, must be the same.

use super::stops::{PUNIT, record, tails};
use super::worked::DUMP_INPUT;
use crate::case::{Case, table_bytes};
use crate::expected::{self, BAD_RULES, DONE, EMPTY_REGION, MOST_BYTES, NOT_CPER, SPANS_FULL, TOO_LONG, TRIES_SPENT};
use crate::inputs::cper_regions::{
    CRASH_LOG, ID_AT, Id, SECTION_HEADER, many, of_bodies, of_places, of_regions, random_cper, section,
};
use crate::inputs::cpers::{self, DESCRIPTOR, HEADER};
use crate::inputs::words::{BOX, word};
use crate::inputs::{damage, regions, rule_tables};
use crate::random::Random;
use crate::span::{self, NO_DIE, NO_PARENT};
use std::rc::Rc;

const AMPLE: u64 = 1000;

pub fn list() -> Vec<Case> {
    let mut cases = Vec::new();
    worked(&mut cases);
    cuts(&mut cases);
    lengths(&mut cases);
    identifiers_and_types(&mut cases);
    skipped(&mut cases);
    whole(&mut cases);
    overlaps(&mut cases);
    places(&mut cases);
    rules(&mut cases);
    refusals(&mut cases);
    many_sections(&mut cases);
    long(&mut cases);
    texts(&mut cases);
    sample(&mut cases);
    cases
}

/// A listing with room for so many rows.
fn listing_under(rules: &[u32], cper: &[u8], record_id: Id, limit: u64, room: usize) -> Case {
    let walk = expected::cper_walk(rules, cper, record_id);
    expected::cper_listing(&Rc::from(rules), &Rc::from(cper), record_id, &walk, limit, room * span::WORDS)
}

/// The Crash Logs, with enough of all.
fn listing(cper: &[u8]) -> Case {
    listing_under(&[], cper, CRASH_LOG, AMPLE, 20)
}

/// What must be told: the answer, the rows, the tries, and whether it is whole.
type Told = (u64, u64, u64, bool);

fn telling(case: Case, (answer, rows, tries, whole): Told) -> Case {
    assert_eq!(case.told, [answer, rows, tries, 0, whole as u64, 0], "{}", case.describe());
    case
}

/// Rows with headers of 8 bytes and no flags: level, parent, offset, held, declared and word.
fn writing(case: Case, rows: &[[u32; 6]]) -> Case {
    let rows: Vec<[u32; span::WORDS]> = rows
        .iter()
        .map(|[level, parent, offset, held, declared, word]| {
            [*level, *parent, *offset, *held, *declared, 8, *word, 0, NO_DIE, 0]
        })
        .collect();
    assert_eq!(case.written, table_bytes(&rows), "{}", case.describe());
    case
}

/// Where the body of the first of so many sections lies.
fn first_body(sections: usize) -> usize {
    HEADER + DESCRIPTOR * sections
}

const BOX_WORD: u32 = 0x3d12_3101;
const PUNIT_WORD: u32 = 0x0312_3101;
const MCA_WORD: u32 = 0x3e12_3101;

/// The dump's input in three sections: its Box, then nothing but a zero word, then the Box again with its last record after it.
/// Rows number on over the sections, and offsets are in the file.
fn three_sections() -> Vec<u8> {
    of_regions(&CRASH_LOG, &[DUMP_INPUT[..20].to_vec(), vec![0; 4], DUMP_INPUT.to_vec()])
}

const THREE_ROWS: [[u32; 6]; 5] = [
    [0, NO_PARENT, 376, 20, 20, BOX_WORD],
    [1, 0, 384, 8, 8, PUNIT_WORD],
    [0, NO_PARENT, 464, 20, 20, BOX_WORD],
    [1, 2, 472, 8, 8, PUNIT_WORD],
    [0, NO_PARENT, 484, 8, 16, MCA_WORD],
];

/// The tries of these: three, one, and four, of which the third in each Box finds nothing.
const THREE_FINDS: [bool; 8] = [true, true, false, false, true, true, false, true];

fn worked(cases: &mut Vec<Case>) {
    let case = listing(&three_sections());
    cases.push(writing(telling(case, (DONE, 5, 8, false)), &THREE_ROWS));
    let two = of_regions(&CRASH_LOG, &[DUMP_INPUT[..20].to_vec(), DUMP_INPUT[..20].to_vec()]);
    let rows = [304, 356].map(|at| [[0, NO_PARENT, at, 20, 20, BOX_WORD], [1, 0, at + 8, 8, 8, PUNIT_WORD]]);
    let mut rows = rows.as_flattened().to_vec();
    rows[3][1] = 2;
    cases.push(writing(telling(listing(&two), (DONE, 4, 6, true)), &rows));
    let nests = of_regions(&CRASH_LOG, &[regions::nest(6), regions::nest(3), regions::nest(6)]);
    cases.push(telling(listing(&nests), (DONE, 13, 13, true)));
}

/// These under every limit in every room, so at the end of each section, one before and one after; and under limits past 32 bits.
fn cuts(cases: &mut Vec<Case>) {
    let cper = three_sections();
    for limit in (0..=9).chain([(1 << 32) - 1, 1 << 32, (1 << 32) + 3, u64::MAX]) {
        for room in if limit < 10 { 0..=6 } else { 4..=5 } {
            let (mut rows, mut tries, mut answer) = (0, 0, DONE);
            for finds in THREE_FINDS {
                if tries == limit {
                    answer = TRIES_SPENT;
                    break;
                }
                tries += 1;
                if finds && rows == room {
                    answer = SPANS_FULL;
                    break;
                }
                rows += finds as usize;
            }
            let case = listing_under(&[], &cper, CRASH_LOG, limit, room);
            cases.push(writing(telling(case, (answer, rows as u64, tries, false)), &THREE_ROWS[..rows]));
        }
    }
}

/// A body that ends at each of its bytes, in a file that goes on, alone and before one that does not.
fn lengths(cases: &mut Vec<Case>) {
    let body = section(&CRASH_LOG, &regions::nest(1));
    for length in 0..=body.len() {
        let tries = (length > SECTION_HEADER) as u64;
        let told = if length < body.len() { (EMPTY_REGION, 0, tries, false) } else { (DONE, 1, 1, true) };
        cases.push(telling(listing(&of_places(&[(0, length)], &body)), told));
    }
    for length in [0, 1, 15, 16, 17, 30, 31, 32, 33, 35, 36, 39, 40] {
        let whole = length <= SECTION_HEADER || length == body.len();
        let tries = 1 + (length > SECTION_HEADER) as u64;
        let rows = 1 + (length == body.len()) as u64;
        let case = listing(&of_places(&[(0, length), (0, body.len())], &body));
        cases.push(telling(case, (DONE, rows, tries, whole)));
    }
}

/// Each byte of the identifier another, in a section or as it is asked for; each byte of the type; each revision that may tell.
fn identifiers_and_types(cases: &mut Vec<Case>) {
    let cper = of_regions(&CRASH_LOG, &[regions::nest(1), regions::nest(2)]);
    let (first, both, none) = ((DONE, 1, 1, true), (DONE, 3, 3, true), (EMPTY_REGION, 0, 0, false));
    let second = (DONE, 2, 2, true);
    for at in 0..16 {
        let changed = |from: usize| {
            let mut cper = cper.clone();
            cper[from + at] ^= 1 << (at % 8);
            cper
        };
        let mut other = CRASH_LOG;
        other[at] ^= 1 << (at % 8);
        let id = first_body(2) + ID_AT;
        cases.push(telling(listing(&changed(id)), second));
        cases.push(telling(listing_under(&[], &changed(id), other, AMPLE, 20), first));
        cases.push(telling(listing_under(&[], &cper, other, AMPLE, 20), none));
        cases.push(telling(listing(&changed(HEADER + 16)), second));
        cases.push(telling(listing(&changed(HEADER + DESCRIPTOR + 16)), first));
    }
    for byte in [0, 1, 2, 3, 0x7f, 0xff] {
        let mut cper = cper.clone();
        cper[first_body(2)..][..ID_AT].fill(byte);
        cases.push(telling(listing(&cper), both));
    }
    for id in [[0; 16], [0xff; 16], cpers::FIRMWARE_ERROR] {
        let cper = of_bodies(&[section(&id, &regions::nest(1)), section(&CRASH_LOG, &regions::nest(2))]);
        cases.push(telling(listing_under(&[], &cper, id, AMPLE, 20), first));
        cases.push(telling(listing(&cper), second));
    }
}

/// Each region without a record, alone, and before, between and after others. It gives no answer of its own.
fn skipped(cases: &mut Vec<Case>) {
    let rules = rule_tables::always(8);
    let punit = record(PUNIT, &[]);
    for tail in tails() {
        let tries = !tail.bytes.is_empty() as u64;
        let alone = of_regions(&CRASH_LOG, &[tail.bytes.clone()]);
        cases.push(telling(listing_under(&rules, &alone, CRASH_LOG, AMPLE, 20), (EMPTY_REGION, 0, tries, false)));
        let twice = of_regions(&CRASH_LOG, &[tail.bytes.clone(), tail.bytes.clone()]);
        cases.push(telling(listing_under(&rules, &twice, CRASH_LOG, AMPLE, 20), (EMPTY_REGION, 0, 2 * tries, false)));
        for at in 0..3 {
            let mut regions = vec![punit.clone(); 2];
            regions.insert(at, tail.bytes.clone());
            let case = listing_under(&rules, &of_regions(&CRASH_LOG, &regions), CRASH_LOG, AMPLE, 20);
            cases.push(telling(case, (DONE, 2, 2 + tries, tail.whole)));
        }
    }
}

/// Each way for a region with records to be not whole, in the first, the second and the last of three; in a Box, too.
fn whole(cases: &mut Vec<Case>) {
    let rules = rule_tables::always(8);
    let punit = record(PUNIT, &[]);
    let mut short_box = [&regions::small_record(BOX, 0)[..], &[0; 3]].concat();
    regions::put_sizes(&mut short_box, 8, 7);
    let mut contents = vec![(record(PUNIT, &[0])[..8].to_vec(), false), (short_box, false), (record(BOX, &[]), true)];
    for tail in tails() {
        contents.push(([&punit[..], &tail.bytes].concat(), tail.whole));
        contents.push((record(BOX, &tail.bytes), tail.whole));
    }
    for (content, whole) in contents {
        for at in 0..3 {
            let mut regions = vec![punit.clone(); 2];
            regions.insert(at, content.clone());
            let case = listing_under(&rules, &of_regions(&CRASH_LOG, &regions), CRASH_LOG, AMPLE, 20);
            assert_eq!((case.answer(), case.whole()), (DONE, Some(whole)), "{}", case.describe());
            cases.push(case);
        }
    }
}

/// Bodies over each other: the same, one that ends before, one in the region of another, from its end on, and in another order.
fn overlaps(cases: &mut Vec<Case>) {
    let inner = section(&CRASH_LOG, &regions::small_record(PUNIT, 8));
    let outer = section(&CRASH_LOG, &[&regions::small_record(BOX, 8 + inner.len())[..], &inner].concat());
    let (all, within) = ((0, outer.len()), (SECTION_HEADER + 8, inner.len()));
    let box_only = (0, SECTION_HEADER + 8);
    for (places, told) in [
        (vec![all, all], (DONE, 2, 4, false)),
        (vec![all, within], (DONE, 2, 3, false)),
        (vec![within, all], (DONE, 2, 3, false)),
        (vec![within, within, within], (DONE, 3, 3, true)),
        (vec![all, box_only], (DONE, 2, 3, false)),
        (vec![box_only, within, all], (DONE, 3, 4, false)),
    ] {
        cases.push(telling(listing(&of_places(&places, &outer)), told));
    }
    let plain = section(&CRASH_LOG, &regions::nest(2));
    let swapped = of_places(&[(plain.len(), inner.len()), (0, plain.len())], &[plain.clone(), inner].concat());
    let start = first_body(2) as u32;
    let rows = [
        [0, NO_PARENT, start + 80, 8, 8, PUNIT_WORD],
        [0, NO_PARENT, start + 32, 16, 16, BOX_WORD],
        [1, 1, start + 40, 8, 8, BOX_WORD],
    ];
    cases.push(writing(telling(listing(&swapped), (DONE, 3, 3, true)), &rows));
}

/// Sections that are not kept are not opened: past the end of the file by a byte, or far; with a descriptor that is cut; past the
/// section count. The record length is not asked. A body may lie in the header and the descriptors.
fn places(cases: &mut Vec<Case>) {
    let body = section(&CRASH_LOG, &regions::nest(2));
    let both = of_bodies(&[body.clone(), body.clone()]);
    let (one, two) = ((DONE, 2, 2, true), (DONE, 4, 4, true));
    cases.push(telling(listing(&both), two));
    cases.push(telling(listing(&both[..both.len() - 1]), one));
    for (at, number) in [(0, u32::MAX), (4, u32::MAX), (4, both.len() as u32), (0, both.len() as u32 - 47)] {
        for (index, told) in [(0, one), (1, one)] {
            let mut cper = both.clone();
            cper[HEADER + DESCRIPTOR * index + at..][..4].copy_from_slice(&number.to_le_bytes());
            cases.push(telling(listing(&cper), told));
        }
    }
    for (count, told) in [(0, (EMPTY_REGION, 0, 0, false)), (1, one), (2, two), (3, two), (u16::MAX, two)] {
        let mut cper = both.clone();
        cper[10..12].copy_from_slice(&count.to_le_bytes());
        cases.push(telling(listing(&cper), told));
    }
    for stated in [0, 128, first_body(2) + 8, first_body(2) + 40, first_body(2) + 88, both.len(), both.len() + 1] {
        let mut cper = both.clone();
        cper[20..24].copy_from_slice(&(stated as u32).to_le_bytes());
        cases.push(telling(listing(&cper), two));
    }
    let mut within = many(&CRASH_LOG, &[0; 24], 1);
    within[104..108].copy_from_slice(&[1, 0, 0, 0]);
    within[108..112].copy_from_slice(&[6, 0, 0, 0]);
    let row = [0, NO_PARENT, 104, 24, 24, 1];
    cases.push(writing(telling(listing(&within), (DONE, 1, 1, true)), &[row]));
    cases.push(telling(listing(&within[..199]), (EMPTY_REGION, 0, 0, false)));
}

/// Under rules: each region's records have their flags, whatever stands in the region before.
fn rules(cases: &mut Vec<Case>) {
    let server = regions::placed_record(word(0x82, 0, 0x2f, PUNIT), 5, [5, 9]);
    let other = regions::placed_record(word(1, 6, 0x123, PUNIT), 0, [5, 9]);
    let one_product = [0x00ff_f000, 0x0002_f000, 5];
    for rows in [1, 8, 63, 64] {
        let rules = [&[u32::MAX, 0, 15].repeat(rows - 1)[..], &one_product].concat();
        let regions = [server.clone(), other.clone(), [server.clone(), other.clone()].concat(), server.clone()];
        cases.push(listing_under(&rules, &of_regions(&CRASH_LOG, &regions), CRASH_LOG, AMPLE, 20));
    }
    for flags in 0..16 {
        let region = regions::placed_record(word(0x82, 0, 0x2f, BOX), flags, [5, 9]);
        let cper = of_regions(&CRASH_LOG, &[region.clone(), region]);
        cases.push(listing_under(&rule_tables::always(flags), &cper, CRASH_LOG, AMPLE, 20));
    }
}

/// Each refusal, and their order: too long, bad rules, no CPER. A CPER without a section, and one that just fits.
fn refusals(cases: &mut Vec<Case>) {
    let none = |answer| (answer, 0, 0, false);
    let good = of_regions(&CRASH_LOG, &[regions::nest(1)]);
    let long = cpers::periodic(1, 0, 0, MOST_BYTES + 1);
    let bad_rules = [vec![0], vec![0; 2], vec![0, 0, 16], vec![0; 3 * 65]];
    for rules in bad_rules.iter().chain([&vec![]]) {
        let refused = if rules.is_empty() { EMPTY_REGION } else { BAD_RULES };
        let zeros = if rules.is_empty() { NOT_CPER } else { BAD_RULES };
        for (cper, answer) in [(&long[..], TOO_LONG), (&long[..MOST_BYTES], refused)] {
            cases.push(telling(listing_under(rules, cper, CRASH_LOG, AMPLE, 20), none(answer)));
        }
        for (length, answer) in [(MOST_BYTES + 1, TOO_LONG), (MOST_BYTES, zeros), (127, zeros), (0, zeros)] {
            cases.push(telling(listing_under(rules, &vec![0; length], CRASH_LOG, 0, 0), none(answer)));
        }
    }
    for at in 0..10 {
        let mut cper = good.clone();
        cper[at] ^= 0x20;
        let told = if at == 4 || at == 5 { (DONE, 1, 1, true) } else { none(NOT_CPER) };
        cases.push(telling(listing(&cper), told));
    }
    cases.push(telling(listing(&good[..127]), none(NOT_CPER)));
    cases.push(telling(listing(&good[..128]), none(EMPTY_REGION)));
    cases.push(telling(listing(&good[..200]), none(EMPTY_REGION)));
    cases.push(telling(listing_under(&[], &cpers::plain_header(0), CRASH_LOG, 0, 0), none(EMPTY_REGION)));
    cases.push(telling(listing_under(&vec![0; 3 * 64], &good, CRASH_LOG, AMPLE, 20), (DONE, 1, 1, true)));
    cases.push(telling(listing_under(&[], &good, CRASH_LOG, 0, 20), none(TRIES_SPENT)));
    cases.push(telling(listing_under(&[], &good, CRASH_LOG, AMPLE, 0), (SPANS_FULL, 0, 1, false)));
}

/// Ten thousand sections over one body of a zero word; some hundred with rows, so that parents pass a byte; and limits past 32
/// bits.
fn many_sections(cases: &mut Vec<Case>) {
    let (sections, past) = (10_000, 1 << 32);
    let zeros = many(&CRASH_LOG, &[0; 24], sections);
    for limit in [sections as u64, past, past + 3, u64::MAX] {
        cases.push(telling(listing_under(&[], &zeros, CRASH_LOG, limit, 20), (EMPTY_REGION, 0, sections as u64, false)));
    }
    for limit in [0, 255, 256, 257, 9_999] {
        cases.push(telling(listing_under(&[], &zeros, CRASH_LOG, limit, 20), (TRIES_SPENT, 0, limit, false)));
    }
    let mut region = [0; 24];
    region[..16].copy_from_slice(&regions::nest(2));
    let boxes = many(&CRASH_LOG, &region, 150);
    cases.push(telling(listing_under(&[], &boxes, CRASH_LOG, AMPLE, 300), (DONE, 300, 450, true)));
    cases.push(telling(listing_under(&[], &boxes, CRASH_LOG, 449, 300), (TRIES_SPENT, 300, 449, false)));
    let boxes = many(&CRASH_LOG, &region, sections);
    cases.push(telling(listing_under(&[], &boxes, CRASH_LOG, u64::MAX, 20), (SPANS_FULL, 20, 31, false)));
    cases.push(telling(listing_under(&[], &boxes, CRASH_LOG, 25, 20), (TRIES_SPENT, 17, 25, false)));
}

/// A file of so many bytes that repeats a CPER of 240: its one section lies there, and its record declares 524,160 bytes.
fn repeating(offset: usize, section_length: usize, length: usize) -> Vec<u8> {
    let mut unit = of_regions(&CRASH_LOG, &[regions::small_record(PUNIT, 524_160)]);
    unit[HEADER..][..4].copy_from_slice(&(offset as u32).to_le_bytes());
    unit[HEADER + 4..][..4].copy_from_slice(&(section_length as u32).to_le_bytes());
    regions::repeated(&unit, length)
}

/// 1,048,575 to 1,048,577 bytes with a section to the end; and sections far into a file.
fn long(cases: &mut Vec<Case>) {
    for length in [MOST_BYTES - 1, MOST_BYTES, MOST_BYTES + 1] {
        let case = listing(&repeating(200, length - 200, length));
        let last = length as u32 - 1_048_552;
        let rows = [
            [0, NO_PARENT, 232, 524_160, 524_160, PUNIT_WORD],
            [0, NO_PARENT, 524_392, 524_160, 524_160, PUNIT_WORD],
            [0, NO_PARENT, 1_048_552, last, 524_160, PUNIT_WORD],
        ];
        if length > MOST_BYTES {
            cases.push(telling(case, (TOO_LONG, 0, 0, false)));
        } else {
            cases.push(writing(telling(case, (DONE, 3, 3, false)), &rows));
        }
    }
    for offset in [200 + 240 * 272, 200 + 240 * 274, 200 + 240 * 4_366] {
        let case = listing(&repeating(offset, 40, MOST_BYTES));
        let row = [0, NO_PARENT, offset as u32 + 32, 8, 524_160, PUNIT_WORD];
        cases.push(writing(telling(case, (DONE, 1, 1, false)), &[row]));
    }
}

/// The dump's text of the three sections, of a file that ends in each section, of each refusal, and of a row too many.
fn texts(cases: &mut Vec<Case>) {
    let text = |cper: &[u8], lines: &str| {
        let case = expected::cper_text(&Rc::from(cper));
        let by_hand = format!("level offset held declared header version socket die name\n{lines}");
        assert_eq!(case.written, by_hand.into_bytes(), "{}", case.describe());
        case
    };
    let three = three_sections();
    let first = "0 376 20 20 8 3d123101 0 - BOX\n1 384 8 8 8 03123101 0 - Punit\n";
    let last = "0 464 20 20 8 3d123101 0 - BOX\n1 472 8 8 8 03123101 0 - Punit\n0 484 8 16 8 3e123101 0 - MCA\n";
    cases.push(text(&three, &format!("{first}{last}rows 5 tries 8 whole no answer 0\n")));
    cases.push(text(&three[..three.len() - 1], &format!("{first}rows 2 tries 4 whole yes answer 0\n")));
    cases.push(text(&three[..431], &format!("{first}rows 2 tries 3 whole yes answer 0\n")));
    cases.push(text(&three[..395], "rows 0 tries 0 whole no answer 5\n"));
    for (length, answer) in [(0, 8), (127, 8), (128, 5), (199, 5)] {
        cases.push(text(&three[..length], &format!("rows 0 tries 0 whole no answer {answer}\n")));
    }
    for (length, answer) in [(MOST_BYTES, 5), (MOST_BYTES + 1, 1)] {
        let long = cpers::periodic(1, 0, 0, length);
        cases.push(text(&long, &format!("rows 0 tries 0 whole no answer {answer}\n")));
    }
    let other = of_bodies(&[section(&[0; 16], &regions::nest(1))]);
    cases.push(text(&other, "rows 0 tries 0 whole no answer 5\n"));
    let server = regions::placed_record(word(0x82, 0, 0x2f, PUNIT), 0, [5, 9]);
    let type6 = regions::placed_record(word(1, 6, 0x123, PUNIT), 0, [5, 9]);
    cases.push(expected::cper_text(&Rc::from(of_regions(&CRASH_LOG, &[server, type6]))));
    cases.push(text(&many(&CRASH_LOG, &[0; 24], 10_000), "rows 0 tries 10000 whole no answer 5\n"));
    let mut region = [0; 24];
    region[..8].copy_from_slice(&regions::small_record(PUNIT, 8));
    let lines = "0 104 8 8 8 03123101 0 - Punit\n".repeat(4_096);
    let too_many = many(&CRASH_LOG, &region, 4_097);
    cases.push(text(&too_many, &format!("{lines}rows 4096 tries 8193 whole no answer 6\n")));
}

/// Random CPERs and damaged ones, whole and under some limit and room.
fn sample(cases: &mut Vec<Case>) {
    let mut random = Random::new(20_261_117);
    for _ in 0..60 {
        let mut rules = rule_tables::any(&mut random);
        rules.truncate(3 * random.below(4) + random.below(10) / 9);
        let record_id = if random.once_in(4) { [0x77; 16] } else { CRASH_LOG };
        let good = random_cper(&mut random, &rules, &record_id);
        let damaged = damage::damaged(&mut random, &good);
        for cper in [good, damaged] {
            if cper.len() > 800 {
                continue;
            }
            let whole = listing_under(&rules, &cper, record_id, u64::MAX, 40);
            let [_, rows, tries, ..] = whole.told;
            let (limit, room) = (random.below(tries as usize + 2), random.below(rows as usize + 2));
            cases.push(listing_under(&rules, &cper, record_id, limit as u64, room));
            cases.push(whole);
        }
    }
}
