//! Regions received in pieces (document 02, C-11): answers, rows and when each is told are written out by hand for some, and for
//! others answers, reasons and `whole`. What `expected` says, by the Rust, must be the same.

use super::stops::{PUNIT, record, tails};
use super::worked::DUMP_INPUT;
use crate::case::{Case, table_bytes};
use crate::expected::{
    self, BAD_PIECE, BAD_RULES, DONE, EMPTY_REGION, LEAST_ROOM, MOST_BYTES, NOT_RECEIVING, TOO_LONG, ended_by,
};
use crate::inputs::pieces::{self, LARGEST, SINGLE_BYTES, cut_at};
use crate::inputs::words::{BOX, word};
use crate::inputs::{damage, regions, rule_tables};
use crate::random::Random;
use crate::span::{self, NO_DIE, NO_PARENT};
use crate::stops::{END_OF_INPUT, UNTOLD, ZERO_WORD};
use std::rc::Rc;

const ROOM: usize = LEAST_ROOM * span::WORDS;
const EMPTY_AMONG: [u8; 8] = [0, 3, 0, 0, 64, 1, 0, 17];
const TOO_LONG_AMONG: [u8; 8] = [65, 5, 255, 0, 64, 66, 128, 1];

pub fn list() -> Vec<Case> {
    let mut cases = Vec::new();
    worked(&mut cases);
    ends(&mut cases);
    lengths_and_cuts(&mut cases);
    rules(&mut cases);
    below_header(&mut cases);
    largest_header(&mut cases);
    refusals(&mut cases);
    long(&mut cases);
    sample(&mut cases);
    cases
}

fn reception(rules: &[u32], region: &[u8], lengths: [u8; 8], room: usize) -> Case {
    expected::reception(&Rc::from(rules), &Rc::from(region), lengths, room)
}

/// A row with a header of 8 bytes and no flags: the bytes taken when it is told; offset, held, declared and word.
type Told = (u32, [u32; 4]);

fn with_rows(region: &[u8], lengths: [u8; 8], told: [u64; 6], rows: &[Told]) -> Case {
    let case = reception(&[], region, lengths, ROOM);
    let rows: Vec<[u32; 11]> = rows
        .iter()
        .map(|(taken, [offset, held, declared, word])| {
            [*taken, 0, NO_PARENT, *offset, *held, *declared, 8, *word, 0, NO_DIE, 0]
        })
        .collect();
    assert_eq!((case.told, &case.written), (told, &table_bytes(&rows)), "{}", case.describe());
    case
}

/// The dump's input, whose second record declares more than there is: cut in each way, and at every length.
fn worked(cases: &mut Vec<Case>) {
    let told = [DONE, 1, 2, 0, 0, END_OF_INPUT];
    for (lengths, first) in [(SINGLE_BYTES, 20), (LARGEST, 28), ([3; 8], 21), (EMPTY_AMONG, 28), (TOO_LONG_AMONG, 28)] {
        let rows = [(first, [0, 20, 20, 0x3d12_3101]), (28, [20, 8, 16, 0x3e12_3101])];
        cases.push(with_rows(&DUMP_INPUT, lengths, told, &rows));
    }
    for length in 0..DUMP_INPUT.len() {
        cases.push(reception(&[], &DUMP_INPUT[..length], SINGLE_BYTES, ROOM));
    }
}

/// What must be told: the answer, the rows of the finish, whether it is whole, and why it stopped.
fn telling(case: Case, told: (u64, u64, bool, u64)) -> Case {
    let [answer, rows, _, _, whole, stop] = case.told;
    assert_eq!((answer, rows, whole == 1, stop), told, "{}", case.describe());
    case
}

/// Each way to end, without a record and after one, and then bytes that change nothing.
fn ends(cases: &mut Vec<Case>) {
    let rules = rule_tables::always(8);
    for tail in tails() {
        let region = [&record(PUNIT, &[])[..], &tail.bytes].concat();
        for lengths in [SINGLE_BYTES, LARGEST, [5; 8]] {
            let alone = reception(&rules, &tail.bytes, lengths, ROOM);
            cases.push(telling(alone, (tail.alone, 0, false, tail.stop)));
            cases.push(telling(reception(&rules, &region, lengths, ROOM), (DONE, 0, tail.whole, tail.stop)));
        }
    }
    let bad_type = [&word(1, 7, 0x123, PUNIT).to_le_bytes()[..], &[2, 0]].concat();
    for stopped in [vec![0; 4], regions::small_record(PUNIT, 0), bad_type] {
        let region = [&regions::small_record(PUNIT, 8)[..], &stopped, &regions::nest(90)].concat();
        cases.push(reception(&[], &region, SINGLE_BYTES, ROOM));
        cases.push(reception(&[], &region, LARGEST, ROOM));
    }
    cases.push(telling(reception(&[], &[], LARGEST, ROOM), (EMPTY_REGION, 0, false, END_OF_INPUT)));
}

/// Records of four layouts, a Box with others inside and one that is smaller than its header among them, at every length in single
/// bytes, and cut at every byte up to the largest piece.
fn lengths_and_cuts(cases: &mut Vec<Case>) {
    let mut region = regions::small_record(PUNIT, 12);
    region.extend([7; 4]);
    region.extend(regions::nest(3));
    region.extend(regions::placed_record(word(1, 6, 0x123, PUNIT), 0, [5, 9]));
    region.extend(regions::small_record(BOX, 4));
    region.extend(regions::placed_header(word(1, 2, 0x123, PUNIT), 0, [0, 0], &[1, 2, 3, 4]));
    for length in 0..=region.len() {
        cases.push(reception(&[], &region[..length], SINGLE_BYTES, ROOM));
    }
    for first in 1..=64 {
        cases.push(reception(&[], &region, cut_at(first), ROOM));
    }
}

/// Legacy server headers by the last row of tables of up to 64, in which no other row applies.
fn rules(cases: &mut Vec<Case>) {
    let legacy = regions::placed_record(word(0x82, 0, 0x2f, 4), 1, [5, 9]).repeat(3);
    for length in [17, 18, 31, 32, 35, 36, 67, 68, 108] {
        cases.push(reception(&rule_tables::always(1), &legacy[..length], [7; 8], ROOM));
    }
    for rows in [1, 7, 8, 9, 16, 17, 63, 64] {
        let rules = [&[u32::MAX, 0, 15].repeat(rows - 1)[..], &[0, 0, 1]].concat();
        cases.push(telling(reception(&rules, &legacy, [31; 8], ROOM), (DONE, 0, true, END_OF_INPUT)));
    }
}

/// Records that declare less than their header: the next header starts in bytes that are in already. A Box so is not whole.
fn below_header(cases: &mut Vec<Case>) {
    let region = [[1, 0, 0, 0]; 6].concat();
    let rows =
        |taken: [u32; 5]| -> Vec<Told> { taken.iter().zip(0..).map(|(taken, row)| (*taken, [4 * row, 4, 4, 1])).collect() };
    let told = [DONE, 0, 6, 0, 0, crate::stops::BAD_HEADER];
    cases.push(with_rows(&region, SINGLE_BYTES, told, &rows([8, 12, 16, 20, 24])));
    cases.push(with_rows(&region, [9; 8], told, &rows([9, 18, 18, 24, 24])));
    cases.push(with_rows(&region, LARGEST, told, &rows([24; 5])));
    for record_type in [BOX, PUNIT] {
        let mut region = regions::small_record(record_type, 0);
        region.extend([0; 3]);
        regions::put_sizes(&mut region, 8, 7);
        for lengths in [SINGLE_BYTES, [7; 8], [8; 8], LARGEST] {
            let case = reception(&rule_tables::always(8), &region, lengths, ROOM);
            cases.push(telling(case, (DONE, 0, record_type != BOX, ZERO_WORD)));
        }
    }
}

/// The largest header, of as many bytes as are kept, that declares a word, itself but for a word, itself, and more. Of the
/// records that start inside it one piece completes 140.
fn largest_header(cases: &mut Vec<Case>) {
    for declared in [4, 532, 536, 600] {
        let region = regions::largest_header(PUNIT, declared);
        for lengths in [SINGLE_BYTES, LARGEST, [63; 8], [0, 59, 0, 59, 0, 59, 0, 60]] {
            for length in [535, 536, 537, 599, 600] {
                cases.push(reception(&[], &region[..length], lengths, ROOM));
            }
        }
    }
}

/// Bad rules; too little room; and pieces that are too long, which are left out.
fn refusals(cases: &mut Vec<Case>) {
    for rules in [vec![0], vec![0, 0, 16], vec![0; 3 * 65]] {
        for (region, room) in [(&DUMP_INPUT[..], ROOM), (&[], 0)] {
            let told = (NOT_RECEIVING + ended_by(BAD_RULES), 0, false, UNTOLD);
            cases.push(telling(reception(&rules, region, LARGEST, room), told));
        }
    }
    for room in [0, span::WORDS, ROOM - span::WORDS, ROOM - 1] {
        let told = (BAD_PIECE + ended_by(BAD_PIECE), 0, false, UNTOLD);
        cases.push(telling(reception(&[], &DUMP_INPUT, TOO_LONG_AMONG, room), told));
        cases.push(telling(reception(&[], &[], LARGEST, room), (BAD_PIECE, 0, false, UNTOLD)));
    }
    for room in [ROOM, ROOM + 1, ROOM + span::WORDS] {
        cases.push(telling(reception(&[], &DUMP_INPUT, LARGEST, room), (DONE, 1, false, END_OF_INPUT)));
    }
    let region = regions::repeated(&regions::small_record(PUNIT, 8), 200);
    cases.push(telling(reception(&[], &region, TOO_LONG_AMONG, ROOM), (DONE, 0, true, END_OF_INPUT)));
}

/// 1,048,576 bytes are received, and one more is not: a piece up to the limit and one over it. Each record declares 524,280. Bytes
/// after a zero word count too.
fn long(cases: &mut Vec<Case>) {
    let unit = [0x01, 0x31, 0x12, 0x03, 0xff, 0xff, 0xff, 0xff];
    let row = |taken: u32, offset: u32, held: u32| -> Told { (taken, [offset, held, 524_280, 0x0312_3101]) };
    let [first, second, last] = [row(524_288, 0, 524_280), row(1_048_576, 524_280, 524_280), row(1_048_576, 1_048_560, 16)];
    for (length, told, rows) in [
        (MOST_BYTES, [DONE, 1, 3, 0, 0, END_OF_INPUT], &[first, second, last][..]),
        (MOST_BYTES + 1, [NOT_RECEIVING + ended_by(TOO_LONG), 0, 0, 0, 0, UNTOLD], &[first, second]),
    ] {
        cases.push(with_rows(&regions::repeated(&unit, length), LARGEST, told, rows));
    }
    let many = regions::repeated(&regions::small_record(PUNIT, 65_536), MOST_BYTES + 1);
    cases.push(telling(reception(&[], &many[..MOST_BYTES], [63; 8], ROOM), (DONE, 0, true, END_OF_INPUT)));
    let closed = (NOT_RECEIVING + ended_by(TOO_LONG), 0, false, UNTOLD);
    cases.push(telling(reception(&[], &many, [63; 8], ROOM), closed));
    cases.push(telling(reception(&[], &[0; MOST_BYTES + 1], LARGEST, ROOM), closed));
}

/// Random regions and damaged ones, in pieces by chance.
fn sample(cases: &mut Vec<Case>) {
    let mut random = Random::new(20_261_116);
    for _ in 0..60 {
        let mut rules = rule_tables::any(&mut random);
        rules.truncate(3 * random.below(4) + random.below(10) / 9);
        let good = regions::region(&mut random, &rules);
        let damaged = damage::damaged(&mut random, &good);
        for region in [good, damaged] {
            if region.len() <= 700 {
                cases.push(reception(&rules, &region, pieces::any(&mut random), ROOM));
            }
        }
    }
}
