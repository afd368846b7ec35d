//! Regions received in pieces: the level-0 part of the listing of the pieces joined.

use crate::expected::{self, LEAST_ROOM, MOST_BYTES};
use crate::inputs::pieces::{self, LARGEST, SINGLE_BYTES, cut_at};
use crate::inputs::words::{self, BOX};
use crate::inputs::{damage, regions, rule_tables};
use crate::random::Random;
use crate::span;
use crate::tally::Tally;
use std::rc::Rc;

const KIND: &str = "receive";
const LONG: &str = "receive, long regions";

const ROOM: usize = LEAST_ROOM * span::WORDS;

fn check(tally: &mut Tally, kind: &'static str, rules: &[u32], region: &[u8], lengths: [u8; 8], room: usize) {
    tally.check(kind, expected::reception(&Rc::from(rules), &Rc::from(region), lengths, room));
}

pub fn fixed(tally: &mut Tally) {
    short(tally);
    small_records(tally);
    every_length(tally);
    every_cut(tally);
    refusals(tally);
    long(tally);
}

/// Every input of one byte, and of two of which one is 0.
fn short(tally: &mut Tally) {
    check(tally, KIND, &[], &[], SINGLE_BYTES, ROOM);
    for byte in 0..=255 {
        for region in [&[byte][..], &[byte, 0], &[0, byte]] {
            check(tally, KIND, &[], region, SINGLE_BYTES, ROOM);
        }
    }
}

/// Every region of two records of 8 bytes that are a Box, another record, a bad type or an ending, and declare 0 to 6 words; the
/// third time the second one again, so that a record of up to 6 words may be all in.
fn small_records(tally: &mut Tally) {
    let kinds = [(1, BOX), (0, 3), (7, BOX), (2, BOX)].map(|(kind, record)| words::word(1, kind, 0x123, record));
    let endings = [0, 0xdead_beef];
    let records: Vec<[u32; 2]> = kinds.iter().chain(&endings).flat_map(|word| (0..7).map(|size| [*word, size])).collect();
    for first in &records {
        for second in &records {
            let region: Vec<u8> =
                [first, second, second].into_iter().flatten().flat_map(|number| number.to_le_bytes()).collect();
            for lengths in [SINGLE_BYTES, LARGEST, [3; 8], cut_at(7)] {
                check(tally, KIND, &[], &region, lengths, ROOM);
            }
        }
    }
}

/// Random regions that end at every byte, in single bytes, and in pieces by chance.
fn every_length(tally: &mut Tally) {
    let mut random = Random::new(5);
    for _ in 0..60 {
        let rules = rule_tables::valid(&mut random);
        let region = regions::region(&mut random, &rules);
        for length in 0..region.len().min(600) {
            check(tally, KIND, &rules, &region[..length], SINGLE_BYTES, ROOM);
            check(tally, KIND, &rules, &region[..length], pieces::any(&mut random), ROOM);
        }
    }
}

/// Random regions cut at every byte, and one with the largest header, in pieces of every length too.
fn every_cut(tally: &mut Tally) {
    let mut random = Random::new(6);
    for declared in [4, 8, 16, 532, 536, 540, 600] {
        let region = [&regions::small_record(3, 8)[..], &regions::largest_header(BOX, declared)].concat();
        (1..=64).for_each(|first| check(tally, KIND, &[], &region, cut_at(first), ROOM));
        (8..=region.len()).for_each(|length| check(tally, KIND, &[], &region[..length], LARGEST, ROOM));
        (1..=64).for_each(|length| check(tally, KIND, &[], &region, [length; 8], ROOM));
    }
    for _ in 0..60 {
        let rules = rule_tables::valid(&mut random);
        let region = regions::region(&mut random, &rules);
        (1..=64).for_each(|first| check(tally, KIND, &rules, &region, cut_at(first), ROOM));
    }
}

/// Bad rules, pieces over 64 bytes, and room for fewer rows than 600, alone and together.
fn refusals(tally: &mut Tally) {
    let region = regions::repeated(&regions::small_record(3, 8), 300);
    for rules in [vec![], vec![0], vec![0; 3 * 64], vec![0; 3 * 65], vec![0, 0, 15], vec![0, 0, 16]] {
        for room in [0, span::WORDS, ROOM - span::WORDS, ROOM - 1, ROOM, ROOM + 1, ROOM + span::WORDS] {
            for lengths in [SINGLE_BYTES, LARGEST, [65, 0, 255, 66, 64, 128, 0, 63], [0, 65, 0, 0, 0, 0, 0, 1]] {
                for region in [&region[..], &region[..64], &[]] {
                    check(tally, KIND, &rules, region, lengths, room);
                }
            }
        }
    }
}

/// Regions of 1,048,575 to 1,048,577 bytes and of some more: three records in all, Boxes of Boxes, and nothing but an ending; at
/// the limit, many small records too, and some smaller than their header. The last piece ends at the limit, or passes it.
fn long(tally: &mut Tally) {
    let large = regions::small_record(3, 4 * 0x1_fffe);
    for length in [MOST_BYTES - 1, MOST_BYTES, MOST_BYTES + 1, MOST_BYTES + 40] {
        for unit in [&large[..], &regions::nest(128), &[0; 4]] {
            let region = regions::repeated(unit, length);
            for lengths in [LARGEST, [63; 8], [64, 65, 0, 1, 64, 64, 200, 31]] {
                check(tally, LONG, &[], &region, lengths, ROOM);
            }
        }
    }
    for unit in [&regions::small_record(3, 8)[..], &[1, 0, 0, 0]] {
        check(tally, LONG, &[], &regions::repeated(unit, MOST_BYTES), LARGEST, ROOM);
        check(tally, LONG, &[], &regions::repeated(unit, MOST_BYTES + 1), [61; 8], ROOM);
    }
    check(tally, LONG, &[], &regions::repeated(&large, MOST_BYTES + 1), SINGLE_BYTES, ROOM);
}

pub fn round(tally: &mut Tally, random: &mut Random) {
    let rules = rule_tables::any(random);
    let region = match random.below(8) {
        0 => {
            let length = random.below(72);
            regions::noise(random, length)
        }
        _ => regions::region(random, &rules),
    };
    let damaged = damage::damaged(random, &region);
    for region in [region, damaged] {
        let room = if random.once_in(40) { random.below(2 * ROOM) } else { ROOM + random.below(30) };
        check(tally, KIND, &rules, &region, pieces::any(random), room);
    }
}
