//! The nested listing, whole and under limits and rooms.

use crate::expected::{self, MOST_BYTES};
use crate::inputs::words::{self, BOX, ECORE, PCORE};
use crate::inputs::{damage, regions, rule_tables};
use crate::random::Random;
use crate::span;
use crate::tally::Tally;
use crate::told::Walk;
use std::rc::Rc;

const WHOLE: &str = "listings";
const CUT: &str = "limits and rooms";
const LONG: &str = "long regions";

/// The whole listing, with room for one row more.
fn check(tally: &mut Tally, kind: &'static str, rules: &[u32], region: &[u8]) -> (Rc<[u32]>, Rc<[u8]>, Option<Walk>) {
    let (rules, region): (Rc<[u32]>, Rc<[u8]>) = (Rc::from(rules), Rc::from(region));
    let walk = expected::walk(&rules, &region);
    let (tries, rows) = counts(&walk);
    tally.check(kind, expected::listing(&rules, &region, &walk, tries, span::WORDS * (rows + 1)));
    (rules, region, walk)
}

fn counts(walk: &Option<Walk>) -> (u64, usize) {
    walk.as_ref().map_or((0, 0), |walk| (walk.steps.len() as u64, walk.rows as usize))
}

/// Every limit up to the tries and one more, with every room up to the rows and one more; of a long listing those at the ends.
fn check_cuts(tally: &mut Tally, rules: &[u32], region: &[u8]) {
    let (rules, region, walk) = check(tally, WHOLE, rules, region);
    let (tries, rows) = counts(&walk);
    for limit in around(tries).into_iter().chain([u64::MAX]) {
        for room in around(rows as u64) {
            let part = (room + limit) as usize % span::WORDS;
            let numbers = span::WORDS * room as usize + part;
            tally.check(CUT, expected::listing(&rules, &region, &walk, limit, numbers));
        }
    }
    if rows > 0 {
        tally.check(CUT, expected::listing(&rules, &region, &walk, tries, span::WORDS * rows - 1));
    }
}

fn around(count: u64) -> Vec<u64> {
    if count <= 10 { (0..=count + 1).collect() } else { vec![0, 1, 2, count / 2, count - 2, count - 1, count, count + 1] }
}

pub fn fixed(tally: &mut Tally) {
    short(tally);
    small_records(tally);
    nests(tally);
    every_cut(tally);
    long(tally);
}

/// Every input of at most two bytes.
fn short(tally: &mut Tally) {
    check(tally, WHOLE, &[], &[]);
    for first in 0..=255 {
        check(tally, WHOLE, &[], &[first]);
        (0..=255).for_each(|second| drop(check(tally, WHOLE, &[], &[first, second])));
    }
}

/// Every region of three records of 8 bytes that are a Box, another record, a bad type or an ending, and declare 0 to 6 words.
fn small_records(tally: &mut Tally) {
    let kinds = [(1, BOX), (0, 3), (7, BOX), (2, BOX)].map(|(kind, record)| words::word(1, kind, 0x123, record));
    let endings = [0, 0xdead_beef];
    let records: Vec<[u32; 2]> = kinds.iter().chain(&endings).flat_map(|word| (0..7).map(|size| [*word, size])).collect();
    for first in &records {
        for second in &records {
            for third in &records {
                let region: Vec<u8> =
                    [first, second, third].into_iter().flatten().flat_map(|number| number.to_le_bytes()).collect();
                check(tally, WHOLE, &[], &region);
            }
        }
    }
}

/// Up to eight Boxes in each other, cut at every byte, under every flag number.
fn nests(tally: &mut Tally) {
    for boxes in 0..=8 {
        let nest = regions::nest(boxes);
        for length in 0..=nest.len() {
            check_cuts(tally, &[], &nest[..length]);
        }
        for flags in 0..16 {
            check_cuts(tally, &rule_tables::always(flags), &nest);
        }
    }
}

/// Random regions, cut at every byte.
fn every_cut(tally: &mut Tally) {
    let mut random = Random::new(3);
    for _ in 0..100 {
        let rules = rule_tables::valid(&mut random);
        let region = regions::region(&mut random, &rules);
        for length in 0..region.len().min(600) {
            check(tally, WHOLE, &rules, &region[..length]);
        }
    }
}

/// Regions of 1,048,575 to 1,048,577 bytes: many small records, records of one byte, one record in all, and Boxes of Boxes.
fn long(tally: &mut Tally) {
    let small = regions::small_record(3, 8);
    let byte = [words::word(1, 1, 0x50, ECORE).to_le_bytes(), [1, 0, 0, 0]].concat();
    let large = regions::small_record(PCORE, 4 * 0x1_fffe);
    let boxes = regions::nest(5);
    let bytes_rule = [0, 0, 8];
    for length in [MOST_BYTES - 1, MOST_BYTES, MOST_BYTES + 1] {
        for (rules, unit) in [(&[][..], &small), (&bytes_rule, &byte), (&[], &large), (&[], &boxes)] {
            let (rules, region, walk) = check(tally, LONG, rules, &regions::repeated(unit, length));
            let (tries, rows) = counts(&walk);
            for (limit, room) in
                [(tries.saturating_sub(1), rows), (tries, rows.saturating_sub(1)), (1000, 2000), (2000, 500)]
            {
                tally.check(LONG, expected::listing(&rules, &region, &walk, limit, span::WORDS * room));
            }
        }
    }
    let mut whole = vec![0; MOST_BYTES + 4];
    whole[..8].copy_from_slice(&boxes[..8]);
    regions::put_sizes(&mut whole, 0, 4 * 0x1_fffe);
    whole[8..8 + boxes.len()].copy_from_slice(&boxes);
    check(tally, LONG, &[], &whole[..MOST_BYTES]);
    check(tally, LONG, &[], &whole);
}

pub fn round(tally: &mut Tally, random: &mut Random) {
    let rules = rule_tables::any(random);
    let region = match random.below(8) {
        0 => {
            let length = random.below(72);
            regions::noise(random, length)
        }
        1 => regions::nest(random.below(8)),
        _ => regions::region(random, &rules),
    };
    let damaged = damage::damaged(random, &region);
    if random.once_in(6) {
        check_cuts(tally, &rules, &region);
        check_cuts(tally, &rules, &damaged);
    } else {
        check(tally, WHOLE, &rules, &region);
        check(tally, WHOLE, &rules, &damaged);
    }
}
