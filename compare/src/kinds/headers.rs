//! One header, decoded.

use crate::expected;
use crate::inputs::{damage, regions, rule_tables, words};
use crate::random::Random;
use crate::tally::Tally;
use std::rc::Rc;

const KIND: &str = "headers";

fn check(tally: &mut Tally, rules: &[u32], bytes: &[u8]) {
    tally.check(KIND, expected::header(&Rc::from(rules), &Rc::from(bytes)));
}

pub fn fixed(tally: &mut Tally) {
    short(tally);
    words_of_two_bytes(tally);
    layouts(tally);
    status_counts(tally);
    dies(tally);
}

/// Every input of at most two bytes.
fn short(tally: &mut Tally) {
    check(tally, &[], &[]);
    for first in 0..=255 {
        check(tally, &[], &[first]);
        (0..=255).for_each(|second| check(tally, &[], &[first, second]));
    }
}

/// Every low half of the version word, with lengths from 3 to 40 in turn.
fn words_of_two_bytes(tally: &mut Tally) {
    for low in 0..=0xffff_u32 {
        let mut bytes = (0x0312_0000 | low).to_le_bytes().to_vec();
        bytes.extend((4..40).map(|at| at ^ low as u8));
        check(tally, &[], &bytes[..3 + low as usize % 38]);
    }
}

/// Every header type under every flag number, at every length up to 40.
fn layouts(tally: &mut Tally) {
    let mut random = Random::new(1);
    for flags in 0..16 {
        for header_type in 0..16 {
            let mut bytes = random.bytes(40);
            bytes[..4].copy_from_slice(&words::word(0x81, header_type, 0x123, words::BOX).to_le_bytes());
            for length in 0..=40 {
                check(tally, &rule_tables::always(flags), &bytes[..length]);
            }
        }
    }
}

/// Every count of status words, with every mark in its halfword, at each length where the answer may change.
fn status_counts(tally: &mut Tally) {
    let mut random = Random::new(2);
    let mut bytes = random.bytes(540);
    bytes[..4].copy_from_slice(&words::word(1, 6, 0x123, words::BOX).to_le_bytes());
    for count in 0..=127 {
        let size = 28 + 4 * count as usize;
        for marks in [0, 0x80, 0x7f80, 0x8000, 0xff80_u16] {
            bytes[26..28].copy_from_slice(&(count | marks).to_le_bytes());
            for length in [27, 28, size - 1, size, size + 1] {
                check(tally, &[], &bytes[..length]);
            }
        }
    }
}

/// Every revision of a legacy server header.
fn dies(tally: &mut Tally) {
    for revision in 0..=255 {
        let mut bytes = words::word(revision, 0, 0x2f, words::PCORE).to_le_bytes().to_vec();
        bytes.extend(5..33);
        check(tally, &rule_tables::always(1), &bytes);
    }
}

pub fn round(tally: &mut Tally, random: &mut Random) {
    let rules = rule_tables::any(random);
    let length = match random.below(4) {
        0 => random.below(10),
        1 => random.below(40),
        2 => random.pick(&[24, 28, 32]) + random.below(3) - 1,
        _ => random.below(540),
    };
    let bytes = regions::noise(random, length);
    check(tally, &rules, &bytes);

    let rules = rule_tables::valid(random);
    let region = regions::region(random, &rules);
    check(tally, &rules, &region);
    check(tally, &rules, &damage::damaged(random, &region));
}
