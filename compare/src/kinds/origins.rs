//! Socket and die in the rows of a listing, which the Rust tells by `socket_id` and `die_id`.

use crate::expected;
use crate::inputs::words::word;
use crate::inputs::{regions, rule_tables};
use crate::span;
use crate::tally::Tally;
use std::rc::Rc;

const KIND: &str = "sockets and dies";

/// Lists 256 records, one for each byte: a version word, and what stands at 24 and 25.
fn check(tally: &mut Tally, flags: u32, record: impl Fn(u8) -> (u32, [u8; 2])) {
    let records = (0..=255).map(record).flat_map(|(version, pair)| regions::placed_record(version, flags, pair));
    let (rules, region): (Rc<[u32]>, Rc<[u8]>) = (Rc::from(rule_tables::always(flags)), records.collect());
    let walk = expected::walk(&rules, &region);
    tally.check(KIND, expected::listing(&rules, &region, &walk, 1000, 257 * span::WORDS));
}

pub fn fixed(tally: &mut Tally) {
    layouts(tally);
    pairs(tally);
}

/// Every header type under every flag number, with every revision, and every byte in both places.
fn layouts(tally: &mut Tally) {
    for flags in 0..16 {
        for header_type in 0..16 {
            check(tally, flags, |byte| (word(byte.into(), header_type, 0x123, 3), [byte ^ 0x5a, byte.wrapping_add(77)]));
        }
    }
}

/// Every die with every socket in type 6, and every revision with every socket in a legacy server's header.
fn pairs(tally: &mut Tally) {
    for socket in 0..=255 {
        check(tally, 0, |die| (word(1, 6, 0x123, 3), [die, socket]));
        check(tally, 1, |revision| (word(revision.into(), 0, 0x2f, 4), [socket, !socket]));
    }
}
