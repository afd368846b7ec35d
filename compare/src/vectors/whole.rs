//! When a listing is whole (document 02, C-14), written out by hand: each clause is broken alone, on each level. What
//! `expected` says, by the Rust's walk, must be the same.

use super::stops::{AMPLE, PUNIT, listing, listing_under, record, tails};
use crate::case::Case;
use crate::expected::{self, BAD_RULES, DONE, MOST_BYTES, SPANS_FULL, TOO_LONG, TRIES_SPENT};
use crate::inputs::words::{BOX, word};
use crate::inputs::{regions, rule_tables};
use crate::stops::{END_OF_INPUT, UNTOLD, ZERO_WORD};
use std::rc::Rc;

pub fn list() -> Vec<Case> {
    let mut cases = Vec::new();
    levels(&mut cases);
    neighbours(&mut cases);
    layouts(&mut cases);
    refusals(&mut cases);
    texts(&mut cases);
    cases
}

/// What may stand in a region, with a record at its start.
struct Content {
    bytes: Vec<u8>,
    stop: u64,
    /// On how many levels, counted from the top, no listing with it is whole.
    spoils: usize,
}

/// Spoils no level.
const NONE: usize = 0;
/// Spoils each level on which a Box is opened.
const OPENED: usize = 4;
/// Spoils each level that is walked.
const WALKED: usize = 5;

fn contents() -> Vec<Content> {
    let content = |bytes: &[u8], stop, spoils| Content { bytes: bytes.to_vec(), stop, spoils };
    let punit = record(PUNIT, &[]);
    let mut contents = vec![
        content(&record(PUNIT, &[0])[..8], END_OF_INPUT, WALKED),
        content(&record(BOX, &[&punit[..], &[0]].concat())[..16], END_OF_INPUT, WALKED),
        content(&record(BOX, &[]), END_OF_INPUT, NONE),
        content(&below_header(BOX, 7, &[0; 3]), ZERO_WORD, OPENED),
        content(&below_header(BOX, 4, &[8, 0, 0, 0]), END_OF_INPUT, OPENED),
        content(&below_header(PUNIT, 7, &[0; 3]), ZERO_WORD, NONE),
        content(&below_header(PUNIT, 4, &[8, 0, 0, 0]), END_OF_INPUT, NONE),
    ];
    for tail in tails() {
        let spoils = if tail.whole { NONE } else { WALKED };
        contents.push(content(&[&punit[..], &tail.bytes].concat(), tail.stop, spoils));
    }
    contents
}

/// A record that declares less than its header of 8 bytes, and bytes after that header. The next header starts in it: after
/// 7 bytes at its last one, which is 0; after 4 at its size, which is then a version word.
fn below_header(record_type: u32, declared: usize, after: &[u8]) -> Vec<u8> {
    let mut bytes = [&regions::small_record(record_type, 0), after].concat();
    regions::put_sizes(&mut bytes, 8, declared);
    bytes
}

/// Each content at the top, and in one to five Boxes: the fifth is on level 4 and not opened.
fn levels(cases: &mut Vec<Case>) {
    for Content { mut bytes, mut stop, spoils } in contents() {
        for boxes in 0..=5 {
            cases.push(listing(&bytes, AMPLE, 10, (DONE, spoils <= boxes, stop)));
            bytes = record(BOX, &bytes);
            stop = END_OF_INPUT;
        }
    }
}

/// Each content in a Box, after a Box that spoils nothing and before one.
fn neighbours(cases: &mut Vec<Case>) {
    let good = record(BOX, &record(PUNIT, &[]));
    for Content { bytes, spoils, .. } in contents() {
        let other = record(BOX, &bytes);
        for region in [[&good[..], &other].concat(), [&other[..], &good].concat()] {
            cases.push(listing(&region, AMPLE, 10, (DONE, spoils == NONE, END_OF_INPUT)));
        }
    }
}

/// A header of each layout with fields after its size, all 0: a Box by its type, a Box by its flags, and no Box. It declares
/// its header, or its header but for the last word, which then ends the region.
fn layouts(cases: &mut Vec<Case>) {
    for (layout_flags, header_type) in [(0, 2), (0, 3), (0, 4), (0, 5), (0, 6), (1, 0), (2, 0)] {
        for (record_type, box_flag) in [(BOX, 0), (PUNIT, 4), (PUNIT, 0)] {
            let flags = layout_flags | box_flag;
            let rules = rule_tables::always(flags);
            let size = regions::header_size(flags, header_type);
            let mut bytes = vec![0; size];
            bytes[..4].copy_from_slice(&word(1, header_type, 0x123, record_type).to_le_bytes());
            let no_box = record_type != BOX && box_flag == 0;
            for (declared, whole, stop) in [(size, true, END_OF_INPUT), (size - 4, no_box, ZERO_WORD)] {
                regions::put_sizes(&mut bytes, flags, declared);
                cases.push(listing_under(&rules, &bytes, AMPLE, 10, (DONE, whole, stop)));
            }
        }
    }
}

/// A region that is whole, and is not with answers 1, 2, 6 and 7. The others need one without a record, as `stops` has it.
fn refusals(cases: &mut Vec<Case>) {
    let good = record(BOX, &record(PUNIT, &[]));
    let long = regions::repeated(&good, MOST_BYTES + 1);
    cases.push(listing(&good, 2, 2, (DONE, true, END_OF_INPUT)));
    cases.push(listing(&long, AMPLE, 10, (TOO_LONG, false, UNTOLD)));
    cases.push(listing_under(&[0, 0, 16], &good, 2, 2, (BAD_RULES, false, UNTOLD)));
    cases.push(listing(&good, 2, 1, (SPANS_FULL, false, UNTOLD)));
    cases.push(listing(&good, 1, 2, (TRIES_SPENT, false, UNTOLD)));
}

/// The dump's last line, where sizes count words: each clause at the top or in a Box, and a Box that declares less than its
/// header on level 4.
fn texts(cases: &mut Vec<Case>) {
    let boxed = |bytes: &[u8]| [&regions::small_record(BOX, 8 + bytes.len())[..], bytes].concat();
    let punit = regions::small_record(PUNIT, 8);
    let bad_type = [word(1, 7, 0x123, PUNIT).to_le_bytes(), [2, 0, 0, 0]].concat();
    let below_header = [&regions::small_record(BOX, 4)[..], &[2, 0, 0, 0]].concat();
    let below_header_on_4 = (0..4).fold(below_header.clone(), |bytes, _| boxed(&bytes));
    for (region, whole) in [
        ([&punit[..], &bad_type].concat(), "no"),
        (boxed(&bad_type), "no"),
        (boxed(&regions::small_record(PUNIT, 12)), "no"),
        (boxed(&[]), "yes"),
        (boxed(&below_header), "no"),
        (below_header, "no"),
        (below_header_on_4, "yes"),
    ] {
        let case = expected::text(&Rc::from(region));
        assert!(case.written.ends_with(format!("whole {whole} answer 0\n").as_bytes()), "{}", case.describe());
        cases.push(case);
    }
}
