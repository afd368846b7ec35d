//! How records end and why a region stops (document 02, C-12): answers, reasons and `whole` are written out by hand, and what
//! `expected` says, by the Rust and `crate::stops`, must be the same.

use crate::case::Case;
use crate::expected::{self, BAD_RULES, BAD_TYPE, DONE, EMPTY_REGION, ENDED, SPANS_FULL, TRIES_SPENT};
use crate::inputs::words::{BOX, word};
use crate::inputs::{regions, rule_tables};
use crate::span;
use crate::stops::{BAD_HEADER, DEADBEEF_WORD, END_OF_INPUT, FEW_BYTES, SIZE_ZERO, UNTOLD, ZERO_WORD};
use std::rc::Rc;

pub const PUNIT: u32 = 3;
pub const AMPLE: u64 = 1000;
const MARK: u32 = 0xdead_beef;

pub fn list() -> Vec<Case> {
    let mut cases = Vec::new();
    endings(&mut cases);
    words_near_an_ending(&mut cases);
    records(&mut cases);
    boxes(&mut cases);
    cases
}

fn header(rules: &[u32], bytes: &[u8], answer: u64, ending: u64) -> Case {
    let case = expected::header(&Rc::from(rules), &Rc::from(bytes));
    assert_eq!((case.answer(), case.stop()), (answer, Some(ending)), "{}", case.describe());
    case
}

/// Each ending, at its bounds and with bytes after it, whatever the rules; a bad table comes before it.
fn endings(cases: &mut Vec<Case>) {
    for (word, ending) in [(0, ZERO_WORD), (MARK, DEADBEEF_WORD)] {
        let bytes = [word.to_le_bytes(), [2, 0, 0, 0]].concat();
        for flags in [0, 1, 15] {
            let rules = rule_tables::always(flags);
            (0..4).for_each(|length| cases.push(header(&rules, &bytes[..length], ENDED, FEW_BYTES)));
            (4..=8).for_each(|length| cases.push(header(&rules, &bytes[..length], ENDED, ending)));
        }
        cases.push(header(&[0, 0, 16], &bytes, BAD_RULES, UNTOLD));
    }
}

/// Words that are an ending but for one bit.
fn words_near_an_ending(cases: &mut Vec<Case>) {
    for bit in [0, 31] {
        for (word, answer) in [(0, DONE), (MARK, BAD_TYPE)] {
            let near: u32 = word ^ 1 << bit;
            cases.push(header(&[], &[near.to_le_bytes(), [2, 0, 0, 0]].concat(), answer, UNTOLD));
        }
    }
}

/// What may stand where a region stops.
pub struct Tail {
    pub bytes: Vec<u8>,
    pub stop: u64,
    /// Whether a listing with a region that stops so may be whole.
    pub whole: bool,
    /// The answer where no record stands before it.
    pub alone: u64,
}

pub fn tails() -> Vec<Tail> {
    let tail = |bytes: &[u8], stop, whole, alone| Tail { bytes: bytes.to_vec(), stop, whole, alone };
    let bad_type = word(1, 7, 0x123, PUNIT).to_le_bytes();
    vec![
        tail(&[], END_OF_INPUT, true, EMPTY_REGION),
        tail(&[0; 4], ZERO_WORD, true, EMPTY_REGION),
        tail(&[0, 0, 0, 0, 2], ZERO_WORD, true, EMPTY_REGION),
        tail(&MARK.to_le_bytes(), DEADBEEF_WORD, true, EMPTY_REGION),
        tail(&[1], FEW_BYTES, false, EMPTY_REGION),
        tail(&[0; 3], FEW_BYTES, false, EMPTY_REGION),
        tail(&MARK.to_le_bytes()[..3], FEW_BYTES, false, EMPTY_REGION),
        tail(&record(PUNIT, &[])[..7], BAD_HEADER, false, expected::BAD_HEADER),
        tail(&[bad_type, [8, 0, 0, 0]].concat(), BAD_HEADER, false, BAD_TYPE),
        tail(&regions::small_record(PUNIT, 0), SIZE_ZERO, false, EMPTY_REGION),
    ]
}

/// A record with those bytes after a header of 8. Its size counts bytes.
pub fn record(record_type: u32, body: &[u8]) -> Vec<u8> {
    let mut bytes = [&regions::small_record(record_type, 0), body].concat();
    let declared = bytes.len();
    regions::put_sizes(&mut bytes, 8, declared);
    bytes
}

/// What a listing must tell: its answer, whether it is whole, and why it stopped.
pub type Told = (u64, bool, u64);

/// A listing with room for so many rows, where sizes count bytes.
pub fn listing(region: &[u8], limit: u64, room: usize, told: Told) -> Case {
    listing_under(&rule_tables::always(8), region, limit, room, told)
}

/// A listing with room for so many rows.
pub fn listing_under(rules: &[u32], region: &[u8], limit: u64, room: usize, told: Told) -> Case {
    let (rules, region): (Rc<[u32]>, Rc<[u8]>) = (Rc::from(rules), Rc::from(region));
    let walk = expected::walk(&rules, &region);
    let case = expected::listing(&rules, &region, &walk, limit, room * span::WORDS);
    let [answer, _, _, _, whole, stop] = case.told;
    assert_eq!((answer, whole == 1, stop), told, "{}", case.describe());
    case
}

/// Each reason without a record, and after a record: whole, with one try too few, and without room. A record that is cut short
/// is the end of the input.
fn records(cases: &mut Vec<Case>) {
    let punit = record(PUNIT, &[]);
    for tail in tails() {
        let region = [&punit, &tail.bytes[..]].concat();
        let tries = 1 + !tail.bytes.is_empty() as u64;
        cases.push(listing(&tail.bytes, AMPLE, 10, (tail.alone, false, tail.stop)));
        cases.push(listing(&region, tries, 1, (DONE, tail.whole, tail.stop)));
        cases.push(listing(&region, tries - 1, 1, (TRIES_SPENT, false, UNTOLD)));
        cases.push(listing(&region, tries, 0, (SPANS_FULL, false, UNTOLD)));
    }
    for body in 1..=4 {
        cases.push(listing(&record(PUNIT, &vec![0; body])[..8], AMPLE, 10, (DONE, false, END_OF_INPUT)));
    }
}

/// Each reason after a Box that holds a record and stops for each reason; one reason after four Boxes in each other, the
/// innermost without a record.
fn boxes(cases: &mut Vec<Case>) {
    for inner in tails() {
        let held = [record(PUNIT, &[]), inner.bytes.clone()].concat();
        for outer in tails() {
            let region = [record(BOX, &held), outer.bytes].concat();
            cases.push(listing(&region, AMPLE, 10, (DONE, inner.whole && outer.whole, outer.stop)));
        }
        let nest = (0..4).fold(inner.bytes, |bytes, _| record(BOX, &bytes));
        cases.push(listing(&[&nest[..], &MARK.to_le_bytes()].concat(), AMPLE, 10, (DONE, inner.whole, DEADBEEF_WORD)));
    }
}
