//! Where a row's record comes from (document 02, C-17): its socket and its die, written out by hand. What `expected` says, by the
//! Rust's `socket_id` and `die_id`, must be the same.

use super::stops::{AMPLE, PUNIT};
use crate::case::Case;
use crate::expected::{self, BAD_HEADER, DONE, SPANS_FULL, TRIES_SPENT};
use crate::inputs::regions::{placed_header, placed_record, put_sizes};
use crate::inputs::rule_tables::{always, flags_of};
use crate::inputs::words::{BOX, word};
use crate::span::{self, NO_DIE};
use crate::text;
use std::rc::Rc;

pub fn list() -> Vec<Case> {
    let mut cases = Vec::new();
    layouts(&mut cases);
    values(&mut cases);
    revisions(&mut cases);
    boxes(&mut cases);
    short_records(&mut cases);
    cuts(&mut cases);
    texts(&mut cases);
    cases
}

/// A socket, and a die where the header has one.
type Origin = (u8, Option<u8>);

const NOWHERE: Origin = (0, None);

/// A listing in a table of so many numbers, its answer, and where its rows come from.
fn listing(rules: &[u32], region: &[u8], limit: u64, numbers: usize, answer: u64, origins: &[Origin]) -> Case {
    let (rules, region): (Rc<[u32]>, Rc<[u8]>) = (Rc::from(rules), Rc::from(region));
    let case = expected::listing(&rules, &region, &expected::walk(&rules, &region), limit, numbers);
    let told: Vec<(u32, u32)> = span::rows_in(&case.written).iter().map(|row| (row.socket, row.die)).collect();
    let by_hand = origins.iter().map(|(socket, die)| ((*socket).into(), die.map_or(NO_DIE, u32::from)));
    assert_eq!((case.answer(), told), (answer, by_hand.collect()), "{}", case.describe());
    case
}

/// A listing of records that all are found.
fn listing_of(rules: &[u32], records: &[(Vec<u8>, Origin)]) -> Case {
    let (region, origins): (Vec<&[u8]>, Vec<Origin>) = records.iter().map(|(bytes, origin)| (&bytes[..], *origin)).unzip();
    listing(rules, &region.concat(), AMPLE, span::WORDS * records.len(), DONE, &origins)
}

/// What stands at 24 and 25: each of the values in both places, and never one in both at once.
const PAIRS: [[u8; 2]; 5] = [[0, 1], [1, 0x7f], [0x7f, 0x80], [0x80, 0xff], [0xff, 0]];

/// Revisions, and the die that each gives a legacy server.
const DIES: [(u32, u8); 24] = [
    (0x00, 0),
    (0x01, 4),
    (0x02, 8),
    (0x03, 12),
    (0x80, 9),
    (0x81, 10),
    (0x82, 11),
    (0x83, 12),
    (0x7c, 0),
    (0x7d, 4),
    (0x7e, 8),
    (0x7f, 12),
    (0xfc, 9),
    (0xfd, 10),
    (0xfe, 11),
    (0xff, 12),
    (0x04, 0),
    (0x08, 0),
    (0x10, 0),
    (0x20, 0),
    (0x40, 0),
    (0x41, 4),
    (0xc0, 9),
    (0xc2, 11),
];

/// Where a header comes from that has these bytes at 24 and 25, and whose revision gives a legacy server that die.
fn origin(flags: u32, header_type: u32, [first, second]: [u8; 2], server_die: u8) -> Origin {
    match header_type {
        _ if flags & 1 != 0 => (first, Some(server_die)),
        _ if flags & 2 != 0 => NOWHERE,
        6 => (second, Some(first)),
        _ => NOWHERE,
    }
}

/// Each header type under each flag number, in two records; types 7 to 15 where a flag makes them legacy headers. Pairs and
/// revisions come in turn.
fn layouts(cases: &mut Vec<Case>) {
    let mut pairs = PAIRS.into_iter().cycle();
    let mut dies = DIES.into_iter().cycle();
    for flags in 0..16 {
        for header_type in 0..if flags & 3 != 0 { 16 } else { 7 } {
            let mut record = || {
                let (pair, (revision, die)) = (pairs.next().unwrap(), dies.next().unwrap());
                let version = word(revision, header_type, 0x123, PUNIT);
                (placed_record(version, flags, pair), origin(flags, header_type, pair, die))
            };
            cases.push(listing_of(&always(flags), &[record(), record()]));
        }
    }
}

/// Records with one version word after each other, with each of the values at 24 beside each at 25.
fn values(cases: &mut Vec<Case>) {
    for (flags, header_type) in [(0, 4), (0, 6), (1, 0), (2, 6), (3, 6)] {
        let record = |first: u8, second: u8| {
            let bytes = placed_record(word(0x82, header_type, 0x123, PUNIT), flags, [first, second]);
            (bytes, origin(flags, header_type, [first, second], 11))
        };
        let records = PAIRS.iter().flat_map(|[first, _]| PAIRS.iter().map(move |[_, second]| record(*first, *second)));
        cases.push(listing_of(&always(flags), &records.collect::<Vec<_>>()));
    }
}

/// Every listed revision in a region, where it decides the die and where it does not.
fn revisions(cases: &mut Vec<Case>) {
    for (flags, header_type) in [(1, 0), (3, 6), (5, 15), (9, 7), (0, 6), (2, 0)] {
        let record = |(revision, die)| {
            let bytes = placed_record(word(revision, header_type, 0x123, PUNIT), flags, [2, 3]);
            (bytes, origin(flags, header_type, [2, 3], die))
        };
        cases.push(listing_of(&always(flags), &DIES.map(record)));
    }
}

/// Rules by product: legacy server, legacy GPU, both, and a legacy server's Box.
const BY_PRODUCT: [u32; 12] =
    [0x00ff_f000, 0x02_f000, 1, 0x00ff_f000, 0x05_d000, 2, 0x00ff_f000, 0x03_0000, 3, 0x00ff_f000, 0x08_2000, 5];

/// Headers of all kinds: version word and pair; and where they come from.
const KINDS: [(u32, [u8; 2], Origin); 6] = [
    (0x0312_3101, [1, 2], NOWHERE),
    (0x0312_3681, [3, 4], (4, Some(3))),
    (0x0302_f081, [5, 6], (5, Some(10))),
    (0x0305_d081, [7, 8], NOWHERE),
    (0x0303_0602, [9, 10], (9, Some(8))),
    (0x0408_2083, [11, 12], (11, Some(12))),
];

/// The same record type for all: a Box.
fn as_box(version: u32) -> u32 {
    version & !0x3f00_0000 | BOX << 24
}

/// A Box of each kind with records of each kind in it, and a record after it; and Boxes of all kinds in each other.
fn boxes(cases: &mut Vec<Case>) {
    let flags = |version| flags_of(&BY_PRODUCT, version);
    let records = KINDS.map(|(version, pair, _)| placed_record(version, flags(version), pair)).concat();
    let origins = KINDS.map(|(_, _, origin)| origin);
    for (version, pair, origin) in KINDS {
        let region = [&placed_header(as_box(version), flags(version), pair, &records)[..], &records].concat();
        let rows = [&[origin], &origins[..], &origins].concat();
        cases.push(listing(&BY_PRODUCT, &region, AMPLE, span::WORDS * rows.len(), DONE, &rows));
    }
    for turn in 0..KINDS.len() {
        let mut nest = Vec::new();
        let mut rows = Vec::new();
        for (version, pair, origin) in KINDS.iter().cycle().skip(turn).take(5) {
            nest = placed_header(as_box(*version), flags(*version), *pair, &nest);
            rows.insert(0, *origin);
        }
        cases.push(listing(&BY_PRODUCT, &nest, AMPLE, span::WORDS * 5, DONE, &rows));
    }
}

/// Headers of which the record holds less than the bytes at 24 and 25: it declares less, and the next header starts at its byte
/// 4; or the region ends with the header, or before.
fn short_records(cases: &mut Vec<Case>) {
    let room = 5 * span::WORDS;
    for (flags, header_type, rows) in
        [(0, 6, &[(0x80, Some(0x7f))][..]), (1, 0, &[(0x7f, Some(11)), (0, Some(4))]), (2, 6, &[NOWHERE, NOWHERE])]
    {
        let mut bytes = placed_record(word(0x82, header_type, 0x123, PUNIT), flags, [0x7f, 0x80]);
        let size = if flags == 0 { 28 } else { 32 };
        cases.push(listing(&always(flags), &bytes[..size], AMPLE, room, DONE, &rows[..1]));
        cases.push(listing(&always(flags), &bytes[..size - 1], AMPLE, room, BAD_HEADER, &[]));
        put_sizes(&mut bytes, flags, 4);
        cases.push(listing(&always(flags), &bytes, AMPLE, room, DONE, rows));
    }
}

/// Nine records in tables whose length is a number of rows of ten, one more or less, or a number of rows of eight; and limits.
fn cuts(cases: &mut Vec<Case>) {
    let pairs: Vec<[u8; 2]> = (1..=9).map(|index| [index, 20 * index]).collect();
    let region: Vec<u8> = pairs.iter().flat_map(|pair| placed_record(word(1, 6, 0x123, PUNIT), 0, *pair)).collect();
    let origins: Vec<Origin> = pairs.iter().map(|[die, socket]| (*socket, Some(*die))).collect();
    for row in 0..=10 {
        for numbers in [10 * row, 10 * row + 1, 10 * row + 9, 8 * row, 8 * row + 7] {
            let (rows, answer) = if numbers < 90 { (numbers / 10, SPANS_FULL) } else { (9, DONE) };
            cases.push(listing(&[], &region, AMPLE, numbers, answer, &origins[..rows]));
        }
    }
    for limit in [0, 1, 8] {
        cases.push(listing(&[], &region, limit, 90, TRIES_SPENT, &origins[..limit as usize]));
    }
}

/// The dump's text of so many records that all are found, by its lines.
fn text(region: &[u8], lines: &[String]) -> Case {
    let case = expected::text(&Rc::from(region));
    let rows = lines.len();
    let by_hand = format!(
        "level offset held declared header version socket die name\n{}rows {rows} tries {rows} whole yes answer 0\n",
        lines.concat()
    );
    assert_eq!(String::from_utf8_lossy(&case.written), by_hand, "{}", case.describe());
    case
}

/// The text of Punit records one after the other: version word, pair, header size, and what socket and die are shown as.
fn flat_text(records: &[(u32, [u8; 2], u32, &str)]) -> Case {
    let region: Vec<u8> = records.iter().flat_map(|(version, pair, ..)| placed_record(*version, 0, *pair)).collect();
    let line = |(at, (version, _, size, shown)): (usize, &(u32, [u8; 2], u32, &str))| {
        format!("0 {} 36 36 {size} {version:08x} {shown} Punit\n", 36 * at)
    };
    text(&region, &records.iter().enumerate().map(line).collect::<Vec<_>>())
}

/// Numbers of one to three digits; each header type, and legacy products, which the dump has no rule for; the longest numbers
/// in every row that it has room for; and Boxes.
fn texts(cases: &mut Vec<Case>) {
    const TYPE_6: u32 = 0x0312_3601;
    let digits = [
        ([0, 0], "0 0"),
        ([0, 1], "1 0"),
        ([1, 0], "0 1"),
        ([9, 10], "10 9"),
        ([99, 100], "100 99"),
        ([127, 128], "128 127"),
        ([0, 255], "255 0"),
        ([255, 0], "0 255"),
        ([255, 255], "255 255"),
    ];
    cases.push(flat_text(&digits.map(|(pair, shown)| (TYPE_6, pair, 28, shown))));
    let types = [
        (0x0312_3001, 8, "0 -"),
        (0x0312_3101, 8, "0 -"),
        (0x0312_3201, 24, "0 -"),
        (0x0312_3301, 28, "0 -"),
        (0x0312_3401, 32, "0 -"),
        (0x0312_3501, 32, "0 -"),
        (TYPE_6, 28, "2 1"),
        (0x0302_f081, 8, "0 -"),
        (0x0305_d081, 8, "0 -"),
    ];
    cases.push(flat_text(&types.map(|(version, size, shown)| (version, [1, 2], size, shown))));
    cases.push(flat_text(&[(TYPE_6, [255, 255], 28, "255 255"); text::ROWS]));

    let inner = [placed_record(TYPE_6, 0, [0, 200]), placed_record(0x0312_3201, 0, [3, 4])].concat();
    let region = [placed_header(as_box(TYPE_6), 0, [10, 20], &inner), placed_record(TYPE_6, 0, [255, 1])].concat();
    let lines = [
        "0 0 100 100 28 3d123601 20 10 BOX\n",
        "1 28 36 36 28 03123601 200 0 Punit\n",
        "1 64 36 36 24 03123201 0 - Punit\n",
        "0 100 36 36 28 03123601 1 255 Punit\n",
    ];
    cases.push(text(&region, &lines.map(String::from)));
}
