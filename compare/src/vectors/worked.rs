//! Document 01's worked examples, written out by hand from the paper, and by document 02 why each region stops, whether the
//! listing is whole, and socket and die. What the Rust says must be the same.

use crate::case::{Call, Case, Source};
use crate::expected;
use crate::header::{Header, LEGACY_SERVER};
use crate::kinds::containers;
use crate::span::{self, NO_DIE, NO_PARENT, Span};
use std::rc::Rc;

/// P12's input.
pub const DUMP_INPUT: [u8; 28] = [
    0x01, 0x31, 0x12, 0x3d, 0x05, 0x00, 0x00, 0x00, 0x01, 0x31, 0x12, 0x03, 0x02, 0x00, 0x00, 0x00, 0x00, 0x00, 0x00, 0x00,
    0x01, 0x31, 0x12, 0x3e, 0x04, 0x00, 0x00, 0x00,
];

const P5: [u8; 8] = [0x01, 0x37, 0x12, 0x03, 0x02, 0x00, 0x00, 0x00];
const P7_FIRST: [u8; 8] = [0x01, 0x31, 0x12, 0x03, 0x02, 0x00, 0x00, 0x00];
const AMPLE: u64 = 1000;

pub fn list() -> Vec<Case> {
    [single_regions(), boxes(), dies_and_counts(), dump_input(), texts(), long_regions(), containers()].concat()
}

/// A row of a record with a header of 8 bytes, which has no socket and no die, and no flags.
fn row(level: u32, parent: u32, offset: u32, held: u32, declared: u32, version: u32) -> Span {
    Span { level, parent, offset, held, declared, header_size: 8, version, socket: 0, die: NO_DIE, flags: 0 }
}

/// A listing with room for so many rows: it tells an answer, tries, a bad type, whole and why it stopped, and writes rows.
fn listing(region: &[u8], limit: u64, room: usize, told: [u64; 5], rows: &[Span]) -> Case {
    let [answer, tries, bad_type, whole, stop] = told;
    let (region, room): (Rc<[u8]>, usize) = (Rc::from(region), room * span::WORDS);
    let case = Case { number: limit, room, ..Case::new(Call::Listings, Source::Paper, &region) };
    let told = [answer, rows.len() as u64, tries, bad_type, whole, stop];
    let case = Case { written: expected::span_bytes(rows), ..case.tell(&told) };
    let walk = expected::walk(&[], &region);
    agrees(case, expected::listing(&Rc::from([]), &region, &walk, limit, room))
}

/// The paper's case, after it was held to what the Rust gives.
fn agrees(paper: Case, rust: Case) -> Case {
    assert_eq!((paper.told, &paper.written), (rust.told, &rust.written), "the paper and the Rust: {}", paper.describe());
    paper
}

/// P1 to P7.
fn single_regions() -> Vec<Case> {
    let only = row(0, NO_PARENT, 0, 8, 8, 0x0312_3101);
    vec![
        listing(&[], AMPLE, 10, [5, 0, 0, 0, 1], &[]),
        listing(&[0x01, 0x31, 0x12], AMPLE, 10, [5, 1, 0, 0, 4], &[]),
        listing(&[0xef, 0xbe, 0xad, 0xde], AMPLE, 10, [5, 1, 0, 0, 3], &[]),
        listing(&[0x01, 0x31, 0x12, 0x03, 0x02], AMPLE, 10, [3, 1, 0, 0, 5], &[]),
        listing(&P5, AMPLE, 10, [4, 1, 7, 0, 5], &[]),
        listing(&[0x01, 0x31, 0x12, 0x03, 0, 0, 0, 0], AMPLE, 10, [5, 1, 0, 0, 6], &[]),
        listing(&[P7_FIRST, P5].concat(), AMPLE, 10, [0, 2, 0, 0, 5], &[only]),
    ]
}

/// P10: six Boxes of 48, 40, 32, 24, 16, 8 bytes, each the payload of the last.
fn boxes() -> Vec<Case> {
    let region: Vec<u8> = [12, 10, 8, 6, 4, 2].iter().flat_map(|words| [0x01, 0x31, 0x12, 0x3d, *words, 0, 0, 0]).collect();
    let rows: [Span; 5] = [
        row(0, NO_PARENT, 0, 48, 48, 0x3d12_3101),
        row(1, 0, 8, 40, 40, 0x3d12_3101),
        row(2, 1, 16, 32, 32, 0x3d12_3101),
        row(3, 2, 24, 24, 24, 0x3d12_3101),
        row(4, 3, 32, 16, 16, 0x3d12_3101),
    ];
    vec![listing(&region, AMPLE, 10, [0, 5, 0, 1, 1], &rows)]
}

/// P8 and P9.
fn dies_and_counts() -> Vec<Case> {
    let mut cases = Vec::new();
    for (revision, die_id) in [(0x83, 12), (0x03, 12), (0x81, 10), (0x02, 8)] {
        let mut bytes = vec![revision, 0xf0, 0x02, 0x04];
        bytes.resize(32, 0);
        let header = Header {
            revision: revision as u32,
            product_id: 0x2f,
            record_type: 4,
            layout: LEGACY_SERVER,
            die_id,
            ..Header::ZERO
        };
        cases.push(decoded(&[0, 0, 1], bytes, header, [0, 0, 32, 1]));
    }
    for (halfword, completion_status_size, size) in [(0xffff_u16, 127, 536), (0xff80, 0, 28)] {
        let mut bytes = vec![0x01, 0x36, 0x12, 0x03];
        bytes.resize(536, 0);
        bytes[26..28].copy_from_slice(&halfword.to_le_bytes());
        let header = Header {
            revision: 1,
            header_type: 6,
            product_id: 0x123,
            record_type: 3,
            layout: 6,
            completion_status_size,
            collection_complete: 1,
            ..Header::ZERO
        };
        cases.push(decoded(&[], bytes, header, [0, 0, size, 0]));
    }
    cases
}

/// A header: it tells an answer, the bytes declared, the header's size and flags.
fn decoded(rules: &[u32], bytes: Vec<u8>, header: Header, told: [u64; 4]) -> Case {
    let (rules, bytes): (Rc<[u32]>, Rc<[u8]>) = (Rc::from(rules), Rc::from(bytes));
    let case = Case { rules: rules.clone(), ..Case::new(Call::Headers, Source::Paper, &bytes).tell(&told) };
    agrees(Case { written: header.to_bytes(), ..case }, expected::header(&rules, &bytes))
}

/// P11 and P12.
fn dump_input() -> Vec<Case> {
    let rows: [Span; 3] = [
        row(0, NO_PARENT, 0, 20, 20, 0x3d12_3101),
        row(1, 0, 8, 8, 8, 0x0312_3101),
        row(0, NO_PARENT, 20, 8, 16, 0x3e12_3101),
    ];
    vec![
        listing(&DUMP_INPUT, AMPLE, 10, [0, 4, 0, 0, 1], &rows),
        listing(&DUMP_INPUT, 2, 10, [7, 2, 0, 0, 0], &rows[..2]),
        listing(&DUMP_INPUT, AMPLE, 1, [6, 2, 0, 0, 0], &rows[..1]),
    ]
}

/// P12's text, and those of no bytes, of 65,535 and of 65,536 bytes.
fn texts() -> Vec<Case> {
    let heading = "level offset held declared header version socket die name\n";
    let p12 = "0 0 20 20 8 3d123101 0 - BOX\n1 8 8 8 8 03123101 0 - Punit\n0 20 8 16 8 3e123101 0 - MCA\n\
               rows 3 tries 4 whole no answer 0\n";
    let long = |length| crate::inputs::regions::repeated(&[0x01, 0x31, 0x12, 0x03, 0xff, 0xff, 0, 0], length);
    let longest = "0 0 65535 262140 8 03123101 0 - Punit\nrows 1 tries 1 whole no answer 0\n";
    let text = |region: &[u8], lines: &str| {
        let region = Rc::from(region);
        let written = format!("{heading}{lines}").into_bytes();
        let case = Case::new(Call::Texts, Source::Paper, &region).tell(&[written.len() as u64]);
        agrees(Case { written, ..case }, expected::text(&region))
    };
    vec![
        text(&DUMP_INPUT, p12),
        text(&[], "rows 0 tries 0 whole no answer 5\n"),
        text(&long(65_535), longest),
        text(&long(65_536), "rows 0 tries 0 whole no answer 1\n"),
    ]
}

/// A region of 1,048,576 bytes is walked, one of 1,048,577 is too long. Each record declares 524,280 bytes.
fn long_regions() -> Vec<Case> {
    let long = |length| crate::inputs::regions::repeated(&[0x01, 0x31, 0x12, 0x03, 0xff, 0xff, 0xff, 0xff], length);
    let rows: [Span; 3] = [
        row(0, NO_PARENT, 0, 524_280, 524_280, 0x0312_3101),
        row(0, NO_PARENT, 524_280, 524_280, 524_280, 0x0312_3101),
        row(0, NO_PARENT, 1_048_560, 16, 524_280, 0x0312_3101),
    ];
    vec![
        listing(&long(1_048_576), AMPLE, 10, [0, 3, 0, 0, 1], &rows),
        listing(&long(1_048_577), AMPLE, 10, [1, 0, 0, 0, 0], &[]),
    ]
}

/// 127 bytes are no CPER; severity 4 is written as 3. The record header is the paper's table, field by field.
fn containers() -> Vec<Case> {
    let mut cper = vec![0; 128];
    cper[0..4].copy_from_slice(b"CPER");
    cper[6..10].copy_from_slice(&[0xff; 4]);
    cper[12] = 4;
    let mut normal = cper.clone();
    normal[12] = 3;
    normal[20] = 128;
    let (whole, short): (Rc<[u8]>, Rc<[u8]>) = (Rc::from(&cper[..]), Rc::from(&cper[..127]));
    let (read, none) = (containers::read(&whole), containers::read(&short));
    let refused = |call| Case { room: 300, ..Case::new(call, Source::Paper, &short) }.tell(&[8]);
    let written = Case { room: 300, written: normal, ..Case::new(Call::NormalForms, Source::Paper, &whole) };
    vec![
        agrees(refused(Call::Tables), expected::table(&short, &none, 300)),
        agrees(Case { room: 0, ..refused(Call::Sections) }, expected::section(&short, &none, 0)),
        agrees(refused(Call::NormalForms), expected::normal_form(&short, &none, 300)),
        agrees(written.tell(&[0, 128]), expected::normal_form(&whole, &read, 300)),
    ]
}
