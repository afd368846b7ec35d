//! Headers encoded: what the Rust decoded gives its bytes back, and a header with a bad field is refused.

use crate::case::{Source, hex};
use crate::encoder;
use crate::expected::{DONE, good_rules};
use crate::header::{FIELD_BYTES, Header};
use crate::inputs::{regions, rule_tables, words};
use crate::random::Random;
use crate::rust::standin;
use crate::tally::Tally;
use crate::told::Tried;
use std::rc::Rc;

const KIND: &str = "encodes";
const READ_BACK: &str = "encodes read back";

/// Where each field of a header lies among its bytes, and the field's width.
pub const FIELDS: [(usize, usize); 22] = [
    (0, 8),
    (8, 4),
    (12, 4),
    (16, 4),
    (20, 4),
    (24, 4),
    (28, 4),
    (32, 4),
    (36, 4),
    (40, 2),
    (42, 2),
    (44, 2),
    (46, 2),
    (48, 1),
    (49, 1),
    (50, 1),
    (51, 1),
    (52, 1),
    (53, 1),
    (54, 1),
    (55, 1),
    (56, 4),
];

/// The header with one field set to a value, cut to its width.
pub fn with_field(header: &Header, (at, width): (usize, usize), value: u64) -> Header {
    let mut bytes = header.to_bytes();
    bytes[at..at + width].copy_from_slice(&value.to_le_bytes()[..width]);
    Header::from_bytes(&bytes)
}

/// The header that the Rust reads there, if any.
pub fn decoded(rules: &[u32], bytes: &[u8]) -> Option<(Header, usize)> {
    standin::set_rules(rules);
    match standin::header(bytes) {
        Tried::Good(good) => Some((good.header, good.size)),
        _ => None,
    }
}

/// Tries a header in rooms around its length; where it is encoded, the Rust must read the same fields from what is written.
fn check(tally: &mut Tally, rules: &Rc<[u32]>, header: &Header, source: Source) {
    let ample = encoder::case(rules, header, 540, source);
    let length = ample.written.len();
    tally.check(KIND, ample.clone());
    for room in [0, length.saturating_sub(1), length] {
        tally.check(KIND, encoder::case(rules, header, room, source));
    }
    if ample.answer() == DONE {
        let (read, size) = decoded(rules, &ample.written).expect("what is encoded is a header");
        let again = encoder::encode(rules, &read);
        let same = size == length && again.as_deref() == Some(&ample.written[..]) && agrees(&read, header);
        tally.note(READ_BACK, same, || ample.describe());
    }
}

/// Every field that was read and is not zero is the header's. (Fields that its layout lacks are read as zero.)
fn agrees(read: &Header, header: &Header) -> bool {
    let (read, header) = (read.to_bytes(), header.to_bytes());
    (0..FIELD_BYTES).all(|at| read[at] == header[at] || read[at] == 0)
}

/// The bytes that the Rust decoded come back, with unread bits zero.
fn check_inverse(tally: &mut Tally, rules: &Rc<[u32]>, bytes: &[u8]) -> Option<Header> {
    let (header, size) = decoded(rules, bytes)?;
    let case = encoder::case(rules, &header, size, Source::Inverse);
    let same = case.written == encoder::without_unread_bits(header.layout, &bytes[..size]);
    tally.note(READ_BACK, same, || format!("{} from {}", case.describe(), hex(bytes)));
    check(tally, rules, &header, Source::Inverse);
    Some(header)
}

/// Each layout with each field at each bound.
pub fn fixed(tally: &mut Tally) {
    let mut random = Random::new(4);
    for (flags, header_type) in [(0, 0), (0, 1), (0, 2), (0, 3), (0, 4), (0, 5), (0, 6), (1, 0), (2, 0), (3, 9), (2, 15)] {
        let rules = Rc::from(rule_tables::always(flags));
        let mut bytes = random.bytes(540);
        bytes[..4].copy_from_slice(&words::word(0x83, header_type, 0x2f, words::PCORE).to_le_bytes());
        let header = check_inverse(tally, &rules, &bytes).expect("540 bytes hold every header");
        for field in FIELDS {
            for bits in [0, 1, 2, 4, 6, 7, 8, 12, 15, 16, 31, 32, 63] {
                for value in [(1 << bits) - 1, 1 << bits, (1 << bits) + 1] {
                    check(tally, &rules, &with_field(&header, field, value), Source::Paper);
                }
            }
        }
    }
    for word in [0, 0xdead_beef_u32] {
        let header = ended(word);
        (0..4).for_each(|flags| check(tally, &Rc::from(rule_tables::always(flags)), &header, Source::Paper));
    }
}

/// A header whose version word is that one.
pub fn ended(word: u32) -> Header {
    let header_type = (word >> 8 & 15) as u16;
    Header {
        revision: word & 0xff,
        header_type,
        layout: header_type as u8,
        product_id: word >> 12 & 0xfff,
        record_type: (word >> 24 & 0x3f) as u8,
        cldic: (word >> 30 & 1) as u8,
        consumed: (word >> 31) as u8,
        ..Header::ZERO
    }
}

pub fn round(tally: &mut Tally, random: &mut Random) {
    let rules: Rc<[u32]> = Rc::from(rule_tables::any(random));
    let length = random.pick(&[8, 24, 28, 32, 60, 536]);
    let bytes = regions::noise(random, length);
    let header = if good_rules(&rules) { check_inverse(tally, &rules, &bytes) } else { None };
    let mut header = header.unwrap_or_else(|| Header::from_bytes(&random.plain_bytes(FIELD_BYTES)));
    for _ in 0..1 + random.below(3) {
        let field = random.pick(&FIELDS);
        let bits = random.below(64);
        header = with_field(&header, field, random.next() >> bits);
    }
    check(tally, &rules, &header, Source::Paper);
}
