//! The inputs: regions, CPERs, headers and rule tables. The same bytes in every run.
use std::ops::Range;

pub const MIB: usize = 1 << 20;

/// What lent tables and buffers are filled with before a call that is compared.
pub const UNTOUCHED: u32 = 0x5a5a_5a5a;

const PUNIT: u32 = 0x03;
const PCORE: u32 = 0x04;
const BOX: u32 = 0x3d;
const PRODUCT: u32 = 0x123;
const LEGACY_SERVER_PRODUCT: u32 = 0x2f;
const LEGACY_GPU_PRODUCT: u32 = 0x5d;

/// Bytes that look like chance (xorshift).
pub struct Chance(u64);

impl Chance {
    pub fn new(seed: u64) -> Chance {
        Chance(seed | 1)
    }

    pub fn next(&mut self) -> u64 {
        self.0 ^= self.0 << 13;
        self.0 ^= self.0 >> 7;
        self.0 ^= self.0 << 17;
        self.0.wrapping_mul(0x2545_f491_4f6c_dd1d)
    }

    fn fill(&mut self, bytes: &mut [u8]) {
        for byte in bytes {
            *byte = (self.next() >> 56) as u8;
        }
    }
}

fn version(record_type: u32, product: u32, header_type: u32, revision: u32) -> u32 {
    record_type << 24 | product << 12 | header_type << 8 | revision
}

fn put16(bytes: &mut [u8], at: usize, x: usize) {
    bytes[at..at + 2].copy_from_slice(&(x as u16).to_le_bytes());
}

fn put32(bytes: &mut [u8], at: usize, x: u32) {
    bytes[at..at + 4].copy_from_slice(&x.to_le_bytes());
}

/// A record of so many bytes, its size told in words, where one field is too small in both; the rest is chance.
fn record(word: u32, size: usize, chance: &mut Chance) -> Vec<u8> {
    let mut bytes = vec![0; size];
    chance.fill(&mut bytes);
    put32(&mut bytes, 0, word);
    let words = size / 4;
    let main = words.min(65_535);
    put16(&mut bytes, 4, main);
    put16(&mut bytes, 6, words - main);
    bytes
}

/// Records one after the other, the last one cut where it does not fit.
fn filled(len: usize, record: impl FnMut(usize) -> Vec<u8>) -> Vec<u8> {
    let mut region = Vec::new();
    let mut records = (0..).map(record);
    while region.len() < len {
        region.extend(records.next().unwrap());
    }
    region.truncate(len);
    region
}

/// Records of 4 bytes, half their header: each record's sizes are the next one's version word, 1.
pub fn four_bytes(len: usize) -> Vec<u8> {
    filled(len, |_| vec![1, 0, 0, 0])
}

pub fn eight_bytes(len: usize) -> Vec<u8> {
    let mut chance = Chance::new(1);
    filled(len, |_| record(version(PUNIT, PRODUCT, 1, 1), 8, &mut chance))
}

/// No two neighbours have the same version word.
pub fn eight_bytes_differing(len: usize) -> Vec<u8> {
    let mut chance = Chance::new(2);
    filled(len, |i| record(version(PUNIT, PRODUCT + i as u32 % 1024, 1, 1), 8, &mut chance))
}

/// Records with headers of type 2, of so many bytes.
fn stamped(size: usize, len: usize) -> Vec<u8> {
    let mut chance = Chance::new(3);
    filled(len, |_| record(version(PUNIT, PRODUCT, 2, 1), size, &mut chance))
}

/// Nothing but a header.
pub fn twenty_four_bytes(len: usize) -> Vec<u8> {
    stamped(24, len)
}

pub fn sixty_four_bytes(len: usize) -> Vec<u8> {
    stamped(64, len)
}

pub fn four_kib(len: usize) -> Vec<u8> {
    stamped(4096, len)
}

/// Type 6 headers with eight status words, in records of 96 bytes.
pub fn type6(len: usize) -> Vec<u8> {
    let mut chance = Chance::new(4);
    filled(len, |_| {
        let mut bytes = record(version(PUNIT, PRODUCT, 6, 1), 96, &mut chance);
        put16(&mut bytes, 26, 0x8008);
        bytes
    })
}

/// A Box around some bytes.
fn boxed(inner: &[u8], chance: &mut Chance) -> Vec<u8> {
    let mut bytes = record(version(BOX, PRODUCT, 1, 1), 8 + inner.len(), chance);
    bytes[8..].copy_from_slice(inner);
    bytes
}

/// A record in four Boxes, each with nothing else in it.
pub fn thin_boxes(len: usize) -> Vec<u8> {
    let mut chance = Chance::new(5);
    filled(len, |_| {
        let mut bytes = record(version(PUNIT, PRODUCT, 1, 1), 8, &mut chance);
        for _ in 0..4 {
            bytes = boxed(&bytes, &mut chance);
        }
        bytes
    })
}

/// Four levels of Boxes with eight in each, and records of 64 bytes in the innermost.
pub fn wide_boxes(len: usize) -> Vec<u8> {
    let mut chance = Chance::new(6);
    let mut bytes = record(version(PUNIT, PRODUCT, 1, 1), 64, &mut chance);
    for _ in 0..4 {
        bytes = boxed(&bytes.repeat(8), &mut chance);
    }
    filled(len, |_| bytes.clone())
}

/// Legacy server records that are Boxes by the rules of the published errata, with eight records in each.
pub fn legacy_boxes(len: usize) -> Vec<u8> {
    let mut chance = Chance::new(7);
    let inner = record(version(PUNIT, PRODUCT, 1, 1), 16, &mut chance).repeat(8);
    filled(len, |_| {
        let mut bytes = record(version(PCORE, LEGACY_SERVER_PRODUCT, 0, 1), 32, &mut chance);
        bytes.extend(&inner);
        let words = bytes.len() / 4;
        put16(&mut bytes, 16, words);
        bytes
    })
}

/// A record of 8 bytes.
pub const RECORD: [u8; 8] = [0x01, 0x31, 0x12, 0x03, 2, 0, 0, 0];

/// What stops a region, with the number of its reason in crashlog.h. That of an ending is 2, 3 or 4.
pub const STOPS: [(&[u8], u64); 7] = [
    (&[], 1),
    (&[0, 0, 0, 0], 2),
    (&[0xef, 0xbe, 0xad, 0xde], 3),
    (&[0x01, 0x31, 0x12], 4),
    (&[0x01, 0x31, 0x12, 0x03, 2], 5),
    (&[0x01, 0x37, 0x12, 0x03, 2, 0, 0, 0], 5),
    (&[0x01, 0x31, 0x12, 0x03, 0, 0, 0, 0], 6),
];

/// Rules by which the size of a Box counts bytes.
pub const BOX_BYTES: [u32; 3] = [0x3f00_0000, BOX << 24, 8];

/// A Box around bytes of any length, for those rules.
pub fn box_of(inner: &[u8]) -> Vec<u8> {
    let mut bytes = [&[0x01, 0x31, 0x12, 0x3d, 0, 0, 0, 0], inner].concat();
    let size = bytes.len();
    put16(&mut bytes, 4, size);
    bytes
}

/// What a region may hold, for those rules, and on how many levels, counted from the top, no listing with it is whole: a record
/// that is cut short, a Box that is, a Box with nothing after its header, a Box that declares 4 bytes, so that a record starts
/// at its size, and the same that is no Box.
pub const CONTENTS: [(&[u8], usize); 5] = [
    (&[0x01, 0x31, 0x12, 0x03, 3, 0, 0, 0], 5),
    (&[0x01, 0x31, 0x12, 0x3d, 9, 0, 0, 0], 5),
    (&[0x01, 0x31, 0x12, 0x3d, 8, 0, 0, 0], 0),
    (&[0x01, 0x31, 0x12, 0x3d, 4, 0, 0, 0, 2, 0, 0, 0], 4),
    (&[0x01, 0x31, 0x12, 0x03, 1, 0, 0, 0, 2, 0, 0, 0], 0),
];

/// How many sections with bodies of 32 bytes a CPER of a length has.
pub fn sections_in(len: usize) -> usize {
    (len - 128) / (72 + 32)
}

/// The bytes in each body of a CPER with so many sections, whose bodies fill up to a length.
pub fn body_size(sections: usize, len: usize) -> usize {
    (len - 128 - 72 * sections) / sections
}

/// Such a CPER. Each of the four ways to have FRU id and FRU text comes in turn.
pub fn cper(sections: usize, len: usize) -> Vec<u8> {
    let mut chance = Chance::new(8);
    let body = body_size(sections, len);
    let mut bytes = vec![0; 128 + (72 + body) * sections];
    chance.fill(&mut bytes);
    bytes[..4].copy_from_slice(b"CPER");
    put32(&mut bytes, 6, 0xffff_ffff);
    put16(&mut bytes, 10, sections);
    put32(&mut bytes, 12, 1);
    put32(&mut bytes, 16, 7);
    for i in 0..sections {
        let at = 128 + 72 * i;
        put32(&mut bytes, at, (128 + 72 * sections + body * i) as u32);
        put32(&mut bytes, at + 4, body as u32);
        put16(&mut bytes, at + 8, 0x0100);
        put16(&mut bytes, at + 10, i % 4);
        put32(&mut bytes, at + 48, i as u32 % 4);
    }
    bytes
}

/// The record identifier of a Crash Log.
pub const CRASH_LOG: [u8; 16] =
    [0x11, 0xf3, 0x87, 0x8f, 0x98, 0xc9, 0x9e, 0x4d, 0xa0, 0xc4, 0x60, 0x65, 0x51, 0x8c, 0x4f, 0x6d];

/// The bytes of a section before its region.
const SECTION_HEADER: usize = 32;

/// A CPER whose sections are Crash Logs with such regions, and where each region lies.
pub fn cper_of_regions(sections: usize, len: usize, make: fn(usize) -> Vec<u8>) -> (Vec<u8>, Vec<Range<usize>>) {
    const FIRMWARE_ERROR: [u8; 16] =
        [0x96, 0x2a, 0x21, 0x81, 0xed, 0x09, 0x96, 0x49, 0x94, 0x71, 0x8d, 0x72, 0x9c, 0x8e, 0x69, 0xed];
    let mut bytes = cper(sections, len);
    let body = body_size(sections, len);
    let region = make(body - SECTION_HEADER);
    let mut regions = Vec::new();
    for i in 0..sections {
        let (descriptor, end) = (128 + 72 * i, 128 + 72 * sections + body * (i + 1));
        let start = end - region.len();
        bytes[descriptor + 16..][..16].copy_from_slice(&FIRMWARE_ERROR);
        bytes[start - CRASH_LOG.len()..start].copy_from_slice(&CRASH_LOG);
        bytes[start..end].copy_from_slice(&region);
        regions.push(start..end);
    }
    (bytes, regions)
}

/// The kinds of headers: a name, a header type, a product, status words.
pub const HEADERS: [(&str, u32, u32, usize); 9] = [
    ("type 1", 1, PRODUCT, 0),
    ("type 2", 2, PRODUCT, 0),
    ("type 3", 3, PRODUCT, 0),
    ("type 4", 4, PRODUCT, 0),
    ("type 5", 5, PRODUCT, 0),
    ("type 6, 8 words", 6, PRODUCT, 8),
    ("type 6, 127 words", 6, PRODUCT, 127),
    ("legacy server", 0, LEGACY_SERVER_PRODUCT, 0),
    ("legacy GPU", 0, LEGACY_GPU_PRODUCT, 0),
];

/// Many headers of one kind.
pub fn headers(kind: usize) -> Vec<Vec<u8>> {
    let (_, header_type, product, words) = HEADERS[kind];
    let mut chance = Chance::new(9);
    (0..256)
        .map(|i| {
            let mut bytes = record(version(PUNIT, product, header_type, i), 64 + 4 * words, &mut chance);
            if header_type == 6 {
                put16(&mut bytes, 26, 0x8000 | words);
            }
            bytes
        })
        .collect()
}

/// Tries that are enough for any region.
pub fn most_tries(region: &[u8]) -> u64 {
    5 * region.len() as u64
}

/// Rules that apply to no record here, to fill a table up.
pub fn padded(rules: &[u32], rows: usize) -> Vec<u32> {
    let mut padded = rules.to_vec();
    for i in rules.len() / 3..rows {
        padded.extend([0x00ff_f000, (0xf00 + i as u32) << 12, 8]);
    }
    padded
}
