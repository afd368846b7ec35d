//! Regions: records with their headers, sizes and nested Boxes, by a rule table.

use super::rule_tables::flags_of;
use super::words::{BOX, random_word, word};
use crate::random::Random;

/// Header bytes by flags and type; for type 6 with no status words.
pub fn header_size(flags: u32, header_type: u32) -> usize {
    match header_type {
        _ if flags & 3 != 0 => 32,
        2 => 24,
        3 | 6 => 28,
        4 | 5 => 32,
        _ => 8,
    }
}

/// A header's bytes with the sizes that declare `declared` bytes, or the nearest more.
pub fn put_sizes(header: &mut [u8], flags: u32, declared: usize) {
    let units = if flags & 8 != 0 { declared } else { declared.div_ceil(4) };
    let record = units.min(0xffff) as u16;
    let extended = (units - record as usize).min(0xffff) as u16;
    if flags & 3 != 0 {
        header[16..18].copy_from_slice(&record.to_le_bytes());
    } else {
        header[4..6].copy_from_slice(&record.to_le_bytes());
        header[6..8].copy_from_slice(&extended.to_le_bytes());
    }
}

/// Some records, mostly with Boxes in Boxes, and what may stand after them.
pub fn region(random: &mut Random, rules: &[u32]) -> Vec<u8> {
    records(random, rules, 0)
}

fn records(random: &mut Random, rules: &[u32], level: usize) -> Vec<u8> {
    let mut bytes = Vec::new();
    for _ in 0..random.pick(&[0, 1, 1, 1, 2, 2, 3, 5]) {
        bytes.extend(record(random, rules, level));
    }
    match random.below(8) {
        0 => bytes.extend([0; 4]),
        1 => bytes.extend(0xdead_beef_u32.to_le_bytes()),
        2 => {
            let count = random.below(9);
            bytes.extend(random.plain_bytes(count));
        }
        _ => {}
    }
    bytes
}

fn record(random: &mut Random, rules: &[u32], level: usize) -> Vec<u8> {
    let mut version = random_word(random);
    if level < 7 && random.once_in(2) {
        version = version & !0x3f00_0000 | BOX << 24;
    }
    let flags = flags_of(rules, version);
    let mut bytes = header(random, version, flags);
    if (version >> 24 & 0x3f == BOX || flags & 4 != 0) && level < 7 {
        bytes.extend(records(random, rules, level + 1));
    } else {
        let count = random.pick(&[0, 0, 1, 4, 8, 13]);
        bytes.extend(random.plain_bytes(count));
    }
    if flags & 8 == 0 {
        bytes.resize(bytes.len().next_multiple_of(4), 0);
    }
    let size = header_size(flags, version >> 8 & 15);
    let declared = match random.below(16) {
        0 => 0,
        1 => random.below(size + 1),
        2 => bytes.len() + 1 + random.below(9),
        3 => random.below(0x4_0000),
        4 => size,
        _ => bytes.len(),
    };
    put_sizes(&mut bytes, flags, declared);
    bytes
}

/// A header's bytes, with any numbers in its fields and mostly few status words.
fn header(random: &mut Random, version: u32, flags: u32) -> Vec<u8> {
    let header_type = version >> 8 & 15;
    let mut bytes = random.bytes(header_size(flags, header_type));
    bytes[..4].copy_from_slice(&version.to_le_bytes());
    if header_type == 6 && flags & 3 == 0 {
        let count = random.pick(&[0, 0, 1, 1, 2, 3, 126, 127]);
        bytes[26] = count | random.next() as u8 & 0x80;
        bytes.extend(random.bytes(4 * count as usize));
    }
    bytes
}

/// A record of 36 bytes with a header without status words. `pair` stands at 24 and 25, where type 6 has die and socket and a
/// legacy server its socket; the bytes beside it are others. What stands after a shorter header is no record.
pub fn placed_record(version: u32, flags: u32, pair: [u8; 2]) -> Vec<u8> {
    let mut bytes = version.to_le_bytes().to_vec();
    bytes.extend([0x51, 0x52, 0x53, 0x54, 0, 0, 0, 0]);
    bytes.extend(0xa0..0xac);
    bytes.extend(pair);
    bytes.extend([0x80, 0xc3, 0, 0, 0, 0, 0, 0, 0, 0]);
    put_sizes(&mut bytes, flags, 36);
    bytes
}

/// The header of such a record, with other bytes after it.
pub fn placed_header(version: u32, flags: u32, pair: [u8; 2], body: &[u8]) -> Vec<u8> {
    let size = header_size(flags, version >> 8 & 15);
    let mut bytes = [&placed_record(version, flags, pair)[..size], body].concat();
    put_sizes(&mut bytes, flags, size + body.len());
    bytes
}

/// Boxes with type 1 headers, each the payload of the last, of 8 bytes less.
pub fn nest(boxes: usize) -> Vec<u8> {
    (1..=boxes).rev().flat_map(|left| small_record(BOX, 8 * left)).collect()
}

/// A type 1 header of product 0x123 that declares `declared` bytes, rounded up to words.
pub fn small_record(record_type: u32, declared: usize) -> Vec<u8> {
    let mut bytes = word(1, 1, 0x123, record_type).to_le_bytes().to_vec();
    bytes.extend([0; 4]);
    put_sizes(&mut bytes, 0, declared);
    bytes
}

/// A header of the most bytes, 536, in a region of 604 that has nothing but records of a word after its own: most of them start
/// inside the header.
pub fn largest_header(record_type: u32, declared: usize) -> Vec<u8> {
    let mut bytes = word(1, 6, 0x123, record_type).to_le_bytes().to_vec();
    bytes.extend([1, 0, 0, 0].repeat(150));
    bytes[20] = 2; // the record before it has two words, so that none has the count of status words for its size
    bytes[26] = 0x7f;
    put_sizes(&mut bytes, 0, declared);
    bytes
}

/// A region of `length` bytes made of one record again and again.
pub fn repeated(record: &[u8], length: usize) -> Vec<u8> {
    record.iter().copied().cycle().take(length).collect()
}

/// Any bytes: with many zeros, or with a good version word at the start.
pub fn noise(random: &mut Random, length: usize) -> Vec<u8> {
    let mut bytes = if random.once_in(2) { random.bytes(length) } else { random.plain_bytes(length) };
    if length >= 4 && !random.once_in(4) {
        bytes[..4].copy_from_slice(&random_word(random).to_le_bytes());
    }
    bytes
}
