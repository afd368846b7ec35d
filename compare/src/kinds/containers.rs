//! CPERs: the section table, one section, the normal form.

use crate::expected::{self, MOST_BYTES};
use crate::inputs::{cpers, damage};
use crate::random::Random;
use crate::rust::standin;
use crate::tally::Tally;
use crate::told::Container;
use std::rc::Rc;

const TABLES: &str = "section tables";
const SECTIONS: &str = "sections";
const NORMAL: &str = "normal forms";
const LONG: &str = "long CPERs";

/// What the stand-in form reads, within the comparison's domain.
pub fn read(cper: &[u8]) -> Option<Container> {
    assert!(cpers::normal_length(cper) <= cpers::MOST_COPIED);
    if cper.len() > MOST_BYTES { None } else { standin::container(cper) }
}

fn check(tally: &mut Tally, cper: &[u8]) {
    let read = read(cper);
    let cper: Rc<[u8]> = Rc::from(cper);
    let (rows, length) = read.as_ref().map_or((0, 0), |read| (read.kept.len(), read.normal.len()));
    bodies(tally, &cper, &read);
    for room in [0, 3 * rows, (3 * rows).saturating_sub(1), 3 * rows + 5] {
        tally.check(TABLES, expected::table(&cper, &read, room));
    }
    for row in (0..=rows as u32).chain([u32::MAX]) {
        tally.check(SECTIONS, expected::section(&cper, &read, row));
    }
    for room in [0, length, length.saturating_sub(1), length + 7] {
        tally.check(NORMAL, expected::normal_form(&cper, &read, room));
    }
}

/// The body that the Rust copied is the part of the input that the table names.
fn bodies(tally: &mut Tally, cper: &[u8], read: &Option<Container>) {
    if let Some(container) = read {
        for (kept, body) in container.kept.iter().zip(&container.bodies) {
            let [_, offset, length] = kept.map(|number| number as usize);
            let same = cper[offset..offset + length] == body[..];
            tally.note(SECTIONS, same, || format!("body {kept:?} of {}", crate::case::hex(cper)));
        }
    }
}

pub fn fixed(tally: &mut Tally) {
    cuts(tally);
    signatures(tally);
    header_fields(tally);
    bodies_anywhere(tally);
    long(tally);
    over_32_bits(tally);
}

/// A CPER of three sections, cut at every byte.
fn cuts(tally: &mut Tally) {
    let good = cpers::plain(&[b"one", b"", b"and three"]);
    for length in 0..=good.len() {
        check(tally, &good[..length]);
    }
}

/// Every bit of the two signatures wrong, and every bit of the bytes between them.
fn signatures(tally: &mut Tally) {
    for bit in 0..8 * 12 {
        let mut cper = cpers::plain(&[b"body"]);
        cper[bit / 8] ^= 1 << (bit % 8);
        check(tally, &cper);
    }
}

/// Every validation byte and timestamp byte 3, severities around the bound, in the header and in a descriptor.
fn header_fields(tally: &mut Tally) {
    for byte in 0..=255 {
        let mut cper = cpers::plain(&[b"body"]);
        cper[20..128].fill(0xa7);
        cper[136..176].fill(0x5c);
        cper[176..200].fill(0x93);
        for at in [16, 17, 19, 27, 128 + 10, 128 + 11] {
            let mut cper = cper.clone();
            cper[16] |= 2;
            cper[at] = byte;
            check(tally, &cper);
        }
        for at in [12, 13, 15, 128 + 48, 128 + 51] {
            let mut cper = cper.clone();
            cper[128 + 48..128 + 52].fill(0);
            cper[at] = byte;
            check(tally, &cper);
        }
    }
}

/// Two sections whose bodies start and end at each of some places, in an input of 273 bytes.
fn bodies_anywhere(tally: &mut Tally) {
    let places = [0, 1, 128, 271, 272, 273, 274, 0x8000_0000, u32::MAX];
    for (offset, length) in places.iter().flat_map(|offset| places.map(|length| (*offset, length))) {
        for (other, its_length) in [(0, 273), (273, 0), (200, 74)] {
            let mut cper = cpers::plain_header(2);
            cper.extend(cpers::plain_descriptor(offset, length));
            cper.extend(cpers::plain_descriptor(other, its_length));
            cper.push(0xee);
            check(tally, &cper);
        }
    }
}

/// CPERs of 1,048,575 to 1,048,577 bytes: one body to the end, and 14,561 empty or short sections.
fn long(tally: &mut Tally) {
    for length in [MOST_BYTES - 1, MOST_BYTES, MOST_BYTES + 1] {
        let mut one = cpers::plain_header(1);
        one.extend(cpers::plain_descriptor(200, length as u32 - 200));
        one.resize(length, 0x6b);
        let empty = cpers::periodic(u16::MAX, length as u32, 0, length);
        let many = cpers::periodic(u16::MAX, 7, 101, length);
        for cper in [one, empty, many] {
            let read = read(&cper);
            let cper: Rc<[u8]> = Rc::from(cper);
            let (rows, size) = read.as_ref().map_or((0, 0), |read| (read.kept.len(), read.normal.len()));
            for less in [0, 1] {
                tally.check(LONG, expected::table(&cper, &read, (3 * rows).saturating_sub(less)));
                tally.check(LONG, expected::section(&cper, &read, (rows as u32).saturating_sub(less as u32)));
                tally.check(LONG, expected::normal_form(&cper, &read, size.saturating_sub(less)));
            }
        }
    }
}

/// Normal forms longer than 32 bits count, which the Rust would wrap. The shortest such input has 556,127 bytes: its normal
/// form has 1,510 bytes more than 2 to the 32. The Rust is not asked, since it would copy gigabytes.
fn over_32_bits(tally: &mut Tally) {
    for length in [556_127, MOST_BYTES] {
        let cper = cpers::periodic(u16::MAX, 0, length as u32, length);
        assert!(cpers::normal_length(&cper) > u32::MAX as u64);
        for room in [0, 1_509, 1_510, 1_511, 1 << 16] {
            tally.check(LONG, expected::output_short(&Rc::from(&cper[..]), room));
        }
    }
}

pub fn round(tally: &mut Tally, random: &mut Random) {
    let cper = cpers::random_cper(random);
    check(tally, &cper);
    let damaged = damage::damaged(random, &cper);
    if cpers::normal_length(&damaged) <= cpers::MOST_COPIED {
        check(tally, &damaged);
    }
}
