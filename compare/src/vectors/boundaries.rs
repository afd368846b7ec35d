//! Cases at each bound that document 01 names.

use crate::case::{Case, Source};
use crate::encoder;
use crate::expected;
use crate::header::Header;
use crate::inputs::{cpers, regions, rule_tables, words};
use crate::kinds::containers;
use crate::kinds::encodes::{FIELDS, decoded, ended, with_field};
use crate::random::Random;
use crate::span;
use crate::vectors::worked::DUMP_INPUT;
use std::rc::Rc;

pub fn list() -> Vec<Case> {
    let mut cases = Vec::new();
    headers(&mut cases);
    rule_bounds(&mut cases);
    encodes(&mut cases);
    listings(&mut cases);
    long_listings(&mut cases);
    containers_at_bounds(&mut cases);
    names(&mut cases);
    texts(&mut cases);
    cases
}

/// A header's bytes of that type, with any numbers in its fields.
fn header_bytes(header_type: u32, revision: u32) -> Vec<u8> {
    let mut bytes = Random::new(header_type as u64).bytes(540);
    bytes[..4].copy_from_slice(&words::word(revision, header_type, 0x123, words::BOX).to_le_bytes());
    bytes
}

/// Lengths 0 to 8; each layout one byte short and whole; types 7 to 15; status counts with and without the bits beside them.
fn headers(cases: &mut Vec<Case>) {
    let mut push =
        |flags, bytes: &[u8]| cases.push(expected::header(&Rc::from(rule_tables::always(flags)), &Rc::from(bytes)));
    for length in 0..=8 {
        push(0, &header_bytes(1, 1)[..length]);
        push(0, &header_bytes(7, 1)[..length]);
        push(0, &vec![0; length]);
        push(0, &[0xef, 0xbe, 0xad, 0xde, 1, 0, 0, 0][..length]);
    }
    for flags in 0..16 {
        for header_type in 0..16 {
            let bytes = header_bytes(header_type, 0x83);
            let size = regions::header_size(flags, header_type);
            push(flags, &bytes[..size - 1]);
            if flags < 4 || header_type < 2 {
                push(flags, &bytes[..size]);
            }
        }
    }
    for count in [0, 1, 2, 64, 126, 127_u16] {
        for marks in [0, 0x8000, 0x7f80] {
            let mut bytes = header_bytes(6, 1);
            bytes[26..28].copy_from_slice(&(count | marks).to_le_bytes());
            let size = 28 + 4 * count as usize;
            push(0, &bytes[..size - 1]);
            push(0, &bytes[..size]);
        }
    }
    for revision in [0, 1, 2, 3, 0x7f, 0x80, 0x81, 0x82, 0xfc, 0xff] {
        push(1, &header_bytes(0, revision)[..32]);
    }
}

/// 64 and 65 rules, rules not in whole rows, flags 15 and 16; each for a header, an encoding and a listing.
fn rule_bounds(cases: &mut Vec<Case>) {
    let rows = |count: usize, flags: u32| [u32::MAX, 0, flags].repeat(count);
    let tables = [vec![0], vec![0; 2], vec![0; 4], rows(64, 15), rows(65, 15), rows(1, 16), rows(64, 16), vec![0, 0, 15]];
    for rules in tables {
        let rules: Rc<[u32]> = Rc::from(rules);
        let header = Header { revision: 1, product_id: 0x123, record_type: 3, ..Header::ZERO };
        let legacy = Header { die_id: 4, layout: crate::header::LEGACY_SERVER, ..header };
        for bytes in [&DUMP_INPUT[..], &DUMP_INPUT[..3], &[]] {
            let bytes = Rc::from(bytes);
            cases.push(expected::header(&rules, &bytes));
            cases.push(expected::listing(&rules, &bytes, &expected::walk(&rules, &bytes), 10, 10 * span::WORDS));
        }
        cases.push(encoder::case(&rules, &header, 40, Source::Paper));
        cases.push(encoder::case(&rules, &legacy, 40, Source::Paper));
        let long: Rc<[u8]> = Rc::from(regions::repeated(&DUMP_INPUT, 1_048_577));
        cases.push(expected::listing(&rules, &long, &None, 10, 10 * span::WORDS));
    }
}

/// Each layout: its bytes back, rooms around them, and each field at and past its bits.
fn encodes(cases: &mut Vec<Case>) {
    let bits = |at: usize| match at {
        8 => 8,
        12 => 12,
        24 => 31,
        40 => 4,
        46 => 7,
        48 => 6,
        49 | 50 | 54 => 1,
        51 => 3,
        _ => 0,
    };
    for (flags, header_type) in [(0, 0), (0, 1), (0, 2), (0, 3), (0, 4), (0, 5), (0, 6), (1, 0), (2, 0), (3, 9), (2, 15)] {
        let rules: Rc<[u32]> = Rc::from(rule_tables::always(flags));
        let mut bytes = header_bytes(header_type, 0x83);
        if header_type == 6 {
            bytes[26..28].copy_from_slice(&[0x83, 0xff]);
        }
        let (header, size) = decoded(&rules, &bytes).expect("540 bytes hold every header");
        for room in [0, size - 1, size, size + 9] {
            cases.push(encoder::case(&rules, &header, room, Source::Inverse));
        }
        for field in FIELDS {
            for value in [0, (1 << bits(field.0)) - 1, 1 << bits(field.0)] {
                cases.push(encoder::case(&rules, &with_field(&header, field, value), 540, Source::Paper));
            }
        }
    }
    for count in [0, 1, 126, 127, 128, 0x7f80, 0xffff] {
        let header = Header { completion_status_size: count, header_type: 6, layout: 6, revision: 1, ..Header::ZERO };
        cases.push(encoder::case(&Rc::from([]), &header, 540, Source::Paper));
    }
    for word in [0, 0xdead_beef, 0xdead_bee0] {
        cases.push(encoder::case(&Rc::from([0, 0, 1]), &Header { layout: 7, ..ended(word) }, 540, Source::Paper));
        cases.push(encoder::case(&Rc::from([]), &ended(word), 540, Source::Paper));
    }
}

/// Every limit and room around the counts.
fn cuts(cases: &mut Vec<Case>, rules: &[u32], region: &[u8]) {
    let (rules, region): (Rc<[u32]>, Rc<[u8]>) = (Rc::from(rules), Rc::from(region));
    let walk = expected::walk(&rules, &region);
    let (tries, rows) = walk.as_ref().map_or((0, 0), |walk| (walk.steps.len() as u64, walk.rows as usize));
    for limit in 0..=tries + 1 {
        cases.push(expected::listing(&rules, &region, &walk, limit, span::WORDS * rows));
    }
    for room in 0..=rows {
        cases.push(expected::listing(&rules, &region, &walk, u64::MAX, span::WORDS * (room + 1) - 1));
        cases.push(expected::listing(&rules, &region, &walk, room as u64 + 1, span::WORDS * room));
    }
}

fn whole(cases: &mut Vec<Case>, rules: &[u32], region: &[u8]) {
    let (rules, region): (Rc<[u32]>, Rc<[u8]>) = (Rc::from(rules), Rc::from(region));
    let walk = expected::walk(&rules, &region);
    cases.push(expected::listing(&rules, &region, &walk, 1000, 50 * span::WORDS));
}

/// Levels 0 to 5 and more, declared sizes 0, below the header, equal to it and past the end, at the top and in a Box; cuts.
fn listings(cases: &mut Vec<Case>) {
    for boxes in 0..=7 {
        cuts(cases, &[], &regions::nest(boxes));
    }
    cuts(cases, &[], &DUMP_INPUT);
    (0..DUMP_INPUT.len()).for_each(|length| whole(cases, &[], &DUMP_INPUT[..length]));
    for declared in [0, 4, 8, 12, 16, 20, 24] {
        let second = regions::small_record(3, 8);
        let flat = [regions::small_record(words::BOX, declared), second.clone()].concat();
        let inner = [regions::small_record(words::BOX, 24), flat.clone()].concat();
        for flags in [0, 4, 8, 12] {
            whole(cases, &rule_tables::always(flags), &flat);
            whole(cases, &rule_tables::always(flags), &inner);
        }
    }
    for flags in 0..16 {
        let mut region = header_bytes(0, 0x81);
        regions::put_sizes(&mut region, flags, 80);
        let inner = regions::nest(4);
        region[32..32 + inner.len()].copy_from_slice(&inner);
        cuts(cases, &rule_tables::always(flags), &region[..96]);
    }
}

/// 1,048,575 to 1,048,577 bytes: walked, cut by limit and room, and too long.
fn long_listings(cases: &mut Vec<Case>) {
    for length in [1_048_575, 1_048_576, 1_048_577] {
        let small = regions::small_record(3, 8);
        let large = regions::small_record(words::BOX, 4 * 0x1_fffe);
        for (unit, limit, rows) in [(&small, 20, 10), (&small, 100, 5), (&large, 1000, 50), (&large, 5, 50)] {
            let region: Rc<[u8]> = Rc::from(regions::repeated(unit, length));
            let walk = expected::walk(&[], &region);
            cases.push(expected::listing(&Rc::from([]), &region, &walk, limit, rows * span::WORDS));
        }
    }
}

/// The table in rooms around its rows, each section and the next, the normal form in rooms around its length.
fn container(cases: &mut Vec<Case>, cper: &[u8]) {
    let read = containers::read(cper);
    let cper: Rc<[u8]> = Rc::from(cper);
    let (rows, length) = read.as_ref().map_or((0, 0), |read| (read.kept.len(), read.normal.len()));
    cases.push(expected::table(&cper, &read, 3 * rows + 2));
    cases.push(expected::normal_form(&cper, &read, length));
    cases.push(expected::section(&cper, &read, rows as u32));
    if rows > 0 {
        cases.push(expected::table(&cper, &read, 3 * rows - 1));
        cases.push(expected::normal_form(&cper, &read, length - 1));
        cases.push(expected::section(&cper, &read, rows as u32 - 1));
    }
}

fn containers_at_bounds(cases: &mut Vec<Case>) {
    let good = cpers::plain(&[b"one", b"", b"three"]);
    for length in [0, 127, 128, 128 + 71, 128 + 72, 128 + 143, 128 + 144, 128 + 215, 128 + 216, 346, 347, 351, 352] {
        container(cases, &good[..length]);
    }
    for at in (0..4).chain(6..10) {
        let mut wrong = good.clone();
        wrong[at] ^= 0x20;
        container(cases, &wrong);
    }
    for (offset, body) in
        [(200, 0), (201, 0), (199, 1), (199, 2), (0, 200), (0, 201), (1, 200), (u32::MAX, 1), (1, u32::MAX)]
    {
        let cper = [cpers::plain_header(1), cpers::plain_descriptor(offset, body)].concat();
        container(cases, &cper);
    }
    for severity in [0, 1, 2, 3, 4, 5, 255] {
        let mut cper = cpers::plain(&[b"body"]);
        cper[12] = severity;
        cper[128 + 48] = severity;
        container(cases, &cper);
    }
    for validation in [0, 1, 2, 3, 4, 5, 6, 7, 8, 0x80, 0xff] {
        let mut cper = cpers::plain(&[b"body"]);
        cper[16..128].fill(0xa6 | validation & 1);
        cper[16] = validation;
        cper[136..200].fill(0x5c);
        cper[128 + 10] = validation;
        container(cases, &cper);
    }
    for byte in [0, 1, 2, 3, 0xfe, 0xff] {
        let mut cper = cpers::plain_header(0);
        cper[16] = 2;
        cper[24..32].fill(byte);
        container(cases, &cper);
    }
    long_containers(cases);
}

/// CPERs of 1,048,575 to 1,048,577 bytes, and normal forms over 32 bits.
fn long_containers(cases: &mut Vec<Case>) {
    for length in [1_048_575, 1_048_576, 1_048_577] {
        container(cases, &cpers::periodic(2, length as u32, 0, length));
    }
    for length in [556_127, 1_048_576] {
        let cper: Rc<[u8]> = Rc::from(cpers::periodic(u16::MAX, 0, length as u32, length));
        assert!(cpers::normal_length(&cper) > u32::MAX as u64);
        for room in [0, 1_510, 65_536] {
            cases.push(expected::output_short(&cper, room));
        }
    }
}

/// Every record type, and each name in room that is one byte short.
fn names(cases: &mut Vec<Case>) {
    for record_type in (0..=64).chain([127, 128, 255, 256, 0x13d, 0x0100_0003, u32::MAX]) {
        let name = expected::name(record_type, 16);
        cases.push(expected::name(record_type, name.told[0] as usize - 1));
        cases.push(name);
    }
}

/// The dump's text at each cut of its input, of nests, of every record type, and with more rows than it has room for.
fn texts(cases: &mut Vec<Case>) {
    let mut push = |region: &[u8]| cases.push(expected::text(&Rc::from(region)));
    (0..DUMP_INPUT.len()).for_each(|length| push(&DUMP_INPUT[..length]));
    (0..=7).for_each(|boxes| push(&regions::nest(boxes)));
    push(&(0..64).flat_map(|record_type| regions::small_record(record_type, 8)).collect::<Vec<u8>>());
    for records in [512, 513] {
        push(&regions::repeated(&regions::small_record(3, 8), 8 * records));
    }
    for length in [65_534, 65_537, 1_048_577] {
        push(&regions::repeated(&regions::small_record(3, 0x1_0000), length));
    }
}
