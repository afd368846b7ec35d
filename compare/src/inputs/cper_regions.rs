//! CPERs with regions in their sections: Firmware Error Records with a record identifier.

use super::cpers::{DESCRIPTOR, FIRMWARE_ERROR, HEADER, header, plain_descriptor, plain_header};
use super::regions;
use crate::random::Random;

/// A record identifier, as a section has it.
pub type Id = [u8; 16];

/// That of a Crash Log: 8f87f311-c998-4d9e-a0c4-6065518c4f6d.
pub const CRASH_LOG: Id = [0x11, 0xf3, 0x87, 0x8f, 0x98, 0xc9, 0x9e, 0x4d, 0xa0, 0xc4, 0x60, 0x65, 0x51, 0x8c, 0x4f, 0x6d];

/// The bytes of a section before its region, and where its identifier stands.
pub const SECTION_HEADER: usize = 32;
pub const ID_AT: usize = 16;

/// Where a body lies in the bytes after the descriptors, and its length.
pub type Place = (usize, usize);

/// A descriptor of a Firmware Error Record, with all else zero.
pub fn firmware_error(offset: usize, length: usize) -> Vec<u8> {
    let mut bytes = plain_descriptor(offset as u32, length as u32);
    bytes[16..32].copy_from_slice(&FIRMWARE_ERROR);
    bytes
}

/// The body of a section of revision 2 with a region.
pub fn section(record_id: &Id, region: &[u8]) -> Vec<u8> {
    let mut bytes = vec![2, 2];
    bytes.resize(ID_AT, 0);
    bytes.extend(record_id);
    bytes.extend(region);
    bytes
}

/// A CPER of Firmware Error Records that lie at those places.
pub fn of_places(places: &[Place], bodies: &[u8]) -> Vec<u8> {
    let mut bytes = plain_header(places.len() as u16);
    let start = HEADER + DESCRIPTOR * places.len();
    bytes.extend(places.iter().flat_map(|(offset, length)| firmware_error(start + offset, *length)));
    bytes.extend(bodies);
    bytes
}

/// A CPER of Firmware Error Records with those bodies, one after the other.
pub fn of_bodies(bodies: &[Vec<u8>]) -> Vec<u8> {
    let mut end = 0;
    let places = bodies.iter().map(|body| {
        let offset = end;
        end += body.len();
        (offset, body.len())
    });
    of_places(&places.collect::<Vec<_>>(), &bodies.concat())
}

/// A CPER of sections with those regions, all with one identifier.
pub fn of_regions(record_id: &Id, regions: &[Vec<u8>]) -> Vec<u8> {
    of_bodies(&regions.iter().map(|region| section(record_id, region)).collect::<Vec<_>>())
}

/// A CPER of so many sections over one body, in which 504 bytes stand again and again. Of these, seven descriptors start at 56 and
/// then every 72 bytes, as in the CPER, since 128 is 72 and 56. Six name the body, which lies in the first: type and FRU id are its
/// header, and the 24 bytes after them its region. The seventh has the CPER's signature where its type is.
pub fn many(record_id: &Id, region: &[u8; 24], sections: usize) -> Vec<u8> {
    let mut unit = plain_header(u16::MAX)[..56].to_vec();
    unit.extend(firmware_error(DESCRIPTOR, SECTION_HEADER + region.len()).repeat(6));
    unit.extend([0; 16]);
    unit[DESCRIPTOR + ID_AT..][..16].copy_from_slice(record_id);
    unit[DESCRIPTOR + SECTION_HEADER..][..24].copy_from_slice(region);
    regions::repeated(&unit, HEADER + DESCRIPTOR * (sections + sections / 6))
}

/// A CPER with random fields, and regions under some rules. Of its sections most have the identifier; some lie over each other or
/// in each other, are too short or cut off, have another type or identifier, or are not kept.
pub fn random_cper(random: &mut Random, rules: &[u32], record_id: &Id) -> Vec<u8> {
    let (mut places, mut bodies) = (Vec::new(), Vec::new());
    for _ in 0..random.pick(&[0, 1, 1, 2, 2, 3, 4]) {
        add_sections(random, rules, record_id, &mut places, &mut bodies);
    }
    let mut bytes = header(random, places.len());
    let start = HEADER + DESCRIPTOR * places.len();
    for (offset, length) in &places {
        bytes.extend(descriptor(random, start + offset, *length));
    }
    bytes.extend(bodies);
    match random.below(12) {
        0 => bytes.truncate(HEADER + random.below(bytes.len() - HEADER + 1)),
        1 => bytes.truncate(bytes.len() - 1),
        _ => {}
    }
    bytes
}

/// One section and its body, or some: over one that is there, or in each other.
fn add_sections(random: &mut Random, rules: &[u32], record_id: &Id, places: &mut Vec<Place>, bodies: &mut Vec<u8>) {
    let start = bodies.len();
    let body = body(random, rules, record_id);
    let end = start + body.len();
    match random.below(12) {
        0 if !places.is_empty() => {
            let (offset, length) = random.pick(places);
            let (less, most) = (length.saturating_sub(random.below(16)), bodies.len() - offset);
            places.push((offset, random.pick(&[length, length, less, most])));
        }
        1 => {
            let outer = section(record_id, &[regions::small_record(3, 8 + body.len()), body].concat());
            let inner = start + SECTION_HEADER + 8;
            places.push((start, outer.len()));
            places.push((inner, start + outer.len() - inner));
            bodies.extend(outer);
        }
        2 => {
            bodies.extend(body);
            places.push((start, random.below(41).min(end - start)));
        }
        3 => {
            bodies.extend(body);
            places.push((start, end - start + random.below(3)));
        }
        _ => {
            bodies.extend(body);
            places.push((start, end - start));
        }
    }
}

fn body(random: &mut Random, rules: &[u32], record_id: &Id) -> Vec<u8> {
    let region = match random.below(8) {
        0 => Vec::new(),
        1 => {
            let length = random.below(12);
            regions::noise(random, length)
        }
        _ => regions::region(random, rules),
    };
    let mut body = section(record_id, &region);
    if random.once_in(4) {
        body[..ID_AT].copy_from_slice(&random.plain_bytes(ID_AT));
    }
    match random.below(12) {
        0 => body[ID_AT + random.below(16)] ^= 1 << random.below(8),
        1 => body[ID_AT..SECTION_HEADER].copy_from_slice(&random.pick(&[CRASH_LOG, [0; 16], FIRMWARE_ERROR])),
        _ => {}
    }
    body
}

fn descriptor(random: &mut Random, offset: usize, length: usize) -> Vec<u8> {
    let mut bytes = firmware_error(offset, length);
    if random.once_in(2) {
        bytes[8..16].copy_from_slice(&random.bytes(8));
        bytes[32..].copy_from_slice(&random.bytes(40));
    }
    match random.below(16) {
        0 => bytes[16 + random.below(16)] ^= 1 << random.below(8),
        1 => bytes[16..32].copy_from_slice(&random.bytes(16)),
        2 => bytes[random.below(8)] = 0xff,
        _ => {}
    }
    bytes
}
