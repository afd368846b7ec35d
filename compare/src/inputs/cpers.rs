//! CPERs: a record header, descriptors and bodies.

use crate::random::Random;

/// The type of a Firmware Error Record section: 81212a96-09ed-4996-9471-8d729c8e69ed.
pub const FIRMWARE_ERROR: [u8; 16] =
    [0x96, 0x2a, 0x21, 0x81, 0xed, 0x09, 0x96, 0x49, 0x94, 0x71, 0x8d, 0x72, 0x9c, 0x8e, 0x69, 0xed];

pub const HEADER: usize = 128;
pub const DESCRIPTOR: usize = 72;

/// A CPER whose normal form is longer the Rust is not asked to read, since it copies each body.
pub const MOST_COPIED: u64 = 1 << 27;

/// A record header with that section count and all else zero.
pub fn plain_header(count: u16) -> Vec<u8> {
    let mut bytes = vec![0; HEADER];
    bytes[..4].copy_from_slice(b"CPER");
    bytes[6..10].fill(0xff);
    bytes[10..12].copy_from_slice(&count.to_le_bytes());
    bytes
}

/// A descriptor of a body, with all else zero.
pub fn plain_descriptor(offset: u32, length: u32) -> Vec<u8> {
    let mut bytes = vec![0; DESCRIPTOR];
    bytes[..4].copy_from_slice(&offset.to_le_bytes());
    bytes[4..8].copy_from_slice(&length.to_le_bytes());
    bytes
}

/// A CPER of those bodies, packed after the descriptors.
pub fn plain(bodies: &[&[u8]]) -> Vec<u8> {
    let mut bytes = plain_header(bodies.len() as u16);
    let mut offset = HEADER + DESCRIPTOR * bodies.len();
    for body in bodies {
        bytes.extend(plain_descriptor(offset as u32, body.len() as u32));
        offset += body.len();
    }
    bytes.extend(bodies.concat());
    bytes
}

/// A CPER with random fields; its bodies overlap, are empty, lie at the end or past it.
pub fn random_cper(random: &mut Random) -> Vec<u8> {
    let count = random.pick(&[0, 1, 1, 2, 2, 3, 4, 6]);
    let mut bytes = header(random, count);
    let body_bytes = random.pick(&[0, 1, 15, 16, 17, 31, 32, 33, 48, 80]);
    let length = HEADER + DESCRIPTOR * count + body_bytes;
    for _ in 0..count {
        bytes.extend(descriptor(random, length));
    }
    bytes.extend(random.plain_bytes(body_bytes));
    match random.below(8) {
        0 => bytes.truncate(HEADER + random.below(bytes.len() - HEADER + 1)),
        1 => bytes.truncate(HEADER + DESCRIPTOR * random.below(count + 1) + random.below(DESCRIPTOR)),
        2 => bytes.truncate(HEADER + DESCRIPTOR * count.saturating_sub(1) + 50 + random.below(DESCRIPTOR - 50)),
        _ => {}
    }
    bytes
}

/// A record header with random fields; once in a while its section count is another.
pub fn header(random: &mut Random, count: usize) -> Vec<u8> {
    let mut bytes = plain_header(count as u16);
    if random.once_in(8) {
        let stated = random.pick(&[count + 1, count.saturating_sub(1), 0xffff, 0x100 + count]);
        bytes[10..12].copy_from_slice(&(stated as u16).to_le_bytes());
    }
    bytes[4..6].copy_from_slice(&random.plain_bytes(2));
    bytes[12..16].copy_from_slice(&random_severity(random).to_le_bytes());
    bytes[16] = random.next() as u8;
    bytes[17..20].copy_from_slice(&random.plain_bytes(3));
    bytes[20..128].copy_from_slice(&random.bytes(108));
    bytes
}

fn random_severity(random: &mut Random) -> u32 {
    random.pick(&[0, 1, 2, 3, 4, 5, 0x100, 0x0100_0000, 0x8000_0000, u32::MAX])
}

/// A descriptor in a CPER of `length` bytes.
fn descriptor(random: &mut Random, length: usize) -> Vec<u8> {
    let inside = random.below(length);
    let offset = random.pick(&[0, inside, inside, length - 1, length, length + 1]);
    let left = length.saturating_sub(offset);
    let part = random.below(left + 1);
    let body = random.pick(&[0, left, left + 1, part, part, 16, 31, 32]);
    let mut bytes = random.bytes(DESCRIPTOR);
    bytes[..4].copy_from_slice(&(offset as u32).to_le_bytes());
    bytes[4..8].copy_from_slice(&(body as u32).to_le_bytes());
    if random.once_in(24) {
        let at = random.below(8);
        bytes[at] = 0xff;
    }
    if random.once_in(3) {
        bytes[16..32].copy_from_slice(&FIRMWARE_ERROR);
    }
    bytes[48..52].copy_from_slice(&random_severity(random).to_le_bytes());
    bytes
}

/// A CPER in which `unit`, 72 bytes, stands again and again: each descriptor is then the same, since 128 is 72 and 56.
pub fn periodic(count: u16, offset: u32, body: u32, length: usize) -> Vec<u8> {
    unit(count, offset, body).into_iter().cycle().take(length).collect()
}

/// What `periodic` repeats.
pub fn unit(count: u16, offset: u32, body: u32) -> Vec<u8> {
    let mut unit = plain_header(count)[..DESCRIPTOR].to_vec();
    unit[56..60].copy_from_slice(&offset.to_le_bytes());
    unit[60..64].copy_from_slice(&body.to_le_bytes());
    unit
}

/// The length of the normal form, by the descriptors that lie in the input, without any limit.
pub fn normal_length(cper: &[u8]) -> u64 {
    let count = cper.get(10..12).map_or(0, |count| u16::from_le_bytes([count[0], count[1]]));
    let descriptors = cper.get(HEADER..).unwrap_or(&[]).chunks_exact(DESCRIPTOR).take(count as usize);
    let number = |bytes: &[u8]| u32::from_le_bytes(bytes.try_into().unwrap()) as u64;
    let bodies = descriptors
        .map(|bytes| (number(&bytes[..4]), number(&bytes[4..8])))
        .filter(|(offset, length)| offset + length <= cper.len() as u64)
        .map(|(_, length)| DESCRIPTOR as u64 + length);
    HEADER as u64 + bodies.sum::<u64>()
}
