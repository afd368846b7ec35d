//! Version words.

use crate::random::Random;

pub const BOX: u32 = 0x3d;
pub const PCORE: u32 = 4;
pub const ECORE: u32 = 6;

/// Products on both sides of every bound in errata.rs, and some others.
pub const PRODUCTS: [u32; 24] = [
    0, 1, 0x2e, 0x2f, 0x30, 0x5c, 0x5d, 0x5e, 0x5f, 0x60, 0x70, 0x71, 0x72, 0x7a, 0x82, 0x84, 0x85, 0x8e, 0x95, 0x96, 0x97,
    0xb6, 0x123, 0xfff,
];

pub fn word(revision: u32, header_type: u32, product: u32, record_type: u32) -> u32 {
    revision | header_type << 8 | product << 12 | record_type << 24
}

/// A word whose parts are mostly those that a rule or a layout is about.
pub fn random_word(random: &mut Random) -> u32 {
    match random.below(24) {
        0 => random.next() as u32,
        1 => 0,
        2 => 0xdead_beef,
        _ => {
            let header_type = if random.once_in(12) { random.below(16) } else { random.below(7) } as u32;
            let record_type = random.pick(&[BOX, BOX, BOX, PCORE, PCORE, ECORE, 3, 0x3e, 0x3c, 0x3f, 0]);
            let marks = if random.once_in(4) { (random.below(4) as u32) << 30 } else { 0 };
            marks | word(random.next() as u32 & 0xff, header_type, random.pick(&PRODUCTS), record_type)
        }
    }
}
