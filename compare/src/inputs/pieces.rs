//! The lengths of pieces in which a receiver gets a region: eight of them, again and again.

use crate::random::Random;

pub const SINGLE_BYTES: [u8; 8] = [1; 8];
pub const LARGEST: [u8; 8] = [64; 8];

/// A piece of that length, an empty one, and then the largest.
pub fn cut_at(length: u8) -> [u8; 8] {
    [length, 0, 64, 64, 64, 64, 64, 64]
}

/// Mostly small ones, empty ones among them, or any; and some that are too long. One at least is taken and not empty.
pub fn any(random: &mut Random) -> [u8; 8] {
    let mut lengths = match random.below(8) {
        0 => SINGLE_BYTES,
        1 => LARGEST,
        2 => cut_at(1 + random.below(64) as u8),
        3 => [0; 8].map(|_: u8| random.pick(&[0, 0, 1, 2, 3, 4])),
        4 => [0; 8].map(|_: u8| random.pick(&[0, 1, 7, 8, 9, 31, 32, 33, 63, 64])),
        5 => [0; 8].map(|_: u8| random.pick(&[0, 1, 60, 64, 65, 66, 128, 255])),
        _ => [0; 8].map(|_: u8| random.below(65) as u8),
    };
    if !lengths.iter().any(|length| (1..=64).contains(length)) {
        lengths[random.below(8)] = 1 + random.below(64) as u8;
    }
    lengths
}
