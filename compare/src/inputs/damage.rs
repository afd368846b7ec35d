//! Damage: a good input with some of its bytes changed, cut, doubled or moved.

use crate::random::Random;

pub fn damaged(random: &mut Random, good: &[u8]) -> Vec<u8> {
    let mut bytes = good.to_vec();
    for _ in 0..1 + random.below(3) {
        damage(random, &mut bytes);
    }
    bytes
}

fn damage(random: &mut Random, bytes: &mut Vec<u8>) {
    if bytes.is_empty() {
        bytes.push(random.plain_byte());
        return;
    }
    let at = random.below(bytes.len());
    let upto = at + random.below((bytes.len() - at).min(16)) + 1;
    match random.below(6) {
        0 => bytes[at] ^= 1 << random.below(8),
        1 => bytes[at] = random.plain_byte(),
        2 => bytes.truncate(at),
        3 => drop(bytes.drain(at..upto)),
        4 => {
            let piece = bytes[at..upto].to_vec();
            let to = random.below(bytes.len());
            bytes.splice(to..to, piece);
        }
        _ => {
            let piece = bytes[at..upto].to_vec();
            let to = random.below(bytes.len() - piece.len() + 1);
            bytes[to..to + piece.len()].copy_from_slice(&piece);
        }
    }
}
