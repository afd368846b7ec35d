//! Rule tables.

use super::words::random_word;
use crate::random::Random;

/// The union of the flags of the rows that apply: what inputs are built by, not what answers are judged by.
pub fn flags_of(rules: &[u32], word: u32) -> u32 {
    rules.chunks_exact(3).filter(|row| word & row[0] == row[1]).fold(0, |flags, row| flags | row[2])
}

/// A table whose one row gives every record the same flags; none where they are 0.
pub fn always(flags: u32) -> Vec<u32> {
    if flags == 0 { Vec::new() } else { vec![0, 0, flags] }
}

/// A valid table of 0 to 64 rows.
pub fn valid(random: &mut Random) -> Vec<u32> {
    let rows = match random.below(8) {
        0 | 1 => 0,
        2 | 3 => 1,
        4 | 5 => 2 + random.below(3),
        6 => random.below(65),
        _ => random.pick(&[63, 64]),
    };
    (0..rows).flat_map(|_| row(random, rows)).collect()
}

/// In a long table a row applies seldom, so that not every record has every flag.
fn row(random: &mut Random, rows: usize) -> [u32; 3] {
    const WIDE: [u32; 4] = [0, 0xf00, 0xff00_0000, 0x3f00_0f00];
    const NARROW: [u32; 4] = [0x3fff_ff00, 0x00ff_ff00, u32::MAX, 0x3fff_f000];
    let mask = match random.below(8) {
        0 => random.next() as u32,
        1..4 if rows < 6 => random.pick(&WIDE),
        _ => random.pick(&NARROW),
    };
    let wanted = if random.once_in(16) { random.next() as u32 } else { random_word(random) & mask };
    let flags = random.pick(&[0, 1, 1, 2, 2, 4, 4, 8, 8, 12, 13, 15]);
    [mask, wanted, flags]
}

/// A table that is mostly valid: else it has a part of a row, 65 rows and more, or a flag number above 15.
pub fn any(random: &mut Random) -> Vec<u32> {
    let mut rules = valid(random);
    match random.below(12) {
        0 => rules.extend(random.pick(&[&[0u32][..], &[0, 0]])),
        1 => rules.resize(3 * (65 + random.below(3)), 0),
        2 => {
            rules.truncate(3 * 63);
            let at = 3 * random.below(rules.len() / 3 + 1);
            let flags = random.pick(&[16, 17, 31, 256, 0x8000_0000, u32::MAX]);
            rules.splice(at..at, [u32::MAX, 0, flags]);
        }
        _ => {}
    }
    rules
}
