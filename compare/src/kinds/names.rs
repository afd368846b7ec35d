//! The names of record types.

use crate::expected;
use crate::tally::Tally;

/// Every type of a byte and some larger ones, in every room up to 17.
pub fn fixed(tally: &mut Tally) {
    for record_type in (0..=256).chain([0x13d, 0x103, 0xffff, 0x0100_0003, u32::MAX]) {
        for room in 0..=17 {
            tally.check("names", expected::name(record_type, room));
        }
    }
}
