//! Why a region stops and how its records end (document 02, C-12), which the Rust does not tell: restated here, on its reading
//! of each header.

use crate::told::Tried;

/// What is told: the numbers of crashlog.h.
pub const UNTOLD: u64 = 0;
pub const END_OF_INPUT: u64 = 1;
pub const ZERO_WORD: u64 = 2;
pub const DEADBEEF_WORD: u64 = 3;
pub const FEW_BYTES: u64 = 4;
pub const BAD_HEADER: u64 = 5;
pub const SIZE_ZERO: u64 = 6;

/// Their names, by number.
pub const NAMES: [&str; 7] = ["untold", "end of input", "zero word", "0xdeadbeef", "few bytes", "bad header", "size zero"];

/// How the records end at the start of some bytes, where the Rust says that they do.
pub fn ending(bytes: &[u8]) -> u64 {
    match bytes {
        [0, 0, 0, 0, ..] => ZERO_WORD,
        [0xef, 0xbe, 0xad, 0xde, ..] => DEADBEEF_WORD,
        [_, _, _, _, ..] => panic!("no ending: {:02x?}", &bytes[..4]),
        _ => FEW_BYTES,
    }
}

/// Why a region stops, by its own headers, one after the other as `header` reads them. No Box is opened.
pub fn of(region: &[u8], header: fn(&[u8]) -> Tried) -> u64 {
    let mut rest = region;
    while !rest.is_empty() {
        match header(rest) {
            Tried::Ended => return ending(rest),
            Tried::BadHeader | Tried::BadType(_) => return BAD_HEADER,
            Tried::Good(good) if good.declared == 0 => return SIZE_ZERO,
            Tried::Good(good) => rest = rest.get(good.declared..).unwrap_or(&[]),
        }
    }
    END_OF_INPUT
}
