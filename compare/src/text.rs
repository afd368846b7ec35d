//! The text of a dump, by document 01, with the columns of document 02.

use crate::span::{NO_DIE, Span};
use std::fmt::Write;

/// The room for rows, the limit of tries and the longest input of a region's dump.
pub const ROWS: usize = 512;
pub const TRIES: u64 = 81_920;
pub const MOST_BYTES: usize = 65_535;

/// The room and the limit of a CPER's, whose input may be as long as a listing's.
pub const CPER_ROWS: usize = 4096;
pub const CPER_TRIES: u64 = 1_310_720;

/// Heading, rows and last line, each ending in a newline.
pub fn format(rows: &[Span], tries: u64, whole: bool, answer: u64, name: impl Fn(u8) -> String) -> String {
    let mut text = "level offset held declared header version socket die name\n".to_string();
    for Span { level, offset, held, declared, header_size, version, socket, die, .. } in rows {
        let die = if *die == NO_DIE { "-".to_string() } else { die.to_string() };
        let name = name((version >> 24 & 0x3f) as u8);
        writeln!(text, "{level} {offset} {held} {declared} {header_size} {version:08x} {socket} {die} {name}").unwrap();
    }
    let whole = if whole { "yes" } else { "no" };
    writeln!(text, "rows {} tries {tries} whole {whole} answer {answer}", rows.len()).unwrap();
    text
}
