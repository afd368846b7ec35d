//! A case as bytes, as the replay's data and caller.c have it. All numbers are little-endian:
//!
//!     0   u32      bytes of the rest of the case
//!     4   u32      source of the answer
//!     8   u32      numbers of the rule table
//!     12  u64      the try limit, the row, the record type or, a byte each, the lengths of a reception's pieces
//!     20  u32      room
//!     24  u32      length of the input
//!     28  u32      bytes of the input that are stored: the input is these, again and again
//!     32  u32      bytes that the call leaves at the start of the lent buffer, or of the rows that a reception tells
//!     36  6 x u64  what the call tells: its answer, then the numbers of its struct in order, then zeros
//!     84  the rules, the sixteen bytes of the identifier that a listing of a CPER is asked for, the stored input, the bytes left
//!
//! A reception is a start under the rules of a receiver that is shut, pieces of the input, and a finish, with a table of so much
//! room. A piece has the next of the eight lengths, the lowest byte first and these again and again, but no more than is left of
//! the input; where nothing is left, there is none. One over 64 bytes is refused with 12, and the next is fed in its place. Any
//! other refusal, and one of the start, ends the pieces. What is told is what the finish tells, and its answer has 256 times the
//! refusal that ended the pieces added. The rows have 44 bytes: the bytes taken by the end of the call that told it, 4, then its
//! ten numbers.

use crate::case::Case;

/// From this length on an input is stored by its period.
const LONG: usize = 4096;

pub fn bytes_of(case: &Case) -> Vec<u8> {
    let stored = &case.input[..if case.input.len() < LONG { case.input.len() } else { period(&case.input) }];
    let identifier = case.record_id.as_slice().as_flattened();
    let size = 80 + 4 * case.rules.len() + identifier.len() + stored.len() + case.written.len();
    let counts = [case.room, case.input.len(), stored.len(), case.written.len()];
    let mut bytes = Vec::with_capacity(4 + size);
    bytes.extend([size as u32, case.source as u32, case.rules.len() as u32].map(u32::to_le_bytes).concat());
    bytes.extend(case.number.to_le_bytes());
    bytes.extend(counts.map(|count| (count as u32).to_le_bytes()).concat());
    bytes.extend(case.told.map(u64::to_le_bytes).concat());
    bytes.extend(case.rules.iter().flat_map(|number| number.to_le_bytes()));
    bytes.extend(identifier);
    bytes.extend(stored);
    bytes.extend(&case.written);
    bytes
}

/// The shortest start of which the bytes are repetitions (by the longest start that is also an end).
fn period(bytes: &[u8]) -> usize {
    let mut matched = vec![0; bytes.len()];
    for at in 1..bytes.len() {
        let mut length: usize = matched[at - 1];
        while length > 0 && bytes[at] != bytes[length] {
            length = matched[length - 1];
        }
        matched[at] = length + (bytes[at] == bytes[length]) as usize;
    }
    bytes.len() - matched.last().unwrap_or(&0)
}
