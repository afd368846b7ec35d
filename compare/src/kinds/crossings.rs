//! Tables whose rows cross, or do not stand as they must: that each is found, since no listing has such rows.

use crate::expected;
use crate::inputs::regions::{nest, small_record};
use crate::inputs::words::BOX;
use crate::nesting::Rows;
use crate::span::{NO_PARENT, Span};
use crate::tally::Tally;

const KIND: &str = "crossings found";

/// A change of one number of a row.
type Change = fn(&mut Span);

/// Every number that says where a row stands, one more and one less. A last child that holds a byte less crosses no other.
const CHANGES: [Change; 7] = [
    |row| row.level = row.level.wrapping_add(1),
    |row| row.level = row.level.wrapping_sub(1),
    |row| row.parent = row.parent.wrapping_add(1),
    |row| row.parent = row.parent.wrapping_sub(1),
    |row| row.offset = row.offset.wrapping_add(1),
    |row| row.offset = row.offset.wrapping_sub(1),
    |row| row.held += 1,
];

pub fn fixed(tally: &mut Tally) {
    let region = tight_region();
    let walk = expected::walk(&[], &region).expect("no rules are good ones");
    let rows: Vec<Span> = walk.steps.into_iter().flatten().collect();
    changed(tally, region.len(), &rows);
    unboxed(tally, region.len(), &rows);
    crossing(tally, rows[0]);
}

/// Boxes with a row on each level and with several children; no Box has a byte beside its header and its children.
fn tight_region() -> Vec<u8> {
    let children = [small_record(3, 8), small_record(3, 12), vec![0; 4], small_record(3, 8)].concat();
    [nest(3), small_record(BOX, 8 + children.len()), children, nest(5)].concat()
}

fn is_nested(rows: &[Span], length: usize) -> bool {
    Rows { first: 0, rows }.check(length).is_ok()
}

/// Good rows, and these with one number changed.
fn changed(tally: &mut Tally, length: usize, rows: &[Span]) {
    tally.note(KIND, is_nested(rows, length), || format!("these do not cross: {rows:?}"));
    for row in 0..rows.len() {
        for change in CHANGES {
            let mut changed = rows.to_vec();
            change(&mut changed[row]);
            tally.note(KIND, !is_nested(&changed, length), || format!("row {row} of these is wrong: {changed:?}"));
        }
    }
}

/// Good rows with a parent of another type: a Box by flag 4 alone, which is good, and no Box.
fn unboxed(tally: &mut Tally, length: usize, rows: &[Span]) {
    let parents = (0..rows.len()).filter(|number| rows.iter().any(|row| row.parent as usize == *number));
    for parent in parents {
        for (flags, is_good) in [(4, true), (0, false)] {
            let mut changed = rows.to_vec();
            changed[parent] = Span { version: rows[parent].version & !0x3f00_0000 | 3 << 24, flags, ..rows[parent] };
            tally.note(KIND, is_nested(&changed, length) == is_good, || {
                format!("row {parent} of these has children: {changed:?}")
            });
        }
    }
}

/// Two rows with headers of 8 bytes that cross: half over each other, one in the other's header, inside and no child of it, and
/// the same bytes twice.
fn crossing(tally: &mut Tally, row: Span) {
    let span = |parent, offset, held| Span { parent, offset, held, ..row };
    let pairs = [
        [span(NO_PARENT, 0, 16), span(NO_PARENT, 8, 16)],
        [span(NO_PARENT, 0, 16), span(0, 8, 16)],
        [span(NO_PARENT, 0, 24), span(0, 7, 8)],
        [span(NO_PARENT, 0, 24), span(NO_PARENT, 8, 8)],
        [span(NO_PARENT, 0, 16), span(0, 0, 16)],
    ];
    for rows in pairs {
        let is_found = Rows { first: 0, rows: &rows }.crossing() == Some([0, 1]);
        tally.note(KIND, is_found, || format!("these cross: {rows:?}"));
    }
}
