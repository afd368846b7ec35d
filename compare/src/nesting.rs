//! Rows as boxes within boxes (document 02, C-24): what is asked of the rows of each listing, restated from the table alone.

use crate::span::{NO_PARENT, Span};

/// A row is held to so many rows before it; to all the others it stands by its parent and the child before it.
const LOOKED_BACK: usize = 48;

/// The rows of one region, and the number of the first.
#[derive(Clone, Copy)]
pub struct Rows<'a> {
    pub first: usize,
    pub rows: &'a [Span],
}

/// How two rows stand to each other.
enum Stand {
    Apart,
    SecondInside,
    FirstInside,
}

fn end(row: &Span) -> u64 {
    u64::from(row.offset) + u64::from(row.held)
}

fn header_end(row: &Span) -> u64 {
    u64::from(row.offset) + u64::from(row.header_size)
}

fn share_no_byte(a: &Span, b: &Span) -> bool {
    end(a) <= b.offset.into() || end(b) <= a.offset.into()
}

/// Does the first row lie wholly in the second's bytes after its header?
fn is_inside(b: &Span, a: &Span) -> bool {
    header_end(a) <= b.offset.into() && end(b) <= end(a)
}

/// A Box is of record type 0x3D, or has flag 4.
fn is_box(row: &Span) -> bool {
    row.version >> 24 & 0x3f == 0x3d || row.flags & 4 != 0
}

impl<'a> Rows<'a> {
    fn numbers(&self) -> std::ops::Range<usize> {
        self.first..self.first + self.rows.len()
    }

    fn row(&self, number: usize) -> &'a Span {
        &self.rows[number - self.first]
    }

    /// The row that a row names as its parent, where there is one before it.
    fn parent(&self, number: usize) -> Option<usize> {
        let parent = self.row(number).parent as usize;
        (self.first..number).contains(&parent).then_some(parent)
    }

    /// Is row p an ancestor of row i, by the numbers in the table?
    fn is_ancestor(&self, p: usize, i: usize) -> bool {
        std::iter::successors(self.parent(i), |number| self.parent(*number)).any(|number| number == p)
    }

    /// How rows i and j stand to each other; nothing where they cross, or in more than one way.
    fn stand(&self, i: usize, j: usize) -> Option<Stand> {
        let (a, b) = (self.row(i), self.row(j));
        match (share_no_byte(a, b), is_inside(b, a) && self.is_ancestor(i, j), is_inside(a, b) && self.is_ancestor(j, i)) {
            (true, false, false) => Some(Stand::Apart),
            (false, true, false) => Some(Stand::SecondInside),
            (false, false, true) => Some(Stand::FirstInside),
            _ => None,
        }
    }

    /// What is asked of a row by itself and beside its parent: it holds a byte of the input; at level 0 it has no parent, else
    /// a Box that stands before it, one level up, and has the row inside.
    fn hangs(&self, number: usize, length: usize) -> bool {
        let row = self.row(number);
        let above = self.parent(number).map(|parent| self.row(parent));
        row.held > 0
            && end(row) <= length as u64
            && match above {
                None => row.level == 0 && row.parent == NO_PARENT,
                Some(above) => row.level == above.level + 1 && is_inside(row, above) && is_box(above),
            }
    }

    /// Checks them in an input of that length. The error names rows that stand otherwise than they must.
    pub fn check(&self, length: usize) -> Result<(), String> {
        if let Some(number) = self.numbers().find(|number| !self.hangs(*number, length)) {
            return Err(format!("row {number} does not hang from its parent"));
        }
        if let Some(number) = self.out_of_line() {
            return Err(format!("row {number} does not start where the child before it, or the parent's header, ends"));
        }
        match self.crossing() {
            Some([i, j]) => Err(format!("rows {i} and {j} cross")),
            None => Ok(()),
        }
    }

    /// Two rows that neither share no byte nor have one inside the other, its ancestor.
    pub fn crossing(&self) -> Option<[usize; 2]> {
        self.pairs().find(|[i, j]| self.stand(*i, *j).is_none())
    }

    /// The first row that does not start where the child of its parent before it ends, or as the first where the parent's
    /// header ends. Where the region starts its first row says.
    fn out_of_line(&self) -> Option<usize> {
        let mut next: Vec<u64> = self.rows.iter().map(header_end).collect();
        let mut top = self.rows.first().map_or(0, |row| row.offset.into());
        self.numbers().find(|number| {
            let row = self.row(*number);
            let due = self.parent(*number).map_or(&mut top, |parent| &mut next[parent - self.first]);
            std::mem::replace(due, end(row)) != u64::from(row.offset)
        })
    }

    /// The pairs of rows that are held to each other.
    fn pairs(&self) -> impl Iterator<Item = [usize; 2]> {
        let (first, back) = (self.first, |j: usize| j.saturating_sub(LOOKED_BACK));
        self.numbers().flat_map(move |j| (back(j).max(first)..j).map(move |i| [i, j]))
    }

    /// How many of them are apart, and how many have one inside the other.
    pub fn count(&self) -> [u64; 2] {
        self.pairs().fold([0, 0], |[apart, inside], [i, j]| match self.stand(i, j) {
            Some(Stand::Apart) => [apart + 1, inside],
            _ => [apart, inside + 1],
        })
    }
}
