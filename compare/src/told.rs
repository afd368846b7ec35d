//! What the Rust tells, as plain data that both forms share.

use crate::header::Header;
use crate::span::{NO_PARENT, Span};

/// What one try of a header gave.
pub enum Tried {
    Ended,
    BadHeader,
    BadType(u16),
    Good(Good),
}

pub struct Good {
    pub header: Header,
    pub flags: u32,
    pub declared: usize,
    pub size: usize,
}

/// How the walk of the top region came out.
#[derive(Clone, Copy, Debug, PartialEq, Eq)]
pub enum Outcome {
    Records,
    BadHeader,
    BadType(u16),
    Empty,
}

/// The whole walk of a region, or of all regions of a CPER: one step for each try, in document 01's order, with the row that it
/// found.
pub struct Walk {
    pub steps: Vec<Option<Span>>,
    pub rows: u32,
    pub outcome: Outcome,
    /// Why each region stopped, by its number, the top one first. An empty one in a Box, which stops at its end, is left out.
    pub stops: Vec<u64>,
    /// Boxes below level 4 that were left unopened, since their header exceeds their bytes.
    pub unopened: usize,
    /// In a CPER the tries and the rows by the end of each region.
    pub ends: Vec<[usize; 2]>,
}

impl Walk {
    /// The walk of no region, or one that has no step yet.
    pub fn new(outcome: Outcome) -> Walk {
        Walk { steps: Vec::new(), rows: 0, outcome, stops: Vec::new(), unopened: 0, ends: Vec::new() }
    }

    /// Adds the walk of a region that starts at an offset in the CPER. Its rows number on.
    pub fn add(&mut self, region: Walk, offset: usize) {
        let before = self.rows;
        let parent = |row: &Span| if row.parent == NO_PARENT { NO_PARENT } else { before + row.parent };
        let moved = |row: Span| Span { offset: offset as u32 + row.offset, parent: parent(&row), ..row };
        self.steps.extend(region.steps.into_iter().map(|step| step.map(moved)));
        self.rows += region.rows;
        self.stops.extend(region.stops);
        self.unopened += region.unopened;
        self.ends.push([self.steps.len(), self.rows as usize]);
        if region.outcome == Outcome::Records {
            self.outcome = Outcome::Records;
        }
    }
}

/// A row of the section table: descriptor index, body offset, body length.
pub type Kept = [u32; 3];

/// A CPER as read: its kept sections with the bodies that the Rust holds, and its normal form.
pub struct Container {
    pub kept: Vec<Kept>,
    pub bodies: Vec<Vec<u8>>,
    pub normal: Vec<u8>,
}
