//! A case: one call, and what must come of it. This is also what the replay's data holds (`vectors`).

use crate::nesting::Rows;
use crate::span::{self, NO_DIE, Span};
use std::fmt::Write;
use std::rc::Rc;

#[derive(Clone, Copy, Debug, PartialEq, Eq, PartialOrd, Ord)]
pub enum Call {
    Headers,
    Encodes,
    Listings,
    Texts,
    Tables,
    Sections,
    NormalForms,
    Names,
    IntelRules,
    Receptions,
    CperListings,
    CperTexts,
}

/// Where the answer comes from. Why a region stopped and how records ended comes from document 02, by `stops`, and so does
/// `whole`, by `expected`, when a receiver tells a row, and that the revision of a CPER's section is not asked.
#[derive(Clone, Copy, Debug, PartialEq, Eq)]
pub enum Source {
    Rust = 1,
    CutFromListing = 2,
    Inverse = 3,
    Paper = 4,
}

#[derive(Clone, Debug)]
pub struct Case {
    pub call: Call,
    pub source: Source,
    pub rules: Rc<[u32]>,
    /// The record identifier that a listing of a CPER is asked for.
    pub record_id: Option<[u8; 16]>,
    /// The try limit, the row, the record type or the lengths of the pieces.
    pub number: u64,
    /// Elements of the lent buffer: numbers for both listings, tables and receptions, bytes for encodes, normal forms and names.
    pub room: usize,
    pub input: Rc<[u8]>,
    /// The answer, then the numbers of what else the call tells, in order. A reception tells what its finish does; its answer
    /// has besides, 256 times, that of the start or the piece which was refused and ended it.
    pub told: [u64; 6],
    /// What the call leaves at the start of the lent buffer; the rest is as it was. Of a reception the rows that its calls
    /// tell, each with the bytes taken by then before it.
    pub written: Vec<u8>,
    /// Of a listing of a CPER how many rows the whole walk has by the end of each region.
    pub region_ends: Rc<[usize]>,
}

impl Case {
    /// A case without rules, number and room, to which nothing is told.
    pub fn new(call: Call, source: Source, input: &Rc<[u8]>) -> Case {
        Case {
            call,
            source,
            rules: Rc::new([]),
            record_id: None,
            number: 0,
            room: 0,
            input: input.clone(),
            told: [0; 6],
            written: Vec::new(),
            region_ends: Rc::new([]),
        }
    }

    pub fn tell(mut self, told: &[u64]) -> Case {
        self.told[..told.len()].copy_from_slice(told);
        self
    }

    pub fn answer(&self) -> u64 {
        self.told[0]
    }

    /// Why the region stopped, or how the records ended, by its number; other calls tell neither.
    pub fn stop(&self) -> Option<u64> {
        matches!(self.call, Call::Listings | Call::Headers | Call::Receptions).then_some(self.told[5])
    }

    /// Whether the listing is whole, where the answer is 0.
    pub fn whole(&self) -> Option<bool> {
        let listed = matches!(self.call, Call::Listings | Call::Receptions | Call::CperListings);
        (listed && self.answer() == 0).then_some(self.told[4] == 1)
    }

    /// The rows that it writes.
    fn rows(&self) -> Option<Vec<Span>> {
        match self.call {
            Call::Listings | Call::CperListings => Some(span::rows_in(&self.written)),
            Call::Receptions => Some(span::received_in(&self.written)),
            _ => None,
        }
    }

    /// Holds rows that a listing has to document 02's C-24: those of a region, or of each region of a CPER.
    pub fn check_nesting(&self, rows: &[Span]) -> Result<(), String> {
        self.by_region(rows).try_for_each(|rows| rows.check(self.input.len()))
    }

    /// How many pairs of rows that it writes are apart, and how many have one inside the other.
    pub fn pairs(&self) -> Option<[u64; 2]> {
        let rows = self.rows().filter(|_| self.call != Call::Receptions)?;
        let add = |[a, b]: [u64; 2], [c, d]: [u64; 2]| [a + c, b + d];
        Some(self.by_region(&rows).map(|rows| rows.count()).fold([0, 0], add))
    }

    /// Rows of a listing, region by region.
    fn by_region<'a>(&self, rows: &'a [Span]) -> impl Iterator<Item = Rows<'a>> {
        let ends: Vec<usize> = match self.call {
            Call::CperListings => self.region_ends.iter().map(|end| *end.min(&rows.len())).collect(),
            _ => vec![rows.len()],
        };
        assert_eq!(ends.last().unwrap_or(&0), &rows.len());
        let starts = std::iter::once(0).chain(ends.clone());
        starts.zip(ends).map(|(first, end)| Rows { first, rows: &rows[first..end] })
    }

    /// How many rows it writes without a die, and with one.
    pub fn rows_by_die(&self) -> Option<[u64; 2]> {
        let rows = self.rows()?;
        let with_die = rows.iter().filter(|row| row.die != NO_DIE).count();
        Some([rows.len() - with_die, with_die].map(|count| count as u64))
    }

    /// The case as text, with its whole input.
    pub fn describe(&self) -> String {
        let Case { call, source, number, room, told, .. } = self;
        format!(
            "{call:?}, answer from {source:?}\n  rules {:x?}\n  identifier {}\n  number {number}, room {room}\n  \
             input ({} bytes) {}\n  must tell {told:?}\n  and write {}",
            self.rules,
            self.record_id.map_or("none".to_string(), |id| hex(&id)),
            self.input.len(),
            hex(&self.input),
            hex(&self.written)
        )
    }
}

pub fn hex(bytes: &[u8]) -> String {
    bytes.iter().fold(String::new(), |mut text, byte| {
        write!(text, "{byte:02x}").unwrap();
        text
    })
}

/// Numbers as the little-endian bytes of a lent table.
pub fn table_bytes<const N: usize>(rows: &[[u32; N]]) -> Vec<u8> {
    rows.iter().flatten().flat_map(|number| number.to_le_bytes()).collect()
}
