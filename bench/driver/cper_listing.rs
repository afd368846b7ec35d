//! The listing of all regions that lie in a CPER, beside the same regions listed one by one.
use crate::inputs::{self, CRASH_LOG, MIB};
use crate::library::{Library, Listing, PLAIN, PROVED};
use crate::listing;
use crate::sample::{C, Candidate, LIBRARY, ONE_BY_ONE, Times, sample};
use crate::span::{self, NO_PARENT, Span};
use crate::table::{heading, row, shown};
use crate::targets::Measured;
use std::cell::RefCell;
use std::hint::black_box;
use std::ops::Range;

const REGIONS: [(&str, fn(usize) -> Vec<u8>); 3] = [
    ("8-byte records", inputs::eight_bytes),
    ("4 KiB records", inputs::four_kib),
    ("Boxes, eight in each", inputs::wide_boxes),
];

/// With the most of them a region has 105 bytes: a record of 4 KiB is cut, and is all that is in it.
const SECTIONS: [usize; 3] = [1, 100, 5_000];

/// A CPER, and where its regions lie.
struct Cper {
    bytes: Vec<u8>,
    regions: Vec<Range<usize>>,
}

impl Cper {
    fn new(sections: usize, make: fn(usize) -> Vec<u8>) -> Cper {
        let (bytes, regions) = inputs::cper_of_regions(sections, MIB, make);
        Cper { bytes, regions }
    }

    fn list(&self, library: Library, rules: &[u32], spans: &mut [u32]) -> (u32, Listing) {
        library.list_cper(&self.bytes, &CRASH_LOG, rules, inputs::most_tries(&self.bytes), spans)
    }

    /// Lists its regions one by one, each after the rows of the last, and hands on how many rows each has.
    fn list_one_by_one(&self, rules: &[u32], spans: &mut [u32], mut rows: impl FnMut(usize)) {
        let mut end = 0;
        for region in &self.regions {
            let region = &self.bytes[region.clone()];
            let (_, told) = PROVED.list(region, rules, inputs::most_tries(region), &mut spans[end..]);
            end += told.rows as usize * span::WORDS;
            rows(told.rows as usize);
        }
    }

    /// How many rows it has, which C and the library list alike, and as the regions have them one by one.
    fn checked(&self, rules: &[u32], spans: &mut [u32]) -> usize {
        let [plain, proved] = [PLAIN, PROVED].map(|library| {
            spans.fill(inputs::UNTOUCHED);
            (self.list(library, rules, spans), spans.to_vec())
        });
        assert!(plain == proved, "C lists {:?}, the library {:?}", plain.0, proved.0);
        let ((answer, told), listed) = proved;
        spans.fill(inputs::UNTOUCHED);
        let mut rows = Vec::new();
        self.list_one_by_one(rules, spans, |count| rows.push(count));
        self.join(&rows, spans);
        assert!(listed == spans, "the library lists other rows than its regions have");
        assert_eq!((answer, told.rows as usize), (0, rows.iter().sum()));
        told.rows as usize
    }

    /// Makes the regions' rows those of the CPER: offsets are moved by a region's place, parents by the rows before it.
    fn join(&self, rows: &[usize], spans: &mut [u32]) {
        let mut before = 0;
        for (region, rows) in self.regions.iter().zip(rows) {
            for numbers in spans[before * span::WORDS..][..rows * span::WORDS].chunks_exact_mut(span::WORDS) {
                let mut row = Span::of(numbers.try_into().unwrap());
                row.offset += region.start as u32;
                if row.parent != NO_PARENT {
                    row.parent += before as u32;
                }
                numbers.copy_from_slice(&row.numbers());
            }
            before += rows;
        }
    }

    fn times(&self, rules: &[u32], spans: &mut [u32]) -> Times {
        let spans = RefCell::new(spans);
        let whole = |library: Library| {
            let spans = &spans;
            move || _ = black_box(black_box(self).list(library, rules, &mut spans.borrow_mut()))
        };
        let one_by_one =
            || black_box(self).list_one_by_one(rules, &mut spans.borrow_mut(), |rows| _ = black_box(rows));
        let mut candidates: Vec<Candidate> =
            vec![(C, Box::new(whole(PLAIN))), (LIBRARY, Box::new(whole(PROVED))), (ONE_BY_ONE, Box::new(one_by_one))];
        sample(&mut candidates)
    }
}

pub fn report(tables: &[Vec<u32>]) -> Vec<Measured> {
    let columns = ["regions", "sections", "rules", "rows", "library, ns a row", "library / one by one", "library / C"];
    heading("Listing the regions in a CPER of 1 MiB", &columns);
    let mut spans = listing::spans();
    let mut measured = Vec::new();
    for (name, make) in REGIONS {
        for sections in SECTIONS {
            let cper = Cper::new(sections, make);
            for rules in tables {
                let rows = cper.checked(rules, &mut spans);
                let times = cper.times(rules, &mut spans);
                let each = times.median(LIBRARY) / rows as f64;
                let count = rules.len() / 3;
                let numbers = [sections, count, rows].map(|number| number.to_string());
                let ratios = [ONE_BY_ONE, C].map(|other| shown(times.ratio(LIBRARY, other)));
                row(&[&[name.to_string()][..], &numbers, &[format!("{each:.1}")], &ratios].concat());
                measured.push(Measured { input: format!("{name}, sections: {sections}, {count} rules"), times });
            }
        }
    }
    measured
}
