//! The listing of a region.
use crate::inputs::{self, BOX_BYTES, CONTENTS, HEADERS, MIB, RECORD, STOPS};
use crate::library::{FLAT, Library, Listing, PLAIN, PROVED};
use crate::rust;
use crate::sample::{C, Candidate, LIBRARY, NESTED, Times, sample};
use crate::span;
use crate::table::{compared, heading, ratios, row, shown};
use crate::targets::Measured;
use std::cell::RefCell;
use std::hint::black_box;

pub type Regions = [(&'static str, fn(usize) -> Vec<u8>); 8];

pub const REGIONS: Regions = [
    ("4-byte records", inputs::four_bytes),
    ("8-byte records", inputs::eight_bytes),
    ("8-byte records, each version another", inputs::eight_bytes_differing),
    ("4 KiB records", inputs::four_kib),
    ("type 6 headers", inputs::type6),
    ("Boxes, one in each", inputs::thin_boxes),
    ("Boxes, eight in each", inputs::wide_boxes),
    ("legacy server Boxes", inputs::legacy_boxes),
];

/// Room for the rows of any region here.
pub fn spans() -> Vec<u32> {
    vec![0; MIB / 4 * span::WORDS]
}

/// What a listing tells, and the table as it leaves it.
type Listed = ((u32, Listing), Vec<u32>);

fn listed_by(name: &str, library: Library, region: &[u8], rules: &[u32], spans: &mut [u32]) -> Listed {
    spans.fill(inputs::UNTOUCHED);
    let told = library.list(region, rules, inputs::most_tries(region), spans);
    let past = &spans[told.1.rows as usize * span::WORDS..];
    assert!(past.iter().all(|number| *number == inputs::UNTOUCHED), "{name} writes past its rows");
    (told, spans.to_vec())
}

/// What C and both walks of the library make of a region alike.
fn listed(region: &[u8], rules: &[u32], spans: &mut [u32]) -> Listed {
    let nested = listed_by(NESTED, PROVED, region, rules, spans);
    for (name, library) in [(C, PLAIN), ("the flat walk", FLAT)] {
        let other = listed_by(name, library, region, rules, spans);
        assert!(other.0 == nested.0, "{name} tells {:?}, {NESTED} {:?}", other.0, nested.0);
        assert!(other.1 == nested.1, "{name} lists other rows than {NESTED}");
    }
    nested
}

/// Why a region stops, with a record and without one: those that are timed do not stop for every reason.
pub fn check_stops() {
    let mut spans = [0; 2 * span::WORDS];
    for (tail, stop) in STOPS {
        for region in [tail.to_vec(), [&RECORD, tail].concat()] {
            let ((_, listing), _) = listed(&region, &[], &mut spans);
            assert_eq!(listing.stop, stop);
        }
    }
}

/// When a listing is whole: each stop after a record, and each of the contents, at the top and in one to five Boxes, of which
/// the fifth is not opened.
pub fn check_whole() {
    let stops = STOPS.map(|(tail, stop)| ([&RECORD, tail].concat(), if stop <= 3 { 0 } else { 5 }));
    let contents = CONTENTS.map(|(bytes, spoils)| (bytes.to_vec(), spoils));
    let mut spans = [0; 8 * span::WORDS];
    for (mut region, spoils) in stops.into_iter().chain(contents) {
        for boxes in 0..=5 {
            let ((answer, listing), _) = listed(&region, &BOX_BYTES, &mut spans);
            assert_eq!((answer, listing.whole == 1), (0, spoils <= boxes));
            region = inputs::box_of(&region);
        }
    }
}

/// Socket and die of headers of each kind, with each revision: those that are timed have one revision.
pub fn check_origins(tables: &[Vec<u32>]) {
    let mut spans = [0; 64 * span::WORDS];
    for kind in 0..HEADERS.len() {
        for bytes in inputs::headers(kind) {
            tables.iter().for_each(|rules| _ = checked(&bytes, rules, &mut spans));
        }
    }
}

/// How many rows a region has, which all list alike.
pub fn checked(region: &[u8], rules: &[u32], spans: &mut [u32]) -> usize {
    let ((answer, listing), spans) = listed(region, rules, spans);
    assert_eq!(answer, 0);
    let rows = listing.rows as usize;
    rust::check_rows(region, rules, &spans[..span::WORDS * rows]);
    rows
}

/// A call that lists a region into the table.
fn work<'a>(library: Library, region: &'a [u8], rules: &'a [u32], spans: &'a RefCell<&mut [u32]>) -> Box<dyn FnMut() + 'a> {
    let limit = inputs::most_tries(region);
    Box::new(move || _ = black_box(library.list(black_box(region), rules, limit, &mut spans.borrow_mut())))
}

pub fn times(region: &[u8], rules: &[u32], spans: &mut [u32]) -> Times {
    let spans = RefCell::new(spans);
    let work = |library| work(library, region, rules, &spans);
    let mut candidates: Vec<Candidate> = vec![(C, work(PLAIN)), (LIBRARY, work(PROVED))];
    rust::add_walks(&mut candidates, region, rules);
    sample(&mut candidates)
}

/// The flat walk is what is measured, the nested one what it is measured against.
fn flat_times(region: &[u8], rules: &[u32], spans: &mut [u32]) -> Times {
    let spans = RefCell::new(spans);
    let work = |library| work(library, region, rules, &spans);
    sample(&mut [(C, work(PLAIN)), (NESTED, work(PROVED)), (LIBRARY, work(FLAT))])
}

/// Times each region under each rule table, once it is checked, and prints a line of the table for it.
fn measure(
    tables: &[Vec<u32>],
    times: fn(&[u8], &[u32], &mut [u32]) -> Times,
    ratios: fn(&Times) -> Vec<String>,
) -> Vec<Measured> {
    let mut spans = spans();
    let mut measured = Vec::new();
    for (name, make) in REGIONS {
        let region = make(MIB);
        for rules in tables {
            let rows = checked(&region, rules, &mut spans);
            let times = times(&region, rules, &mut spans);
            let each = times.median(LIBRARY) / rows as f64;
            let count = rules.len() / 3;
            let mut cells = vec![name.into(), count.to_string(), rows.to_string(), format!("{each:.1}")];
            cells.extend(ratios(&times));
            row(&cells);
            measured.push(Measured { input: format!("{name}, {count} rules"), times });
        }
    }
    measured
}

pub fn report(tables: &[Vec<u32>]) -> Vec<Measured> {
    heading("Listing a region of 1 MiB", &compared(&["region", "rules", "rows", "library, ns a row"]));
    measure(tables, times, ratios)
}

pub fn report_flat(tables: &[Vec<u32>]) -> Vec<Measured> {
    let columns = ["region", "rules", "rows", "flat walk, ns a row", "flat / nested", "flat / C"];
    heading("Listing with a small stack", &columns);
    measure(tables, flat_times, |times| [NESTED, C].map(|other| shown(times.ratio(LIBRARY, other))).to_vec())
}
