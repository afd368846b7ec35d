//! A region received in pieces, beside the same region listed whole.
use crate::inputs::{self, BOX_BYTES, CONTENTS, MIB, RECORD, STOPS};
use crate::library::{Library, Listing, PLAIN, PROVED, RECEIVER_SPAN_WORDS, Receiver};
use crate::listing;
use crate::sample::{C, Candidate, LIBRARY, LISTING, Times, sample};
use crate::span;
use crate::table::{heading, row, shown};
use crate::targets::{Measured, Receptions};
use std::cell::RefCell;
use std::hint::black_box;

/// The largest piece that a receiver takes.
pub const PIECE: usize = 64;

/// The regions, which have no Box, and the bytes of their records.
pub type Regions = [(&'static str, fn(usize) -> Vec<u8>, usize); 5];

pub const REGIONS: Regions = [
    ("8-byte records", inputs::eight_bytes, 8),
    ("24-byte records", inputs::twenty_four_bytes, 24),
    ("64-byte records", inputs::sixty_four_bytes, 64),
    ("4 KiB records", inputs::four_kib, 4096),
    ("type 6 headers", inputs::type6, 96),
];

/// What a receiver tells of a region in pieces of one length: the rows of all its calls, and what its finish tells.
fn received(library: Library, region: &[u8], rules: &[u32], piece: usize) -> (Vec<u32>, (u32, Listing)) {
    let mut spans = vec![inputs::UNTOUCHED; RECEIVER_SPAN_WORDS];
    let mut rows = Vec::new();
    let mut take = |spans: &mut Vec<u32>, count: u64| {
        let (told, rest) = spans.split_at_mut(count as usize * span::WORDS);
        rows.extend_from_slice(told);
        told.fill(inputs::UNTOUCHED);
        assert!(rest.iter().take(span::WORDS).all(|number| *number == inputs::UNTOUCHED));
    };
    let mut receiver = Receiver::SHUT;
    assert_eq!(library.start(&mut receiver, rules), 0);
    for piece in region.chunks(piece) {
        let (answer, count) = library.feed(&mut receiver, piece, &mut spans);
        assert_eq!(answer, 0);
        take(&mut spans, count);
    }
    let told = library.finish(&mut receiver, &mut spans);
    take(&mut spans, told.1.rows);
    assert!(spans.iter().all(|number| *number == inputs::UNTOUCHED));
    (rows, told)
}

/// The same, of C and the library alike.
fn checked(region: &[u8], rules: &[u32], piece: usize) -> (Vec<u32>, (u32, Listing)) {
    let [plain, proved] = [PLAIN, PROVED].map(|library| received(library, region, rules, piece));
    assert!(plain == proved, "C receives {:?}, the library {:?}", plain.1, proved.1);
    proved
}

/// What stops a region, and when it is whole: those that are timed do not stop for every reason.
pub fn check_stops() {
    let stops = STOPS.iter().flat_map(|(tail, _)| [tail.to_vec(), [&RECORD, *tail].concat()]);
    let contents = CONTENTS.iter().map(|(bytes, _)| bytes.to_vec());
    for region in stops.chain(contents) {
        for piece in [1, 3, 7, PIECE] {
            checked(&region, &BOX_BYTES, piece);
        }
    }
}

/// That a region without Boxes is received as the library lists it.
fn check_listed(region: &[u8], rules: &[u32], spans: &mut [u32]) {
    let (rows, (answer, told)) = checked(region, rules, PIECE);
    let count = listing::checked(region, rules, spans);
    let (list_answer, listed) = PROVED.list(region, rules, inputs::most_tries(region), spans);
    assert!(rows == spans[..count * span::WORDS], "the library lists other rows than it receives");
    assert_eq!((answer, Listing { rows: count as u64, ..told }), (list_answer, listed));
}

fn times(region: &[u8], rules: &[u32], spans: &mut [u32]) -> Times {
    let limit = inputs::most_tries(region);
    let spans = RefCell::new(spans);
    let receiving = |library: Library| {
        let spans = &spans;
        move || {
            let (mut receiver, spans) = (Receiver::SHUT, &mut spans.borrow_mut()[..RECEIVER_SPAN_WORDS]);
            library.start(&mut receiver, rules);
            for piece in region.chunks(PIECE) {
                black_box(library.feed(&mut receiver, black_box(piece), spans));
            }
            black_box(library.finish(&mut receiver, spans));
        }
    };
    let listing = || _ = black_box(PROVED.list(black_box(region), rules, limit, &mut spans.borrow_mut()));
    let mut candidates: Vec<Candidate> =
        vec![(C, Box::new(receiving(PLAIN))), (LIBRARY, Box::new(receiving(PROVED))), (LISTING, Box::new(listing))];
    sample(&mut candidates)
}

/// The pieces of a record of 4 KiB that neither have its header, nor are kept, nor end it; and each library's receiver before
/// them.
fn inside(rules: &[u32], spans: &mut [u32]) -> (Vec<u8>, [Receiver; 2]) {
    const FIRST: usize = 10;
    let record = inputs::four_kib(4096);
    let receivers = [PLAIN, PROVED].map(|library| {
        let mut receiver = Receiver::SHUT;
        library.start(&mut receiver, rules);
        for piece in record[..FIRST * PIECE].chunks(PIECE) {
            assert_eq!(library.feed(&mut receiver, piece, spans), (0, 0));
        }
        receiver
    });
    (record[FIRST * PIECE..record.len() - PIECE].to_vec(), receivers)
}

fn times_inside(pieces: &[u8], receivers: &[Receiver; 2], spans: &mut [u32]) -> Times {
    let spans = RefCell::new(spans);
    let feeding = |library: Library, before: &Receiver| {
        let (spans, before) = (&spans, before.clone());
        move || {
            let (mut receiver, spans) = (before.clone(), &mut spans.borrow_mut()[..RECEIVER_SPAN_WORDS]);
            for piece in pieces.chunks(PIECE) {
                black_box(library.feed(&mut receiver, black_box(piece), spans));
            }
        }
    };
    let mut candidates: Vec<Candidate> =
        vec![(C, Box::new(feeding(PLAIN, &receivers[0]))), (LIBRARY, Box::new(feeding(PROVED, &receivers[1])))];
    sample(&mut candidates)
}

fn line(name: &str, rules: &[u32], pieces: usize, times: &Times) {
    let each = times.median(LIBRARY) / pieces as f64;
    let numbers = [(rules.len() / 3).to_string(), pieces.to_string(), format!("{each:.1}")];
    let ratios = [shown(times.ratio(LIBRARY, C)), shown(times.ratio(LIBRARY, LISTING))];
    row(&[&[name.to_string()][..], &numbers, &ratios].concat());
}

pub fn report(tables: &[Vec<u32>]) -> Receptions {
    heading(
        "Receiving a region of 1 MiB in pieces of 64 bytes",
        &["region", "rules", "pieces", "library, ns a piece", "library / C", "library / its listing"],
    );
    let mut spans = listing::spans();
    let mut measured = Receptions::default();
    let mut report = |name: &str, size: usize, rules: &[u32], pieces: usize, times: Times| {
        line(name, rules, pieces, &times);
        let list = if size <= PIECE { &mut measured.short } else { &mut measured.long };
        list.push(Measured { input: format!("{name}, {} rules", rules.len() / 3), times });
    };
    for (name, make, size) in REGIONS {
        let region = make(MIB);
        for rules in tables {
            check_listed(&region, rules, &mut spans);
            let times = times(&region, rules, &mut spans);
            report(name, size, rules, MIB / PIECE, times);
        }
    }
    for rules in tables {
        let (pieces, receivers) = inside(rules, &mut spans);
        let times = times_inside(&pieces, &receivers, &mut spans);
        report("inside a 4 KiB record", 4096, rules, pieces.len() / PIECE, times);
    }
    measured
}
