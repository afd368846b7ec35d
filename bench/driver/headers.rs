//! One record header, decoded and encoded.
use crate::inputs::{self, HEADERS, STOPS, UNTOUCHED};
use crate::library::{Header, Judged, Library, PLAIN, PROVED};
use crate::rust;
use crate::sample::{C, Candidate, LIBRARY, Times, sample};
use crate::table::{compared, heading, ratios, row};
use std::hint::black_box;

/// More than the longest header.
const ROOM: usize = 600;

/// What C and the library tell of some bytes alike, and the header as they leave it.
fn judged(bytes: &[u8], rules: &[u32]) -> ((u32, Judged), Header) {
    let [plain, proved] = [PLAIN, PROVED].map(|library| {
        let mut header = Header::ZERO;
        (library.decode(bytes, rules, &mut header), header)
    });
    assert_eq!(plain, proved);
    proved
}

/// How records end: no header that is timed is an ending.
pub fn check_endings() {
    for (bytes, ending) in STOPS.into_iter().filter(|(_, stop)| (2..=4).contains(stop)) {
        let ((answer, judged), _) = judged(bytes, &[]);
        assert_eq!((answer, judged.ending), (254, ending));
    }
}

/// The header at the start of some bytes, which all read alike.
fn decoded(bytes: &[u8], rules: &[u32]) -> Header {
    let ((answer, judged), header) = judged(bytes, rules);
    assert_eq!(answer, 0);
    rust::check_header(bytes, rules, &header, &judged);
    header
}

fn check_encoding(header: &Header, rules: &[u32]) {
    let [plain, proved] = [PLAIN, PROVED].map(|library| {
        let mut out = [UNTOUCHED as u8; ROOM];
        (library.encode(header, rules, &mut out), out)
    });
    assert_eq!(plain, proved);
    assert_eq!(proved.0.0, 0);
}

fn decode_times(slices: &[Vec<u8>], rules: &[u32]) -> Times {
    let work = |library: Library| {
        let mut header = Header::ZERO;
        move || {
            for bytes in slices {
                black_box(library.decode(black_box(bytes), rules, &mut header));
            }
        }
    };
    let mut candidates: Vec<Candidate> = vec![(C, Box::new(work(PLAIN))), (LIBRARY, Box::new(work(PROVED)))];
    rust::add_decoders(&mut candidates, slices, rules);
    sample(&mut candidates)
}

fn encode_times(headers: &[Header], rules: &[u32]) -> Times {
    let work = |library: Library| {
        let mut out = [0; ROOM];
        move || {
            for header in headers {
                black_box(library.encode(black_box(header), rules, &mut out));
            }
        }
    };
    let mut candidates: Vec<Candidate> = vec![(C, Box::new(work(PLAIN))), (LIBRARY, Box::new(work(PROVED)))];
    sample(&mut candidates)
}

fn line(name: &str, rules: &[u32], each: f64, ratios: &[String]) {
    let mut cells = vec![name.into(), (rules.len() / 3).to_string(), format!("{each:.1}")];
    cells.extend_from_slice(ratios);
    row(&cells);
}

pub fn report_decoding(tables: &[Vec<u32>]) {
    heading("Decoding a header", &compared(&["header", "rules", "library, ns"]));
    for (kind, (name, ..)) in HEADERS.iter().enumerate() {
        let slices = inputs::headers(kind);
        for rules in tables {
            slices.iter().for_each(|bytes| _ = decoded(bytes, rules));
            let times = decode_times(&slices, rules);
            line(name, rules, times.median(LIBRARY) / slices.len() as f64, &ratios(&times));
        }
    }
}

/// The Rust has no encoder.
pub fn report_encoding(tables: &[Vec<u32>]) {
    heading("Encoding a header", &["header", "rules", "library, ns", "library / C"]);
    for (kind, (name, ..)) in HEADERS.iter().enumerate() {
        for rules in tables {
            let headers: Vec<Header> = inputs::headers(kind).iter().map(|bytes| decoded(bytes, rules)).collect();
            headers.iter().for_each(|header| check_encoding(header, rules));
            let times = encode_times(&headers, rules);
            line(name, rules, times.median(LIBRARY) / headers.len() as f64, &ratios(&times)[..1]);
        }
    }
}
