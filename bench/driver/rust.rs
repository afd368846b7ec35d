//! The published Rust, in two forms: with the rule table in the place of its errata, and as published, with its own errata.
use crate::library::{Header, Judged, intel_rules};
use crate::sample::{Candidate, PUBLISHED, STANDIN};
use std::hint::black_box;

pub const PRESENT: bool = true;

mod standin {
    use ::standin as form;
    include!("form.rs");

    pub fn set_rules(rules: &[u32]) {
        let rows: Vec<_> = rules.chunks_exact(3).map(|row| [row[0], row[1], row[2]]).collect();
        form::errata::set_rules(&rows);
    }
}

mod published {
    use ::published as form;
    include!("form.rs");
}

/// Sets the rules of the one form; whether they are those of the other.
fn both_under(rules: &[u32]) -> bool {
    standin::set_rules(rules);
    rules == intel_rules()
}

pub fn check_rows(region: &[u8], rules: &[u32], rows: &[u32]) {
    if both_under(rules) {
        assert!(published::rows(region) == rows, "the published Rust lists other rows");
    }
    assert!(standin::rows(region) == rows, "the Rust lists other rows");
}

pub fn add_walks<'a>(candidates: &mut Vec<Candidate<'a>>, region: &'a [u8], rules: &[u32]) {
    candidates.push((STANDIN, Box::new(|| _ = black_box(standin::walk(black_box(region))))));
    if both_under(rules) {
        candidates.push((PUBLISHED, Box::new(|| _ = black_box(published::walk(black_box(region))))));
    }
}

pub fn check_normal_form(cper: &[u8], written: &[u8]) {
    assert!(standin::normalise(cper) == written, "the Rust writes another normal form");
    assert!(published::normalise(cper) == written, "the published Rust writes another normal form");
}

pub fn add_normalisers<'a>(candidates: &mut Vec<Candidate<'a>>, cper: &'a [u8]) {
    candidates.push((STANDIN, Box::new(|| _ = black_box(standin::normalise(black_box(cper))))));
    candidates.push((PUBLISHED, Box::new(|| _ = black_box(published::normalise(black_box(cper))))));
}

pub fn check_header(bytes: &[u8], rules: &[u32], header: &Header, judged: &Judged) {
    if both_under(rules) {
        assert_eq!(published::flat(bytes), (*header, *judged));
    }
    assert_eq!(standin::flat(bytes), (*header, *judged));
}

pub fn add_decoders<'a>(candidates: &mut Vec<Candidate<'a>>, slices: &'a [Vec<u8>], rules: &[u32]) {
    candidates.push((STANDIN, Box::new(|| slices.iter().for_each(|bytes| _ = black_box(standin::decode(black_box(bytes)))))));
    if both_under(rules) {
        candidates
            .push((PUBLISHED, Box::new(|| slices.iter().for_each(|bytes| _ = black_box(published::decode(black_box(bytes)))))));
    }
}
