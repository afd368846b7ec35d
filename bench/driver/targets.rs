//! What is aimed at, and the input on which the library comes out worst.
use crate::rust;
use crate::sample::{C, LIBRARY, LISTING, NESTED, ONE_BY_ONE, STANDIN, Times};
use crate::table::{heading, row};

/// The times on one input.
pub struct Measured {
    pub input: String,
    pub times: Times,
}

/// Those on regions in pieces: of records that are no longer than a piece, and of longer ones.
#[derive(Default)]
pub struct Receptions {
    pub short: Vec<Measured>,
    pub long: Vec<Measured>,
}

/// At most so many times the time of C.
const MOST_OF_C: f64 = 1.3;

/// At most so many times the time of a listing of the same bytes.
const MOST_OF_LISTING: f64 = 1.5;

/// At most so many times the time of the nested walk.
const MOST_OF_NESTED: f64 = 1.15;

/// At most so many times the time of a CPER's regions listed one by one.
const MOST_OF_ONE_BY_ONE: f64 = 1.2;

/// At least so many times as fast as the Rust with the same rules.
const LEAST_OF_RUST_LISTING: f64 = 5.0;
const LEAST_OF_RUST_NORMALISING: f64 = 2.0;

fn line(target: String, worst: (f64, &str), met: bool) {
    let met = if met { "yes" } else { "no" };
    row(&[target, format!("{:.2}", worst.0), worst.1.into(), met.into()]);
}

/// The input on which the library takes the most of another's time.
fn slowest<'a>(measured: impl IntoIterator<Item = &'a Measured>, other: &str) -> (f64, &'a str) {
    let ratios = measured.into_iter().map(|m| (m.times.ratio(LIBRARY, other).unwrap().median, m.input.as_str()));
    ratios.max_by(|a, b| a.0.total_cmp(&b.0)).unwrap()
}

fn at_most<'a>(what: &str, most: f64, other: &str, measured: impl IntoIterator<Item = &'a Measured>) {
    let worst = slowest(measured, other);
    line(format!("{what}: at most {most} times {other}"), worst, worst.0 <= most);
}

fn against_rust(what: &str, least: f64, measured: &[Measured]) {
    let ratios = measured.iter().map(|m| (m.times.ratio(STANDIN, LIBRARY).unwrap().median, m.input.as_str()));
    let worst = ratios.min_by(|a, b| a.0.total_cmp(&b.0)).unwrap();
    line(format!("{what}: at least {least} times as fast as the Rust"), worst, least <= worst.0);
}

pub fn report(
    listings: &[Measured],
    flat_listings: &[Measured],
    cper_listings: &[Measured],
    receptions: &Receptions,
    normal_forms: &[Measured],
) {
    heading("Targets", &["target", "worst", "on", "met"]);
    at_most("listing", MOST_OF_C, C, listings);
    at_most("flat walk", MOST_OF_NESTED, NESTED, flat_listings);
    at_most("listing a CPER", MOST_OF_ONE_BY_ONE, ONE_BY_ONE, cper_listings);
    at_most("receiving", MOST_OF_C, C, receptions.short.iter().chain(&receptions.long));
    at_most("receiving records of up to 64 bytes", MOST_OF_LISTING, LISTING, &receptions.short);
    at_most("normalising", MOST_OF_C, C, normal_forms);
    if rust::PRESENT {
        against_rust("listing", LEAST_OF_RUST_LISTING, listings);
        against_rust("normalising", LEAST_OF_RUST_NORMALISING, normal_forms);
    }
}
