//! How time grows with the input: the library's time for each KiB, at several lengths.
use crate::inputs::{self, MIB};
use crate::listing::{self, REGIONS};
use crate::normalising;
use crate::sample::LIBRARY;
use crate::table::{heading, row};

const LENGTHS: [usize; 6] = [1 << 10, 4 << 10, 16 << 10, 64 << 10, 256 << 10, MIB];

fn line(name: &str, time: impl FnMut(usize) -> f64) {
    let times: Vec<f64> = LENGTHS.iter().copied().map(time).collect();
    let each = times.iter().zip(LENGTHS).map(|(time, length)| format!("{:.1}", time / (length >> 10) as f64));
    let mut cells = vec![name.to_string()];
    cells.extend(each);
    row(&cells);
}

fn normalise_time(sections: usize, length: usize, out: &mut [u8]) -> f64 {
    let cper = inputs::cper(sections, length);
    normalising::check(&cper, out);
    normalising::times(&cper, out).median(LIBRARY)
}

pub fn report(rules: &[u32]) {
    heading(
        "Growth: the library's ns for each KiB of the input",
        &["input", "1 KiB", "4 KiB", "16 KiB", "64 KiB", "256 KiB", "1 MiB"],
    );
    let mut spans = listing::spans();
    for (name, make) in REGIONS {
        line(&format!("listing, {name}, 40 rules"), |length| {
            let region = make(length);
            listing::checked(&region, rules, &mut spans);
            listing::times(&region, rules, &mut spans).median(LIBRARY)
        });
    }
    let mut out = normalising::output();
    line("normalising, 1 section", |length| normalise_time(1, length, &mut out));
    line("normalising, a section for each 104 bytes", |length| {
        normalise_time(inputs::sections_in(length), length, &mut out)
    });
}
