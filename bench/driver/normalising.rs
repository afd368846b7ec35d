//! The normal form of a CPER.
use crate::inputs::{self, MIB};
use crate::library::{Library, PLAIN, PROVED};
use crate::rust;
use crate::sample::{C, Candidate, LIBRARY, Times, sample};
use crate::table::{compared, heading, ratios, row};
use crate::targets::Measured;
use std::cell::RefCell;
use std::hint::black_box;

const SECTIONS: [usize; 3] = [1, 100, 10_000];

const PAGE: usize = 4096;
const STEP: usize = 272;

/// Room for the normal form of any CPER here, wherever in the first page it starts.
pub fn output() -> Vec<u8> {
    vec![0; MIB + PAGE]
}

/// All write the same.
pub fn check(cper: &[u8], out: &mut [u8]) {
    let [plain, proved] = [PLAIN, PROVED].map(|library| {
        out.fill(inputs::UNTOUCHED as u8);
        let told = library.normalise(cper, out);
        (told, out.to_vec())
    });
    assert!(plain == proved, "C writes {:?}, the library {:?}", plain.0, proved.0);
    let ((answer, length), written) = proved;
    assert_eq!(answer, 0);
    rust::check_normal_form(cper, &written[..length as usize]);
}

/// The output starts elsewhere in a page with each call: how input and output lie to each other changes the times.
pub fn times(cper: &[u8], out: &mut [u8]) -> Times {
    let out = RefCell::new(out);
    let work = |library: Library| {
        let (out, mut start) = (&out, 0);
        move || {
            start = (start + STEP) % PAGE;
            black_box(library.normalise(black_box(cper), &mut out.borrow_mut()[start..]));
        }
    };
    let mut candidates: Vec<Candidate> = vec![(C, Box::new(work(PLAIN))), (LIBRARY, Box::new(work(PROVED)))];
    rust::add_normalisers(&mut candidates, cper);
    sample(&mut candidates)
}

pub fn report() -> Vec<Measured> {
    heading("Normalising a CPER of up to 1 MiB", &compared(&["sections", "bytes in each body", "library, µs"]));
    let mut out = output();
    let mut measured = Vec::new();
    for sections in SECTIONS {
        let cper = inputs::cper(sections, MIB);
        check(&cper, &mut out);
        let times = times(&cper, &mut out);
        let mut cells = vec![
            sections.to_string(),
            inputs::body_size(sections, MIB).to_string(),
            format!("{:.1}", times.median(LIBRARY) / 1e3),
        ];
        cells.extend(ratios(&times));
        row(&cells);
        measured.push(Measured { input: format!("sections: {sections}"), times });
    }
    measured
}
