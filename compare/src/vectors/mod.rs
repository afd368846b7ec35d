//! The fixed list for the replay program: one file for each call, each a run of cases (`replay`). The answers come from the
//! Rust or from document 01, never from the library; the list is then tried on the library too.

mod boundaries;
mod cper_listings;
mod origins;
mod receptions;
mod sample;
mod stops;
mod whole;
mod worked;

use crate::case::{Call, Case};
use crate::dump::{self, Dumps};
use crate::replay;
use crate::tally::Tally;
use std::path::Path;
use std::{fs, io};

const KIND: &str = "fixed list";

const FILES: [(Call, &str); 11] = [
    (Call::Headers, "headers"),
    (Call::Encodes, "encodes"),
    (Call::Listings, "listings"),
    (Call::Texts, "texts"),
    (Call::Tables, "tables"),
    (Call::Sections, "sections"),
    (Call::NormalForms, "normal_forms"),
    (Call::Names, "names"),
    (Call::Receptions, "receptions"),
    (Call::CperListings, "cper_listings"),
    (Call::CperTexts, "cper_texts"),
];

pub fn list() -> Vec<Case> {
    let mut cases = worked::list();
    cases.extend(boundaries::list());
    cases.extend(stops::list());
    cases.extend(whole::list());
    cases.extend(origins::list());
    cases.extend(receptions::list());
    cases.extend(cper_listings::list());
    cases.extend(sample::list());
    cases
}

pub fn check(tally: &mut Tally, dumps: &Dumps, cases: &[Case]) {
    for case in cases {
        if let Some(program) = dumps.program(case.call) {
            let text = dump::text(program, &case.input);
            let same = text.as_ref().is_ok_and(|text| *text == case.written);
            tally.note(KIND, same, || format!("{}\n  the program: {text:?}", case.describe()));
        } else {
            tally.check(KIND, case.clone());
        }
    }
    tally.check_waiting();
}

/// Writes the files, and prints what they hold.
pub fn write(folder: &Path, cases: &[Case]) -> io::Result<()> {
    fs::create_dir_all(folder)?;
    for (call, name) in FILES {
        let cases: Vec<&Case> = cases.iter().filter(|case| case.call == call).collect();
        let bytes: Vec<u8> = cases.iter().flat_map(|case| replay::bytes_of(case)).collect();
        fs::write(folder.join(name), &bytes)?;
        let mut answers: Vec<u64> = cases.iter().map(|case| case.answer()).collect();
        answers.sort();
        answers.dedup();
        let lengths = matches!(call, Call::Texts | Call::CperTexts | Call::Names);
        let told = if lengths { String::new() } else { format!(", answers {answers:?}") };
        println!("{name}: {} cases, {} bytes{told}", cases.len(), bytes.len());
    }
    Ok(())
}
