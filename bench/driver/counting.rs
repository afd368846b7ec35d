//! Inputs of two lengths each, for bench/count: rules and bytes in one file, as bench/count.c reads them.
use crate::inputs;
use crate::listing::{self, REGIONS};
use crate::receiving;
use std::fs;
use std::path::Path;

const SHORT: usize = 16 << 10;
const LONG: usize = 2 * SHORT;

fn write(file: &Path, rules: &[u32], bytes: &[u8]) {
    let mut held = (rules.len() as u32).to_le_bytes().to_vec();
    held.extend(rules.iter().flat_map(|number| number.to_le_bytes()));
    held.extend(bytes);
    fs::write(file, held).unwrap();
}

/// Writes the inputs, and a list of them: place, call, name, rules, and the rows, sections or pieces that the longer one has more.
pub fn write_inputs(folder: &Path, tables: &[Vec<u32>]) {
    let mut list = String::new();
    let mut add = |call: &str, name: &str, rules: &[u32], [short, long]: [(Vec<u8>, usize); 2]| {
        let place = list.lines().count();
        write(&folder.join(format!("{place}.short")), rules, &short.0);
        write(&folder.join(format!("{place}.long")), rules, &long.0);
        list += &format!("{place}|{call}|{name}|{}|{}\n", rules.len() / 3, long.1 - short.1);
    };
    let mut spans = listing::spans();
    for (name, make) in REGIONS {
        for rules in tables {
            let made = [SHORT, LONG].map(|length| {
                let region = make(length);
                let rows = listing::checked(&region, rules, &mut spans);
                (region, rows)
            });
            add("list", name, rules, made);
        }
    }
    let made = [SHORT, LONG].map(|length| {
        let sections = inputs::sections_in(length);
        (inputs::cper(sections, length), sections)
    });
    add("normalise", "sections of 32 bytes", &[], made);
    for (name, make, _) in receiving::REGIONS {
        for rules in &tables[..2] {
            let made = [SHORT, LONG].map(|length| (make(length), length / receiving::PIECE));
            add("receive", &format!("received: {name}"), rules, made);
        }
    }
    fs::write(folder.join("list"), list).unwrap();
}
