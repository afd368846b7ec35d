//! The count of cases and of differing ones, by kind. Cases are tried in batches.

use crate::case::Case;
use crate::library::Library;
use crate::stops;
use std::collections::BTreeMap;
use std::{mem, process};

const BATCH_BYTES: usize = 1 << 20;

#[derive(Default)]
struct Count {
    cases: u64,
    differing: u64,
    /// By the number of the reason to stop or the ending that must be told.
    stops: [u64; stops::NAMES.len()],
    /// Listings with answer 0 that must not be whole, and those that must.
    whole: [u64; 2],
    /// Rows that must be written without a die, and with one.
    dies: [u64; 2],
    /// Pairs of rows that share no byte, and that have one inside the other.
    pairs: [u64; 2],
}

pub struct Tally {
    pub library: Library,
    kinds: BTreeMap<&'static str, Count>,
    waiting: Vec<(&'static str, Case)>,
    waiting_bytes: usize,
}

impl Tally {
    pub fn new(library: Library) -> Tally {
        Tally { library, kinds: BTreeMap::new(), waiting: Vec::new(), waiting_bytes: 0 }
    }

    /// Tries a case on the library, now or with later ones.
    pub fn check(&mut self, kind: &'static str, case: Case) {
        self.waiting_bytes += 100 + case.input.len() + case.written.len();
        self.waiting.push((kind, case));
        if self.waiting_bytes >= BATCH_BYTES {
            self.check_waiting();
        }
    }

    pub fn check_waiting(&mut self) {
        let waiting = mem::take(&mut self.waiting);
        self.waiting_bytes = 0;
        let cases: Vec<&Case> = waiting.iter().map(|(_, case)| case).collect();
        let verdicts = self.library.check(&cases).unwrap_or_else(|why| {
            println!("{why}");
            process::exit(1)
        });
        for ((kind, case), verdict) in waiting.iter().zip(verdicts) {
            self.note(kind, verdict.is_ok(), || format!("{}\n  {}", case.describe(), verdict.unwrap_err()));
            if let Some(stop) = case.stop() {
                self.kinds.entry(kind).or_default().stops[stop as usize] += 1;
            }
            if let Some(whole) = case.whole() {
                self.kinds.entry(kind).or_default().whole[whole as usize] += 1;
            }
            if let Some([without, with]) = case.rows_by_die() {
                let dies = &mut self.kinds.entry(kind).or_default().dies;
                *dies = [dies[0] + without, dies[1] + with];
            }
            if let Some([apart, inside]) = case.pairs() {
                let pairs = &mut self.kinds.entry(kind).or_default().pairs;
                *pairs = [pairs[0] + apart, pairs[1] + inside];
            }
        }
    }

    /// Counts a comparison; the first of a kind that differs is described.
    pub fn note(&mut self, kind: &'static str, same: bool, describe: impl FnOnce() -> String) {
        let count = self.kinds.entry(kind).or_default();
        count.cases += 1;
        if !same {
            count.differing += 1;
            if count.differing == 1 {
                println!("differing, the first of {kind}: {}", describe());
            }
        }
    }

    pub fn cases(&self) -> u64 {
        self.kinds.values().map(|count| count.cases).sum()
    }

    pub fn differing(&self) -> u64 {
        self.kinds.values().map(|count| count.differing).sum()
    }

    pub fn print(&self) {
        println!("{:<24} {:>10} {:>10}", "kind", "cases", "differing");
        for (kind, count) in &self.kinds {
            println!("{kind:<24} {:>10} {:>10}", count.cases, count.differing);
        }
        println!("{:<24} {:>10} {:>10}", "all", self.cases(), self.differing());
        self.print_stops();
        self.print_whole();
        self.print_dies();
        self.print_pairs();
    }

    /// How often each reason to stop or ending was to be told, of the kinds that tell one.
    fn print_stops(&self) {
        println!("{:<24} {}", "stops and endings", stops::NAMES.map(|name| format!("{name:>12}")).join(" "));
        for (kind, count) in self.kinds.iter().filter(|(_, count)| count.stops != [0; stops::NAMES.len()]) {
            println!("{kind:<24} {}", count.stops.map(|times| format!("{times:>12}")).join(" "));
        }
    }

    /// How many listings with answer 0 were to be whole, of the kinds that have any.
    fn print_whole(&self) {
        println!("{:<24} {:>10} {:>10}", "listings with answer 0", "whole", "not whole");
        for (kind, count) in self.kinds.iter().filter(|(_, count)| count.whole != [0; 2]) {
            println!("{kind:<24} {:>10} {:>10}", count.whole[1], count.whole[0]);
        }
    }

    /// How many rows of listings were to have a die, of the kinds that have rows.
    fn print_dies(&self) {
        println!("{:<24} {:>10} {:>10}", "rows of listings", "with die", "without");
        for (kind, count) in self.kinds.iter().filter(|(_, count)| count.dies != [0; 2]) {
            println!("{kind:<24} {:>10} {:>10}", count.dies[1], count.dies[0]);
        }
    }

    /// How the rows of listings that were held to each other stand, of the kinds that have any.
    fn print_pairs(&self) {
        println!("{:<24} {:>10} {:>10}", "pairs of rows", "apart", "inside");
        for (kind, count) in self.kinds.iter().filter(|(_, count)| count.pairs != [0; 2]) {
            println!("{kind:<24} {:>10} {:>10}", count.pairs[0], count.pairs[1]);
        }
    }
}
