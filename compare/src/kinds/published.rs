//! The Rust as published: with Intel's rules its headers and listings are the library's, and a CPER, or the listing of one,
//! differs where predicted.

use super::{containers, intel};
use crate::case::{Call, Case, Source, hex};
use crate::differences::{Difference, Region, predict, predict_regions};
use crate::expected;
use crate::inputs::cper_regions::{self, CRASH_LOG};
use crate::inputs::{cpers, damage, regions};
use crate::library::Library;
use crate::random::Random;
use crate::rust::{published, standin};
use crate::span;
use crate::tally::Tally;
use crate::told::Container;
use std::rc::Rc;

const HEADERS: &str = "published headers";
const LISTINGS: &str = "published listings";
const CONTAINERS: &str = "published CPERs";
const CPER_LISTINGS: &str = "published CPER listings";
const PREDICTED: &str = "published, predicted";

pub struct Published {
    rules: Rc<[u32]>,
    /// How often each difference was seen.
    pub seen: Vec<(Difference, u64)>,
}

impl Published {
    pub fn new(library: &mut Library) -> Published {
        let seen = Difference::ALL.map(|difference| (difference, 0));
        Published { rules: intel::table(library), seen: seen.to_vec() }
    }

    pub fn fixed(&mut self, tally: &mut Tally) {
        let body: Vec<u8> = (1..60).collect();
        self.fixed_listings(tally);
        for revision in 0..4 {
            for length in 0..body.len() {
                let mut cper = cpers::plain(&[&body[..length]]);
                cper[144..160].copy_from_slice(&cpers::FIRMWARE_ERROR);
                cper.get_mut(201).into_iter().for_each(|byte| *byte = revision);
                self.container(tally, &cper);
            }
        }
        for validation in 0..=4 {
            let mut two = cpers::plain_header(2);
            two.extend(cpers::plain_descriptor(0, 0));
            two.extend(cpers::plain_descriptor(3, 5));
            two[136..142].fill(validation);
            two[210..216].fill(validation);
            (0..two.len()).for_each(|length| self.container(tally, &two[..length]));
        }
    }

    /// A Crash Log of every revision; in a body of every length; and under a descriptor that is cut at every byte, where the body
    /// takes the place of the descriptor before it.
    fn fixed_listings(&mut self, tally: &mut Tally) {
        let mut body = cper_regions::section(&CRASH_LOG, &regions::nest(2));
        for revision in 0..=255 {
            body[1] = revision;
            self.cper_listing(tally, &cper_regions::of_bodies(&[body.clone(), body.clone()]));
        }
        for length in 0..body.len() {
            self.cper_listing(tally, &cper_regions::of_bodies(&[body.clone(), body[..length].to_vec()]));
        }
        for revision in [1, 2] {
            body[1] = revision;
            let mut cper = [cpers::plain_header(2), body.clone()].concat();
            cper.resize(cpers::HEADER + cpers::DESCRIPTOR, 0);
            cper.extend(cper_regions::firmware_error(cpers::HEADER, body.len()));
            (cpers::HEADER..=cper.len()).for_each(|length| self.cper_listing(tally, &cper[..length]));
        }
    }

    pub fn round(&mut self, tally: &mut Tally, random: &mut Random) {
        let region = regions::region(random, &self.rules);
        let damaged = damage::damaged(random, &region);
        for region in [region, damaged] {
            let region = Rc::from(region);
            self.header(tally, &region);
            self.listing(tally, &region);
        }
        let cper = cpers::random_cper(random);
        self.container(tally, &cper);
        self.container(tally, &damage::damaged(random, &cper));
        let cper = cper_regions::random_cper(random, &self.rules, &CRASH_LOG);
        let damaged = damage::damaged(random, &cper);
        for cper in [cper, damaged] {
            if cpers::normal_length(&cper) <= cpers::MOST_COPIED {
                self.cper_listing(tally, &cper);
            }
        }
    }

    fn header(&self, tally: &mut Tally, bytes: &Rc<[u8]>) {
        let case = Case { rules: self.rules.clone(), ..Case::new(Call::Headers, Source::Rust, bytes) };
        tally.check(HEADERS, expected::decoded(case, published::header(bytes)));
    }

    fn listing(&self, tally: &mut Tally, region: &Rc<[u8]>) {
        let walk = published::walk(region);
        let (tries, rows) = (walk.steps.len() as u64, walk.rows as usize);
        tally.check(LISTINGS, expected::listing(&self.rules, region, &Some(walk), tries, span::WORDS * (rows + 1)));
    }

    /// Where no difference is predicted the library must agree with the published form, else the two must differ as predicted.
    fn container(&mut self, tally: &mut Tally, cper: &[u8]) {
        let (standin, published) = (containers::read(cper), published::container(cper));
        let (predicted, differences) = match &standin {
            None => (None, Vec::new()),
            Some(standin) => {
                let (predicted, differences) = predict(cper, standin);
                (Some(predicted), differences)
            }
        };
        if differences.is_empty() {
            agree(tally, cper, &published);
            return;
        }
        let as_predicted = same(&predicted, &published) && !same(&standin, &published);
        self.note(tally, cper, &differences, as_predicted);
    }

    /// The same for the listing of a CPER's Crash Logs.
    fn cper_listing(&mut self, tally: &mut Tally, cper: &[u8]) {
        let read = containers::read(cper);
        let (predicted, differences) = read.map(|read| predict_regions(cper, &read)).unwrap_or_default();
        if differences.is_empty() {
            self.list_cper(tally, cper);
            return;
        }
        let [standin, published] = [standin::regions(cper, CRASH_LOG), published::regions(cper, CRASH_LOG)].map(places);
        self.note(tally, cper, &differences, published == predicted && published != standin);
    }

    /// The library lists what the published form walks.
    fn list_cper(&self, tally: &mut Tally, cper: &[u8]) {
        let walk = published::walk_cper(cper, CRASH_LOG);
        let (tries, rows) = walk.as_ref().map_or((0, 0), |walk| (walk.steps.len() as u64, walk.rows as usize));
        let case = expected::cper_listing(&self.rules, &Rc::from(cper), CRASH_LOG, &walk, tries, span::WORDS * (rows + 1));
        tally.check(CPER_LISTINGS, case);
    }

    fn note(&mut self, tally: &mut Tally, cper: &[u8], differences: &[Difference], as_predicted: bool) {
        for (difference, seen) in &mut self.seen {
            *seen += differences.contains(difference) as u64;
        }
        tally.note(PREDICTED, as_predicted, || format!("{differences:?} in {}", hex(cper)));
    }
}

fn places(regions: Option<Vec<(usize, Vec<u8>)>>) -> Vec<Region> {
    regions.iter().flatten().map(|(offset, region)| (*offset, region.len())).collect()
}

/// The library gives the published form's table, sections and normal form.
fn agree(tally: &mut Tally, cper: &[u8], published: &Option<Container>) {
    let cper: Rc<[u8]> = Rc::from(cper);
    let (rows, length) = published.as_ref().map_or((0, 0), |read| (read.kept.len(), read.normal.len()));
    tally.check(CONTAINERS, expected::table(&cper, published, 3 * rows));
    tally.check(CONTAINERS, expected::section(&cper, published, (rows as u32).saturating_sub(1)));
    tally.check(CONTAINERS, expected::normal_form(&cper, published, length));
}

pub fn same(one: &Option<Container>, other: &Option<Container>) -> bool {
    match (one, other) {
        (Some(one), Some(other)) => one.kept == other.kept && one.normal == other.normal,
        (one, other) => one.is_none() && other.is_none(),
    }
}
