//! A sample of random cases, by a fixed seed.

use crate::case::{Case, Source};
use crate::encoder;
use crate::expected::{self, good_rules};
use crate::inputs::{cpers, damage, regions, rule_tables};
use crate::kinds::containers;
use crate::kinds::encodes::{FIELDS, decoded, with_field};
use crate::random::Random;
use crate::span;
use std::rc::Rc;

const SEED: u64 = 20_251_028;
const ROUNDS: usize = 100;
/// Longer inputs are left out, to keep the files small.
const MOST_BYTES: usize = 700;

pub fn list() -> Vec<Case> {
    let mut random = Random::new(SEED);
    let mut cases = Vec::new();
    for _ in 0..ROUNDS {
        region(&mut random, &mut cases);
        header(&mut random, &mut cases);
        container(&mut random, &mut cases);
    }
    cases
}

/// A region and a damaged copy: whole, and under some limit and room.
fn region(random: &mut Random, cases: &mut Vec<Case>) {
    let rules: Rc<[u32]> = Rc::from(if random.once_in(8) { rule_tables::any(random) } else { short_table(random) });
    let good = regions::region(random, &rules);
    let damaged = damage::damaged(random, &good);
    for region in [good, damaged] {
        if region.len() > MOST_BYTES {
            continue;
        }
        let region: Rc<[u8]> = Rc::from(region);
        let walk = expected::walk(&rules, &region);
        let (tries, rows) = walk.as_ref().map_or((0, 0), |walk| (walk.steps.len(), walk.rows as usize));
        cases.push(expected::listing(&rules, &region, &walk, tries as u64, span::WORDS * rows));
        let (limit, room) = (random.below(tries + 2), random.below(span::WORDS * (rows + 1) + 1));
        cases.push(expected::listing(&rules, &region, &walk, limit as u64, room));
        if rules.is_empty() {
            cases.push(expected::text(&region));
        }
    }
}

fn short_table(random: &mut Random) -> Vec<u32> {
    let mut rules = rule_tables::valid(random);
    rules.truncate(3 * random.below(4));
    rules
}

/// A header and its encoding, with and without a field changed.
fn header(random: &mut Random, cases: &mut Vec<Case>) {
    let rules: Rc<[u32]> = Rc::from(short_table(random));
    let length = random.pick(&[3, 8, 24, 28, 31, 32, 60]);
    let bytes: Rc<[u8]> = Rc::from(regions::noise(random, length));
    cases.push(expected::header(&rules, &bytes));
    if !good_rules(&rules) {
        return;
    }
    if let Some((header, size)) = decoded(&rules, &bytes) {
        cases.push(encoder::case(&rules, &header, size, Source::Inverse));
        let (field, bits) = (random.pick(&FIELDS), random.below(64));
        let changed = with_field(&header, field, random.next() >> bits);
        cases.push(encoder::case(&rules, &changed, 540, Source::Paper));
    }
}

/// A CPER, or a damaged one: table, one section, normal form.
fn container(random: &mut Random, cases: &mut Vec<Case>) {
    let good = cpers::random_cper(random);
    let cper = if random.once_in(3) { damage::damaged(random, &good) } else { good };
    if cper.len() > MOST_BYTES {
        return;
    }
    let read = containers::read(&cper);
    let cper: Rc<[u8]> = Rc::from(cper);
    let (rows, length) = read.as_ref().map_or((0, 0), |read| (read.kept.len(), read.normal.len()));
    cases.push(expected::table(&cper, &read, random.below(3 * rows + 4)));
    cases.push(expected::section(&cper, &read, random.below(rows + 1) as u32));
    cases.push(expected::normal_form(&cper, &read, length));
}
