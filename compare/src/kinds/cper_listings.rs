//! The listing of all regions that lie in a CPER, whole and under limits and rooms.

use crate::expected::{self, MOST_BYTES};
use crate::inputs::cper_regions::{self, CRASH_LOG, Id, SECTION_HEADER, of_bodies, of_places, of_regions, section};
use crate::inputs::words::BOX;
use crate::inputs::{cpers, damage, regions, rule_tables};
use crate::random::Random;
use crate::span;
use crate::tally::Tally;
use crate::told::Walk;
use std::rc::Rc;

const WHOLE: &str = "CPER listings";
const CUT: &str = "CPER limits and rooms";
const LONG: &str = "CPER listings, long";

/// A CPER under some rules, the identifier that is asked for, and the whole walk.
struct Asked {
    rules: Rc<[u32]>,
    cper: Rc<[u8]>,
    record_id: Id,
    walk: Option<Walk>,
}

impl Asked {
    fn new(rules: &[u32], cper: &[u8], record_id: Id) -> Asked {
        let walk = expected::cper_walk(rules, cper, record_id);
        Asked { rules: Rc::from(rules), cper: Rc::from(cper), record_id, walk }
    }

    /// Its tries and rows.
    fn counts(&self) -> (u64, usize) {
        self.walk.as_ref().map_or((0, 0), |walk| (walk.steps.len() as u64, walk.rows as usize))
    }

    /// Checks it under a limit, in a table of so many numbers.
    fn check(&self, tally: &mut Tally, kind: &'static str, limit: u64, room: usize) {
        tally.check(kind, expected::cper_listing(&self.rules, &self.cper, self.record_id, &self.walk, limit, room));
    }

    /// Whole, with room for one row more.
    fn check_whole(&self, tally: &mut Tally) {
        let (tries, rows) = self.counts();
        self.check(tally, WHOLE, tries, span::WORDS * (rows + 1));
    }

    /// Under each limit and in each room around the end of each region, around nothing, and with no limit.
    fn check_cuts(&self, tally: &mut Tally) {
        let ends = self.walk.iter().flat_map(|walk| &walk.ends);
        let (tries, rows): (Vec<usize>, Vec<usize>) = ends.map(|[tries, rows]| (*tries, *rows)).unzip();
        for limit in around(tries).into_iter().map(|limit| limit as u64).chain([1 << 32, u64::MAX]) {
            for room in around(rows.clone()) {
                let part = (room + limit as usize % 7) % span::WORDS;
                self.check(tally, CUT, limit, span::WORDS * room + part);
            }
        }
    }
}

/// 0, 1, and each count, one less and one more.
fn around(mut counts: Vec<usize>) -> Vec<usize> {
    counts.push(0);
    let mut around: Vec<usize> = counts.iter().flat_map(|count| [count.saturating_sub(1), *count, count + 1]).collect();
    around.sort();
    around.dedup();
    around
}

fn check(tally: &mut Tally, rules: &[u32], cper: &[u8], record_id: Id) {
    Asked::new(rules, cper, record_id).check_whole(tally);
}

pub fn fixed(tally: &mut Tally) {
    lengths(tally);
    identifiers_and_types(tally);
    two_regions(tally);
    refusals(tally);
    many(tally);
    long(tally);
}

/// A body that ends at each of its bytes, in a CPER that ends there, and in one that goes on; a CPER that ends anywhere.
fn lengths(tally: &mut Tally) {
    for region in [regions::nest(2), regions::small_record(3, 12), vec![0; 8]] {
        let body = section(&CRASH_LOG, &region);
        for length in 0..=body.len() {
            check(tally, &[], &of_places(&[(0, length)], &body[..length]), CRASH_LOG);
            check(tally, &[], &of_places(&[(0, length)], &body), CRASH_LOG);
            check(tally, &[], &of_places(&[(0, length), (0, body.len())], &body), CRASH_LOG);
        }
        let cper = of_bodies(&[body.clone(), body]);
        (0..cper.len()).for_each(|length| check(tally, &[], &cper[..length], CRASH_LOG));
    }
}

/// Every bit of the identifier and of the type another, and every revision.
fn identifiers_and_types(tally: &mut Tally) {
    let cper = of_regions(&CRASH_LOG, &[regions::nest(2), regions::nest(3)]);
    let (types, body) = (cpers::HEADER + 16, cpers::HEADER + 2 * cpers::DESCRIPTOR);
    for bit in 0..8 * 16 {
        let flipped = |at: usize| {
            let mut cper = cper.clone();
            cper[at + bit / 8] ^= 1 << (bit % 8);
            cper
        };
        let mut record_id = CRASH_LOG;
        record_id[bit / 8] ^= 1 << (bit % 8);
        for cper in [&cper, &flipped(body + cper_regions::ID_AT)] {
            check(tally, &[], cper, record_id);
            check(tally, &[], cper, CRASH_LOG);
        }
        check(tally, &[], &flipped(types), CRASH_LOG);
        check(tally, &[], &flipped(types + cpers::DESCRIPTOR), CRASH_LOG);
    }
    for revision in 0..=255 {
        let mut cper = cper.clone();
        cper[body + 1] = revision;
        check(tally, &[], &cper, CRASH_LOG);
    }
}

/// Every pair of regions of some: with and without records, whole and not, under each limit and in each room.
fn two_regions(tally: &mut Tally) {
    let [punit, boxes] = [regions::small_record(3, 8), regions::nest(2)];
    let cut = regions::small_record(3, 12);
    let boxed = [&regions::small_record(BOX, 20)[..], &punit, &[0; 4]].concat();
    let tails = [&[][..], &[0; 4], &[0xef, 0xbe, 0xad, 0xde], &[0; 3], &punit[..5], &[1, 0x37, 0x12, 3, 2, 0, 0, 0]];
    let with_records = [&punit, &boxes, &cut, &boxed].map(|region| region.clone());
    let alone = tails.map(<[u8]>::to_vec);
    let after_record = tails.map(|tail| [&punit, tail].concat());
    let all: Vec<Vec<u8>> = with_records.into_iter().chain(alone).chain(after_record).collect();
    for first in &all {
        for second in &all {
            let asked = Asked::new(&[], &of_regions(&CRASH_LOG, &[first.clone(), second.clone()]), CRASH_LOG);
            asked.check_whole(tally);
            asked.check_cuts(tally);
        }
    }
}

/// Lengths at the limit, rules and signatures, good and bad, in all combinations.
fn refusals(tally: &mut Tally) {
    let good = of_regions(&CRASH_LOG, &[regions::nest(2)]);
    for length in [good.len(), MOST_BYTES, MOST_BYTES + 1] {
        for rules in [vec![], vec![0; 2], vec![0; 3 * 64], vec![0; 3 * 65], vec![0, 0, 15], vec![0, 0, 16]] {
            for signature in [None, Some(0), Some(9)] {
                let mut cper = good.clone();
                cper.resize(length, 0);
                signature.into_iter().for_each(|at: usize| cper[at] ^= 1);
                Asked::new(&rules, &cper, CRASH_LOG).check(tally, WHOLE, 2, 2 * span::WORDS);
                Asked::new(&rules, &cper, CRASH_LOG).check(tally, WHOLE, 0, 0);
            }
        }
    }
}

/// Ten thousand sections over one body, with and without a record.
fn many(tally: &mut Tally) {
    let records = [regions::small_record(3, 8), vec![0; 4]].concat();
    let boxes = regions::nest(6);
    for region in [&records, &boxes, &vec![0; 4], &Vec::new()] {
        let body = section(&CRASH_LOG, region);
        let asked = Asked::new(&[], &of_places(&vec![(0, body.len()); 10_000], &body), CRASH_LOG);
        let (tries, rows) = asked.counts();
        for limit in [0, 9_999, tries.saturating_sub(1), tries, tries + 1, 1 << 32, (1 << 32) + 3, u64::MAX] {
            for room in [0, 1, rows.saturating_sub(1), rows, rows + 1] {
                asked.check(tally, LONG, limit, span::WORDS * room);
            }
        }
    }
}

/// CPERs of 1,048,575 to 1,048,577 bytes with two sections to their end.
fn long(tally: &mut Tally) {
    let (small, large) = (regions::small_record(3, 8), regions::small_record(BOX, 4 * 0x1_fffe));
    for length in [MOST_BYTES - 1, MOST_BYTES, MOST_BYTES + 1] {
        for unit in [&small, &large] {
            let start = cpers::HEADER + 2 * cpers::DESCRIPTOR;
            let region = regions::repeated(unit, length - start - SECTION_HEADER);
            let body = section(&CRASH_LOG, &region);
            let asked = Asked::new(&[], &of_places(&[(0, body.len()), (0, body.len())], &body), CRASH_LOG);
            let (tries, rows) = asked.counts();
            for (limit, room) in [(tries, rows), (tries, rows.saturating_sub(1)), (tries.saturating_sub(1), rows), (1000, 5)]
            {
                asked.check(tally, LONG, limit, span::WORDS * room);
            }
        }
    }
}

pub fn round(tally: &mut Tally, random: &mut Random) {
    let rules = rule_tables::any(random);
    let other: Id = std::array::from_fn(|_| random.plain_byte());
    let record_id = if random.once_in(4) { other } else { CRASH_LOG };
    let cper = cper_regions::random_cper(random, &rules, &record_id);
    let damaged = damage::damaged(random, &cper);
    let cuts = random.once_in(6);
    for cper in [cper, damaged] {
        if cpers::normal_length(&cper) > cpers::MOST_COPIED {
            continue;
        }
        let asked = Asked::new(&rules, &cper, record_id);
        asked.check_whole(tally);
        if cuts {
            asked.check_cuts(tally);
        }
    }
}
