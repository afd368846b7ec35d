//! The smallest inputs at which the published form and document 01 differ, found by trying all shorter ones of a family.

use crate::case::hex;
use crate::differences::{Difference, predict, predict_regions};
use crate::inputs::cper_regions::{self, CRASH_LOG};
use crate::inputs::{cpers, regions};
use crate::kinds::published::same;
use crate::rust::{published, standin};
use crate::span::Span;
use crate::told::{Tried, Walk};

pub fn print() {
    standin::set_rules(&[]);
    println!("smallest inputs that the published form reads otherwise:");
    for flags in [1, 2, 8] {
        println!("  errata of flag {flags}: {}", header(flags).map_or("none".to_string(), |bytes| hex(&bytes)));
    }
    for (difference, cper) in containers().into_iter().chain(listings()) {
        println!("  {difference:?}: {cper}");
    }
}

/// The first word in order, with a size of one word or byte, that the published form reads otherwise by that erratum alone.
fn header(flags: u32) -> Option<Vec<u8>> {
    (0..=8).find_map(|length| {
        let inputs = (1..1_u32 << 22).map(|combination| {
            let mut bytes = (combination << 8).to_le_bytes().to_vec();
            bytes.extend([1, 0, 0, 0]);
            bytes.truncate(length);
            bytes
        });
        let wanted = |bytes: &[u8]| bytes.len() >= 4 && published_flags(bytes) == flags;
        inputs.into_iter().find(|bytes| wanted(bytes) && told(standin::header(bytes)) != told(published::header(bytes)))
    })
}

fn published_flags(bytes: &[u8]) -> u32 {
    published::flags_of_word(u32::from_le_bytes(bytes[..4].try_into().unwrap()))
}

/// What a try says, without the flags.
fn told(tried: Tried) -> (u32, Vec<u8>, usize, usize) {
    match tried {
        Tried::Ended => (254, Vec::new(), 0, 0),
        Tried::BadHeader => (3, Vec::new(), 0, 0),
        Tried::BadType(header_type) => (4, vec![header_type as u8], 0, 0),
        Tried::Good(good) => (0, good.header.to_bytes(), good.declared, good.size),
    }
}

/// For each difference the shortest CPER with one descriptor that shows it and no other; of these the one with the shortest body,
/// at the lowest offset. A CPER is made of that offset, the body's length, one of the kinds, and its own length.
fn shortest<Kind: Copy>(
    kinds: [(&str, Kind); 2],
    make: fn(usize, usize, Kind, usize) -> Vec<u8>,
    shown: fn(&[u8]) -> Option<Difference>,
) -> Vec<(Difference, String)> {
    let mut found: Vec<(Difference, String)> = Vec::new();
    for length in cpers::HEADER..=cpers::HEADER + cpers::DESCRIPTOR {
        for (body, offset) in (0..=length).flat_map(|body| (0..=length - body).map(move |offset| (body, offset))) {
            for (name, kind) in kinds {
                let cper = make(offset, body, kind, length);
                let Some(difference) = shown(&cper) else { continue };
                if found.iter().all(|(known, _)| *known != difference) {
                    let place = format!("{length} bytes, {name}, body ({offset}, {body}): {}", hex(&cper));
                    found.push((difference, place));
                }
            }
        }
    }
    found
}

/// Of CPERs with zeros after the descriptor.
fn containers() -> Vec<(Difference, String)> {
    shortest([("type zero", false), ("type Firmware Error Record", true)], one_section, shown)
}

/// Of CPERs with a Crash Log of one record in the body, but where the CPER's own fields take its place.
fn listings() -> Vec<(Difference, String)> {
    shortest([("revision 0", 0), ("revision 2", 2)], one_crash_log, shown_by_rows)
}

fn one_section(offset: usize, body: usize, firmware_error: bool, length: usize) -> Vec<u8> {
    let mut cper = cpers::plain_header(1);
    cper.extend(cpers::plain_descriptor(offset as u32, body as u32));
    if firmware_error {
        cper[144..160].copy_from_slice(&cpers::FIRMWARE_ERROR);
    }
    cper.resize(length, 0);
    cper
}

fn one_crash_log(offset: usize, body: usize, revision: u8, length: usize) -> Vec<u8> {
    let mut crash_log = cper_regions::section(&CRASH_LOG, &regions::small_record(3, 8));
    crash_log[..2].copy_from_slice(&[0, revision]);
    crash_log.truncate(body);
    let mut cper = vec![0; length];
    cper[offset..offset + crash_log.len()].copy_from_slice(&crash_log);
    for (at, byte) in one_section(offset, body, true, length).into_iter().enumerate().filter(|(_, byte)| *byte != 0) {
        cper[at] = byte;
    }
    cper
}

/// The one difference that the two forms show.
fn shown(cper: &[u8]) -> Option<Difference> {
    let standin = standin::container(cper)?;
    let [difference] = predict(cper, &standin).1[..] else { return None };
    (!same(&Some(standin), &published::container(cper))).then_some(difference)
}

/// The one difference that the two forms show in the rows of a listing.
fn shown_by_rows(cper: &[u8]) -> Option<Difference> {
    let standin = standin::container(cper)?;
    let [difference] = predict_regions(cper, &standin).1[..] else { return None };
    let [ours, theirs] = [standin::walk_cper(cper, CRASH_LOG), published::walk_cper(cper, CRASH_LOG)].map(rows_of);
    (ours != theirs).then_some(difference)
}

fn rows_of(walk: Option<Walk>) -> Vec<Span> {
    walk.into_iter().flat_map(|walk| walk.steps).flatten().collect()
}
