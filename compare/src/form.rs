// How either form of the Rust is asked. rust.rs includes this text once for each form, which it calls `form`.

use crate::span::NO_PARENT;
use crate::stops;
use crate::told::{Container, Good, Outcome, Tried, Walk};
use form::Error;
use form::cper::section::fer::{self, FirmwareErrorRecord};
use form::cper::section::guids::FW_ERROR_RECORD;
use form::cper::{Cper, CperSectionBody};
use form::header::Version;
use form::region::Region;

include!("fields.rs");

/// The flags of a version word that is not an end.
pub fn flags_of_word(word: u32) -> u32 {
    flags_of(&Version::from_slice(&word.to_le_bytes()).unwrap().errata())
}

/// The name of a record type, where it has one.
pub fn name_of(record_type: u8) -> Option<&'static str> {
    let mut header = Header::default();
    header.version.record_type = record_type;
    header.record_type().ok()
}

pub fn header(bytes: &[u8]) -> Tried {
    form::probe::take_tries();
    match Header::from_slice(bytes) {
        Ok(None) => Tried::Ended,
        Ok(Some(header)) => Tried::Good(Good {
            header: fields(&header),
            flags: flags_of(&header.version.errata()),
            declared: header.record_size(),
            size: header.header_size(),
        }),
        Err(Error::InvalidHeader) => Tried::BadHeader,
        Err(Error::InvalidHeaderType(header_type)) => Tried::BadType(header_type),
        Err(error) => panic!("no header gives this: {error}"),
    }
}

/// A try of the walk: its offset in the whole input, and whether it gave a record.
struct Attempt {
    offset: usize,
    found: bool,
}

/// Walks a region from the top, and its children as `get_children` gives them.
pub fn walk(bytes: &[u8]) -> Walk {
    let (top, tries, mut walk) = walk_top(bytes);
    match &top {
        Some(region) => follow(region, &tries, 0, NO_PARENT, &mut walk),
        None => walk.steps.extend(tries.iter().map(|_| None)),
    }
    walk
}

/// The level-0 part of that walk: no Box is opened. Of its Boxes those are noted that can't be for their header.
pub fn level_0(bytes: &[u8]) -> Walk {
    let (top, tries, mut walk) = walk_top(bytes);
    if let Some(region) = &top {
        region.get_children();
        form::probe::take_tries();
        walk.unopened = form::probe::take_unopened();
    }
    let mut records = top.iter().flat_map(|region| &region.records);
    for attempt in tries {
        let record = if attempt.found { records.next() } else { None };
        walk.steps.push(record.map(|record| span(&record.header, 0, NO_PARENT, attempt.offset, record.data.len())));
        walk.rows += attempt.found as u32;
    }
    assert!(records.next().is_none() && walk.steps.iter().flatten().count() == walk.rows as usize);
    walk
}

/// The top region where it has a record, its own tries, and a walk without steps that has how they came out.
fn walk_top(bytes: &[u8]) -> (Option<Region>, Vec<Attempt>, Walk) {
    form::probe::take_tries();
    let top = Region::from_slice(bytes);
    let start = bytes.as_ptr() as usize;
    let tries: Vec<Attempt> = form::probe::take_tries()
        .iter()
        .map(|tried| Attempt { offset: tried.address - start, found: tried.found })
        .collect();
    let outcome = match &top {
        Ok(_) => Outcome::Records,
        Err(Error::InvalidHeader) => Outcome::BadHeader,
        Err(Error::InvalidHeaderType(header_type)) => Outcome::BadType(*header_type),
        Err(Error::EmptyRegion) => Outcome::Empty,
        Err(error) => panic!("no region gives this: {error}"),
    };
    let mut walk = Walk::new(outcome);
    note_stop(bytes, &tries, &mut walk);
    (top.ok(), tries, walk)
}

/// Notes why a region stopped, whose own tries are given: it is its end exactly where the last of them gave a record.
fn note_stop(bytes: &[u8], tries: &[Attempt], walk: &mut Walk) {
    let stop = stops::of(bytes, header);
    form::probe::take_tries();
    assert_eq!(stop == stops::END_OF_INPUT, tries.last().is_none_or(|last| last.found));
    walk.stops.push(stop);
}

/// Adds the steps of a region that has records, whose own tries are given: a record, its child's steps, the next record. A try
/// belongs to the child of the record in whose bytes it lies.
fn follow(region: &Region, tries: &[Attempt], level: u32, parent: u32, walk: &mut Walk) {
    let children = region.get_children();
    walk.unopened += form::probe::take_unopened();
    let mut below = form::probe::take_tries().into_iter().peekable();
    let mut children = children.iter();
    let mut records = region.records.iter();
    for attempt in tries {
        if !attempt.found {
            walk.steps.push(None);
            continue;
        }
        let record = records.next().unwrap();
        let row = walk.rows;
        walk.steps.push(Some(span(&record.header, level, parent, attempt.offset, record.data.len())));
        walk.rows += 1;

        let held = record.data.as_ptr_range();
        let (start, end) = (held.start as usize, held.end as usize);
        let mut inner = Vec::new();
        while let Some(tried) = below.next_if(|tried| (start..end).contains(&tried.address)) {
            inner.push(Attempt { offset: attempt.offset + tried.address - start, found: tried.found });
        }
        if !inner.is_empty() {
            note_stop(&record.data[record.header.header_size()..], &inner, walk);
        }
        if inner.iter().any(|attempt| attempt.found) {
            follow(children.next().unwrap(), &inner, level + 1, row, walk);
        } else {
            walk.steps.extend(inner.iter().map(|_| None));
        }
    }
    assert!(records.next().is_none() && children.next().is_none() && below.next().is_none());
}

/// Reads a CPER, with the place of each section's body in it.
fn read(bytes: &[u8]) -> Option<(Cper, Vec<form::probe::Kept>)> {
    form::probe::take_kept();
    let cper = Cper::from_slice(bytes);
    let kept = form::probe::take_kept();
    Some((cper?, kept))
}

/// The regions in a CPER's Firmware Error Records that have that identifier: where each starts, and its bytes.
pub fn regions(bytes: &[u8], record_id: [u8; 16]) -> Option<Vec<(usize, Vec<u8>)>> {
    let (cper, kept) = read(bytes)?;
    let mut regions = Vec::new();
    for (section, kept) in cper.sections.iter().zip(kept) {
        let Some(record) = firmware_error_record(&section.body) else { continue };
        let is_asked_for = record.header.guid.to_bytes() == record_id;
        if record_id == fer::guids::RECORD_ID_CRASHLOG.to_bytes() {
            assert_eq!(is_crash_log(&record), is_asked_for && Region::from_slice(&record.payload).is_ok());
        }
        if is_asked_for {
            regions.push((kept.offset as usize + record.header.len(), record.payload));
        }
    }
    Some(regions)
}

/// Walks these regions, one after the other.
pub fn walk_cper(bytes: &[u8], record_id: [u8; 16]) -> Option<Walk> {
    let mut joined = Walk::new(Outcome::Empty);
    for (offset, region) in regions(bytes, record_id)? {
        joined.add(walk(&region), offset);
    }
    Some(joined)
}

/// A section's Firmware Error Record: as the Rust has read it, or, where it has kept raw bytes, as it reads them.
fn firmware_error_record(body: &CperSectionBody) -> Option<FirmwareErrorRecord> {
    match body {
        CperSectionBody::FirmwareErrorRecord(record) => Some(record.clone()),
        CperSectionBody::Unknown(FW_ERROR_RECORD, bytes) => FirmwareErrorRecord::from_slice(bytes),
        CperSectionBody::Unknown(..) => None,
    }
}

/// Whether the Rust has a region for it: it is a Crash Log with a record.
fn is_crash_log(record: &FirmwareErrorRecord) -> bool {
    Region::from_cper_section(&CperSectionBody::FirmwareErrorRecord(record.clone())).is_some()
}

/// Reads a CPER and writes its normal form.
pub fn container(bytes: &[u8]) -> Option<Container> {
    let (cper, kept) = read(bytes)?;
    Some(Container {
        kept: kept.iter().map(|kept| [kept.index, kept.offset, kept.length]).collect(),
        bodies: cper.sections.iter().map(|section| section.body.to_bytes()).collect(),
        normal: cper.to_bytes(),
    })
}
