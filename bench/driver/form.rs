// How either form of the Rust is run. rust.rs includes this text once for each form, which it calls `form`.

use crate::library::Judged;
use crate::span::NO_PARENT;
use form::cper::Cper;
use form::region::Region;

include!("../../compare/src/fields.rs");

/// Walks a region and its children as `get_children` gives them; the number of records.
pub fn walk(region: &[u8]) -> usize {
    Region::from_slice(region).map_or(0, |region| count(&region))
}

fn count(region: &Region) -> usize {
    region.records.len() + region.get_children().iter().map(count).sum::<usize>()
}

/// The same walk, as the numbers of a span table.
pub fn rows(region: &[u8]) -> Vec<u32> {
    let mut rows = Vec::new();
    if let Ok(region) = Region::from_slice(region) {
        add_rows(&region, 0, NO_PARENT, 0, &mut rows);
    }
    rows.iter().flat_map(Span::numbers).collect()
}

/// A child belongs to the next record that holds records.
fn add_rows(region: &Region, level: u32, parent: u32, start: usize, rows: &mut Vec<Span>) {
    let children = region.get_children();
    let mut children = children.iter();
    let mut offset = start;
    for record in &region.records {
        let (header, row) = (&record.header, rows.len() as u32);
        let (declared, size) = (header.record_size(), header.header_size());
        let span = span(header, level, parent, offset, record.data.len());
        rows.push(span);
        let boxed = header.version.record_type == form::header::record_types::BOX || span.flags & 4 != 0;
        let holds = |payload| Region::from_slice(payload).is_ok();
        if level < 4 && boxed && record.data.get(size..).is_some_and(holds) {
            add_rows(children.next().unwrap(), level + 1, row, offset + size, rows);
        }
        offset += declared;
    }
    assert!(children.next().is_none());
}

/// Reads a CPER and writes its normal form.
pub fn normalise(cper: &[u8]) -> Vec<u8> {
    Cper::from_slice(cper).unwrap().to_bytes()
}

/// Reads a header, with what a decode tells of it: the bytes that it declares, and its size.
pub fn decode(bytes: &[u8]) -> (Header, usize, usize) {
    let header = Header::from_slice(bytes).unwrap().unwrap();
    let (declared, size) = (header.record_size(), header.header_size());
    (header, declared, size)
}

/// The same header and what a decode tells, as the library has them.
pub fn flat(bytes: &[u8]) -> (Fields, Judged) {
    let (header, declared, size) = decode(bytes);
    let flags = flags_of(&header.version.errata()) as u64;
    let judged = Judged { declared: declared as u64, header_size: size as u64, flags, bad_type: 0, ending: 0 };
    (fields(&header), judged)
}
