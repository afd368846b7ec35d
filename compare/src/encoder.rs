//! The encoder by document 01; the Rust has none. What it writes is read back by the Rust (`kinds::encodes`).

use crate::case::{Call, Case, Source};
use crate::expected::{BAD_FIELD, BAD_RULES, DONE, OUTPUT_SHORT, good_rules};
use crate::header::{Header, LEGACY_GPU, LEGACY_SERVER, STATUSES};
use crate::inputs::rule_tables::flags_of;
use std::rc::Rc;

/// Encoding a header in room for `room` bytes: 2, 11, 10, in this order, or its bytes.
pub fn case(rules: &Rc<[u32]>, header: &Header, room: usize, source: Source) -> Case {
    let input: Rc<[u8]> = Rc::from(header.to_bytes());
    let case = Case { rules: rules.clone(), room, ..Case::new(Call::Encodes, source, &input) };
    let refused = |answer| Case { source: Source::Paper, ..case.clone().tell(&[answer]) };
    if !good_rules(rules) {
        return refused(BAD_RULES);
    }
    match encode(rules, header) {
        None => refused(BAD_FIELD),
        Some(bytes) if bytes.len() > room => refused(OUTPUT_SHORT),
        Some(bytes) => Case { written: bytes.clone(), ..case.tell(&[DONE, bytes.len() as u64]) },
    }
}

/// The header's bytes, or none where it has a bad field.
pub fn encode(rules: &[u32], header: &Header) -> Option<Vec<u8>> {
    let fits = header.revision <= 0xff
        && header.product_id <= 0xfff
        && header.header_type <= 0xf
        && header.record_type <= 0x3f
        && header.cldic <= 1
        && header.consumed <= 1;
    let word = header.version_word();
    if !fits || word == 0 || word == 0xdead_beef {
        return None;
    }
    let chosen = layout(flags_of(rules, word), header.header_type)?;
    (header.layout == chosen && fields_fit(header)).then(|| written(header, word))
}

fn layout(flags: u32, header_type: u16) -> Option<u8> {
    match header_type {
        _ if flags & 1 != 0 => Some(LEGACY_SERVER),
        _ if flags & 2 != 0 => Some(LEGACY_GPU),
        0..=6 => Some(header_type as u8),
        _ => None,
    }
}

/// The fields that the layout has fit their bits.
fn fields_fit(header: &Header) -> bool {
    let legacy = header.layout >= LEGACY_SERVER;
    let shared = legacy || header.layout == 3 || header.layout == 5;
    let complete = shared || header.layout == 6;
    (!legacy || header.extended_record_size == 0)
        && (header.layout != LEGACY_SERVER || header.die_id == die(header.revision))
        && (!shared || header.completion_status < 1 << 31)
        && (!complete || header.collection_complete <= 1)
        && (header.layout != 6 || header.completion_status_size as usize <= STATUSES)
}

fn die(revision: u32) -> u8 {
    let index = (revision & 3) as u8;
    if revision & 0x80 != 0 { index + 9 } else { 4 * index }
}

fn written(header: &Header, word: u32) -> Vec<u8> {
    let status = header.completion_status | (header.collection_complete as u32) << 31;
    let mut bytes = word.to_le_bytes().to_vec();
    if header.layout >= LEGACY_SERVER {
        let socket = if header.layout == LEGACY_SERVER { header.socket_id as u32 } else { 0 };
        bytes.extend(header.reason.to_le_bytes());
        bytes.extend(header.timestamp.to_le_bytes());
        bytes.extend([header.record_size as u32, header.agent_version, socket, status].map(u32::to_le_bytes).concat());
        return bytes;
    }
    bytes.extend([header.record_size, header.extended_record_size].map(u16::to_le_bytes).concat());
    if header.layout < 2 {
        return bytes;
    }
    bytes.extend(header.timestamp.to_le_bytes());
    bytes.extend([header.agent_version, header.reason].map(u32::to_le_bytes).concat());
    match header.layout {
        3 => bytes.extend(status.to_le_bytes()),
        4 => bytes.extend([header.whoami, header.misc].map(u32::to_le_bytes).concat()),
        5 => bytes.extend([status, header.error_status].map(u32::to_le_bytes).concat()),
        6 => {
            let count = header.completion_status_size;
            bytes.extend([header.die_id, header.socket_id]);
            bytes.extend((count | (header.collection_complete as u16) << 15).to_le_bytes());
            bytes.extend(header.completion_statuses[..count as usize].iter().flat_map(|word| word.to_le_bytes()));
        }
        _ => {}
    }
    bytes
}

/// A header's bytes with the bits zero that no field reads.
pub fn without_unread_bits(layout: u8, bytes: &[u8]) -> Vec<u8> {
    let mut bytes = bytes.to_vec();
    match layout {
        6 => {
            bytes[26] &= 0x7f;
            bytes[27] &= 0x80;
        }
        LEGACY_SERVER => {
            bytes[18..20].fill(0);
            bytes[25..28].fill(0);
        }
        LEGACY_GPU => {
            bytes[18..20].fill(0);
            bytes[24..28].fill(0);
        }
        _ => {}
    }
    bytes
}
