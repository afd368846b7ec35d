//! Where the published form reads a CPER otherwise than document 01's stand-in, as docs/DIFFERENCES.md lists it.

use crate::inputs::cper_regions::{CRASH_LOG, ID_AT, SECTION_HEADER};
use crate::inputs::cpers::{DESCRIPTOR, FIRMWARE_ERROR, HEADER};
use crate::told::{Container, Kept};

#[derive(Clone, Copy, Debug, PartialEq, Eq)]
pub enum Difference {
    /// A last descriptor of 52 to 71 bytes without FRU text is kept.
    ShortDescriptor,
    /// A Firmware Error Record too short for its own header is dropped.
    ShortBody,
    /// The reserved bytes 2 to 7 of a Firmware Error Record are written as zero.
    ReservedBytes,
    /// In a Firmware Error Record of revision below 2 sixteen zero bytes come after byte 15, and its last ones are lost.
    OldRevision,
    /// A Crash Log under a last descriptor of 52 to 71 bytes is listed.
    ShortDescriptorListed,
    /// A Crash Log in a Firmware Error Record of revision below 2 is not listed.
    OldRevisionUnlisted,
}

impl Difference {
    pub const ALL: [Difference; 6] = {
        use Difference::*;
        [ShortDescriptor, ShortBody, ReservedBytes, OldRevision, ShortDescriptorListed, OldRevisionUnlisted]
    };
}

struct Section {
    kept: Kept,
    descriptor: Vec<u8>,
    body: Vec<u8>,
}

/// What the published form must read in a CPER, from what the stand-in reads, and the differences that come in.
pub fn predict(cper: &[u8], standin: &Container) -> (Container, Vec<Difference>) {
    let mut differences = Vec::new();
    let mut sections = sections_of(standin);
    if let Some(section) = short_descriptor(cper).filter(|section| !dropped(section)) {
        differences.push(Difference::ShortDescriptor);
        sections.push(section);
    }
    sections.retain(|section| {
        differences.extend(dropped(section).then_some(Difference::ShortBody));
        !dropped(section)
    });
    for section in sections.iter_mut().filter(|section| is_firmware_error(section)) {
        rewrite(&mut section.body, &mut differences);
    }
    (packed(&standin.normal[..HEADER], sections), differences)
}

/// Where the regions lie that the published form must find in a CPER's Crash Logs, and the differences that come in.
pub fn predict_regions(cper: &[u8], standin: &Container) -> (Vec<Region>, Vec<Difference>) {
    let mut differences = Vec::new();
    let mut sections = sections_of(standin);
    sections.retain(|section| {
        let unlisted = is_crash_log(section) && is_old(section);
        differences.extend(unlisted.then_some(Difference::OldRevisionUnlisted));
        is_crash_log(section) && !unlisted
    });
    if let Some(section) = short_descriptor(cper).filter(|section| is_crash_log(section) && !is_old(section)) {
        differences.push(Difference::ShortDescriptorListed);
        sections.push(section);
    }
    (sections.iter().map(region_of).collect(), differences)
}

/// A region's offset in the CPER, and its length.
pub type Region = (usize, usize);

/// That of a section that is listed.
fn region_of(section: &Section) -> Region {
    let [_, offset, length] = section.kept.map(|number| number as usize);
    (offset + SECTION_HEADER, length - SECTION_HEADER)
}

/// A section that is a Crash Log by document 02.
fn is_crash_log(section: &Section) -> bool {
    is_firmware_error(section) && section.body.get(ID_AT..SECTION_HEADER) == Some(&CRASH_LOG)
}

/// A section whose header has no identifier in the published form.
fn is_old(section: &Section) -> bool {
    section.body[1] < 2
}

fn sections_of(container: &Container) -> Vec<Section> {
    let descriptors = container.normal[HEADER..].chunks_exact(DESCRIPTOR);
    let parts = container.kept.iter().zip(descriptors).zip(&container.bodies);
    parts
        .map(|((kept, descriptor), body)| Section { kept: *kept, descriptor: descriptor.to_vec(), body: body.clone() })
        .collect()
}

/// The last descriptor, where its 52 bytes up to the FRU text are there, the text is not stated, and its body lies in the input.
fn short_descriptor(cper: &[u8]) -> Option<Section> {
    let count = u16::from_le_bytes([cper[10], cper[11]]) as usize;
    let index = (cper.len() - HEADER) / DESCRIPTOR;
    let bytes = &cper[HEADER + DESCRIPTOR * index..];
    if index >= count || bytes.len() < 52 || bytes[10] & 2 != 0 {
        return None;
    }
    let number = |at: usize| u32::from_le_bytes(bytes[at..at + 4].try_into().unwrap());
    let (offset, length) = (number(0), number(4));
    let body = cper.get(offset as usize..offset as usize + length as usize)?.to_vec();
    let mut descriptor = bytes[..52].to_vec();
    descriptor[10] &= 1;
    descriptor[11] = 0;
    if bytes[10] & 1 == 0 {
        descriptor[32..48].fill(0);
    }
    descriptor[48..52].copy_from_slice(&number(48).min(3).to_le_bytes());
    descriptor.resize(DESCRIPTOR, 0);
    Some(Section { kept: [index as u32, offset, length], descriptor, body })
}

fn is_firmware_error(section: &Section) -> bool {
    section.descriptor[16..32] == FIRMWARE_ERROR
}

/// A Firmware Error Record that its own reader refuses: it needs 16 bytes, or 32 from revision 2 on.
fn dropped(section: &Section) -> bool {
    let body = &section.body;
    is_firmware_error(section) && (body.len() < 16 || (body[1] >= 2 && body.len() < 32))
}

/// Writes the body as the published form does; a difference comes in only where a byte changes.
fn rewrite(body: &mut Vec<u8>, differences: &mut Vec<Difference>) {
    if body[2..8] != [0; 6] {
        differences.push(Difference::ReservedBytes);
        body[2..8].fill(0);
    }
    if body[1] < 2 {
        let mut moved = body.clone();
        moved.splice(16..16, [0; 16]);
        moved.truncate(body.len());
        if moved != *body {
            differences.push(Difference::OldRevision);
            *body = moved;
        }
    }
}

/// The normal form of those sections, with that record header.
fn packed(header: &[u8], sections: Vec<Section>) -> Container {
    let mut normal = header.to_vec();
    let mut offset = HEADER + DESCRIPTOR * sections.len();
    for section in &sections {
        normal.extend((offset as u32).to_le_bytes());
        normal.extend(&section.descriptor[4..]);
        offset += section.body.len();
    }
    normal[10..12].copy_from_slice(&(sections.len() as u16).to_le_bytes());
    normal[20..24].copy_from_slice(&(offset as u32).to_le_bytes());
    sections.iter().for_each(|section| normal.extend(&section.body));
    let kept = sections.iter().map(|section| section.kept).collect();
    Container { kept, bodies: sections.into_iter().map(|section| section.body).collect(), normal }
}
