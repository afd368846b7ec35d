// What either form of the Rust holds, as crashlog.h has it. The harness and the bench include this text once for each form,
// which they call `form`.

use crate::header::{Header as Fields, LEGACY_GPU, LEGACY_SERVER};
use crate::span::{NO_DIE, Span};
use form::errata::Errata;
use form::header::{Header, HeaderType};

/// Document 01's flag number of errata.
pub fn flags_of(errata: &Errata) -> u32 {
    errata.type0_legacy_server as u32
        | (errata.type0_legacy_gpu as u32) << 1
        | (errata.type0_legacy_server_box as u32) << 2
        | (errata.core_record_size_bytes as u32) << 3
}

/// The row of a record that holds so many bytes.
pub fn span(header: &Header, level: u32, parent: u32, offset: usize, held: usize) -> Span {
    Span {
        level,
        parent,
        offset: offset as u32,
        held: held as u32,
        declared: header.record_size() as u32,
        header_size: header.header_size() as u32,
        version: header.version.as_u32(),
        socket: header.socket_id().into(),
        die: header.die_id().map_or(NO_DIE, u32::from),
        flags: flags_of(&header.version.errata()),
    }
}

/// The fields of a header.
pub fn fields(header: &Header) -> Fields {
    let mut to = Fields {
        revision: header.version.revision,
        product_id: header.version.product_id,
        header_type: header.version.header_type,
        record_size: header.size.record_size,
        extended_record_size: header.size.extended_record_size,
        record_type: header.version.record_type,
        cldic: header.version.cldic as u8,
        consumed: header.version.consumed as u8,
        ..Fields::ZERO
    };
    type_fields(&header.header_type, &mut to);
    to
}

/// Sets the named fields from variables of the same names.
macro_rules! set {
    ($to:ident, $layout:expr, $($field:ident),*) => {{
        $to.layout = $layout;
        $($to.$field = (*$field).into();)*
    }};
}

fn type_fields(from: &HeaderType, to: &mut Fields) {
    use HeaderType::*;
    match from {
        Type0 => to.layout = 0,
        Type1 => to.layout = 1,
        Type2 { timestamp, agent_version, reason } => set!(to, 2, timestamp, agent_version, reason),
        Type3 { timestamp, agent_version, reason, completion_status, collection_complete } => {
            set!(to, 3, timestamp, agent_version, reason, completion_status, collection_complete)
        }
        Type4 { timestamp, agent_version, reason, whoami, misc } => {
            set!(to, 4, timestamp, agent_version, reason, whoami, misc)
        }
        Type5 { timestamp, agent_version, reason, completion_status, collection_complete, error_status } => {
            set!(to, 5, timestamp, agent_version, reason, completion_status, collection_complete, error_status)
        }
        Type6 {
            timestamp,
            agent_version,
            reason,
            die_id,
            socket_id,
            completion_status_size,
            completion_status: statuses,
            collection_complete,
        } => {
            set!(to, 6, timestamp, agent_version, reason, die_id, socket_id, completion_status_size, collection_complete);
            to.completion_statuses[..statuses.len()].copy_from_slice(statuses);
        }
        Type0LegacyServer {
            timestamp,
            agent_version,
            reason,
            die_id,
            socket_id,
            completion_status,
            collection_complete,
        } => {
            set!(to, LEGACY_SERVER, timestamp, agent_version, reason, die_id, socket_id);
            set!(to, LEGACY_SERVER, completion_status, collection_complete)
        }
        Type0LegacyGpu { timestamp, agent_version, reason, completion_status, collection_complete } => {
            set!(to, LEGACY_GPU, timestamp, agent_version, reason, completion_status, collection_complete)
        }
    }
}
