//! The published files that are compared, as a crate. The modules that hold no published code stand at the end.

#![allow(dead_code, unused_imports, unused_variables, unreachable_code)]

pub mod cper;
pub mod errata;
pub mod error;
pub mod header;
pub mod node;
pub mod record;
pub mod region;

pub use crashlog::CrashLog;
pub use error::Error;

/// What was seen of a run: with `--cfg counted` the probes of `changes` call these.
#[cfg(counted)]
pub mod probe;

/// What `Cper::from_raw_crashlog` names; the comparison does not call it.
pub mod crashlog {
    pub struct CrashLog {
        pub regions: Vec<crate::region::Region>,
        pub metadata: crate::metadata::Metadata,
    }
}

/// What `CrashLog` and `Timestamp::from_crashlog_metadata` name.
pub mod metadata {
    pub struct Metadata {
        pub time: Option<Time>,
        pub extra_cper_sections: Vec<crate::cper::CperSectionBody>,
    }

    pub struct Time {
        pub year: u16,
        pub month: u8,
        pub day: u8,
        pub hour: u8,
        pub minute: u8,
    }
}
