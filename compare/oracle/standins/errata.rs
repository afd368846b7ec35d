//! Document 01's stand-in for errata.rs: the errata of a version come from a rule table, which the caller sets.

use crate::header::Version;
use std::cell::RefCell;

/// Mask, wanted, flags.
pub type Rule = [u32; 3];

thread_local! {
    static RULES: RefCell<Vec<Rule>> = const { RefCell::new(Vec::new()) };
}

/// Sets the rules of this thread.
pub fn set_rules(rules: &[Rule]) {
    RULES.with_borrow_mut(|held| {
        held.clear();
        held.extend_from_slice(rules);
    });
}

pub struct Errata {
    pub type0_legacy_server: bool,
    pub type0_legacy_server_box: bool,
    pub core_record_size_bytes: bool,
    pub type0_legacy_gpu: bool,
}

impl Errata {
    pub fn from_version(version: &Version) -> Self {
        let word = version.as_u32();
        let flags = RULES.with_borrow(|rules| {
            let applying = rules.iter().filter(|[mask, wanted, _]| word & mask == *wanted);
            applying.fold(0, |union, [_, _, flags]| union | flags)
        });
        Errata {
            type0_legacy_server: flags & 1 != 0,
            type0_legacy_gpu: flags & 2 != 0,
            type0_legacy_server_box: flags & 4 != 0,
            core_record_size_bytes: flags & 8 != 0,
        }
    }
}
