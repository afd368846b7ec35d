//! The two forms of the Rust, asked in the same way.

/// Document 01's oracle: errata from the rules that `set_rules` sets, raw bodies, descriptors of 72 bytes.
#[allow(dead_code)]
pub mod standin {
    use ::standin as form;
    include!("form.rs");

    /// Sets the rule table, which is valid.
    pub fn set_rules(rules: &[u32]) {
        let rows: Vec<_> = rules.chunks_exact(3).map(|row| [row[0], row[1], row[2]]).collect();
        form::errata::set_rules(&rows);
    }
}

/// The Rust as published.
#[allow(dead_code)]
pub mod published {
    use ::published as form;
    include!("form.rs");
}
