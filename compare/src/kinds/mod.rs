//! The kinds of comparison. Each has a fixed part, with what can be tried out in full, and a round of random cases.

pub mod containers;
pub mod cper_listings;
pub mod crossings;
pub mod encodes;
pub mod headers;
pub mod intel;
pub mod listings;
pub mod names;
pub mod origins;
pub mod published;
pub mod receptions;
