//! Inputs: made by a plan, random, or good ones with damage.

pub mod cper_regions;
pub mod cpers;
pub mod damage;
pub mod pieces;
pub mod regions;
pub mod rule_tables;
pub mod words;
