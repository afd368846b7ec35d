//! In the place of rust.rs where the published Rust is not there: nothing is compared with it, and nothing timed.
use crate::library::{Header, Judged};
use crate::sample::Candidate;

pub const PRESENT: bool = false;

pub fn check_rows(_: &[u8], _: &[u32], _: &[u32]) {}

pub fn add_walks(_: &mut Vec<Candidate>, _: &[u8], _: &[u32]) {}

pub fn check_normal_form(_: &[u8], _: &[u8]) {}

pub fn add_normalisers(_: &mut Vec<Candidate>, _: &[u8]) {}

pub fn check_header(_: &[u8], _: &[u32], _: &Header, _: &Judged) {}

pub fn add_decoders(_: &mut Vec<Candidate>, _: &[Vec<u8>], _: &[u32]) {}
