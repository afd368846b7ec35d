//! What the probes note, on each thread by itself, until it is taken.

use std::cell::{Cell, RefCell};
use std::mem;

/// One call of `Header::from_slice`: where its slice starts in memory, and whether the region walk made a record of it.
#[derive(Clone, Copy)]
pub struct Try {
    pub address: usize,
    pub found: bool,
}

/// A section that `Cper::from_slice` keeps: the index of its descriptor, and its body's place in the input.
#[derive(Clone, Copy, Debug, PartialEq, Eq)]
pub struct Kept {
    pub index: u32,
    pub offset: u32,
    pub length: u32,
}

thread_local! {
    static TRIES: RefCell<Vec<Try>> = const { RefCell::new(Vec::new()) };
    static UNOPENED: Cell<usize> = const { Cell::new(0) };
    static KEPT: RefCell<Vec<Kept>> = const { RefCell::new(Vec::new()) };
}

pub fn tried(slice: &[u8]) {
    let address = slice.as_ptr() as usize;
    TRIES.with_borrow_mut(|tries| tries.push(Try { address, found: false }));
}

/// The last try gave a record.
pub fn found() {
    TRIES.with_borrow_mut(|tries| tries.last_mut().unwrap().found = true);
}

/// A Box is left unopened.
pub fn unopened() {
    UNOPENED.set(UNOPENED.get() + 1);
}

pub fn kept(index: u16, offset: usize, end: usize) {
    let (index, offset, length) = (index as u32, offset as u32, (end - offset) as u32);
    KEPT.with_borrow_mut(|kept| kept.push(Kept { index, offset, length }));
}

/// The tries since this was last called.
pub fn take_tries() -> Vec<Try> {
    TRIES.with_borrow_mut(mem::take)
}

/// The Boxes left unopened since this was last called.
pub fn take_unopened() -> usize {
    UNOPENED.take()
}

/// The kept sections since this was last called.
pub fn take_kept() -> Vec<Kept> {
    KEPT.with_borrow_mut(mem::take)
}
