//! The functions of crashlog.h, from the library and from the plain C.

pub use crate::header::Header;

#[repr(C)]
#[derive(Clone, Copy, Debug, PartialEq)]
pub struct Listing {
    pub rows: u64,
    pub tries: u64,
    pub bad_type: u64,
    pub whole: u64,
    pub stop: u64,
}

#[repr(C)]
#[derive(Clone, Copy, Debug, PartialEq)]
pub struct Judged {
    pub declared: u64,
    pub header_size: u64,
    pub flags: u64,
    pub bad_type: u64,
    pub ending: u64,
}

/// A receiver. The fields are the library's own; what is between two calls may be copied.
#[repr(C)]
#[derive(Clone)]
pub struct Receiver {
    numbers: [u64; 4],
    marks: [u32; 2],
    rules: [u32; 192],
    kept: [u8; 536],
}

impl Receiver {
    /// One that was not started.
    pub const SHUT: Receiver = Receiver { numbers: [0; 4], marks: [0; 2], rules: [0; 192], kept: [0; 536] };
}

/// The numbers of a table that has the room that is lent with a receiver.
pub const RECEIVER_SPAN_WORDS: usize = 6000;

/// What stands where a call tells, before it does.
const UNTOLD: u64 = u64::MAX;

const UNTOLD_LISTING: Listing = Listing { rows: UNTOLD, tries: UNTOLD, bad_type: UNTOLD, whole: UNTOLD, stop: UNTOLD };

type List = unsafe extern "C" fn(*const u8, u64, *const u32, u64, u64, *mut u32, u64, *mut Listing) -> u32;
type ListCper = unsafe extern "C" fn(*const u8, u64, *const u8, *const u32, u64, u64, *mut u32, u64, *mut Listing) -> u32;
type Decode = unsafe extern "C" fn(*const u8, u64, *const u32, u64, *mut Header, *mut Judged) -> u32;
type Encode = unsafe extern "C" fn(*const Header, *const u32, u64, *mut u8, u64, *mut u64) -> u32;
type Normalise = unsafe extern "C" fn(*const u8, u64, *mut u8, u64, *mut u64) -> u32;
type Start = unsafe extern "C" fn(*mut Receiver, *const u32, u64) -> u32;
type Feed = unsafe extern "C" fn(*mut Receiver, *const u8, u64, *mut u32, u64, *mut u64) -> u32;
type Finish = unsafe extern "C" fn(*mut Receiver, *mut u32, u64, *mut Listing) -> u32;

macro_rules! exports {
    (
        $list:ident,
        $list_cper:ident,
        $decode:ident,
        $encode:ident,
        $normalise:ident,
        $start:ident,
        $feed:ident,
        $finish:ident
    ) => {
        unsafe extern "C" {
            fn $list(
                r: *const u8,
                rn: u64,
                t: *const u32,
                tn: u64,
                limit: u64,
                s: *mut u32,
                sn: u64,
                told: *mut Listing,
            ) -> u32;
            fn $list_cper(
                c: *const u8,
                cn: u64,
                id: *const u8,
                t: *const u32,
                tn: u64,
                limit: u64,
                s: *mut u32,
                sn: u64,
                told: *mut Listing,
            ) -> u32;
            fn $decode(b: *const u8, bn: u64, t: *const u32, tn: u64, h: *mut Header, told: *mut Judged) -> u32;
            fn $encode(h: *const Header, t: *const u32, tn: u64, o: *mut u8, on: u64, length: *mut u64) -> u32;
            fn $normalise(c: *const u8, cn: u64, o: *mut u8, on: u64, length: *mut u64) -> u32;
            fn $start(r: *mut Receiver, t: *const u32, tn: u64) -> u32;
            fn $feed(r: *mut Receiver, p: *const u8, pn: u64, s: *mut u32, sn: u64, rows: *mut u64) -> u32;
            fn $finish(r: *mut Receiver, s: *mut u32, sn: u64, told: *mut Listing) -> u32;
        }
    };
}

exports!(
    crashlog_list,
    crashlog_list_cper,
    crashlog_decode,
    crashlog_encode,
    crashlog_normalise,
    crashlog_receiver_start,
    crashlog_receiver_feed,
    crashlog_receiver_finish
);
exports!(
    plain_list,
    plain_list_cper,
    plain_decode,
    plain_encode,
    plain_normalise,
    plain_receiver_start,
    plain_receiver_feed,
    plain_receiver_finish
);

unsafe extern "C" {
    fn crashlog_intel_rules(out: *mut u32, out_len: u64) -> u32;
    fn crashlog_list_flat(
        r: *const u8,
        rn: u64,
        t: *const u32,
        tn: u64,
        limit: u64,
        s: *mut u32,
        sn: u64,
        told: *mut Listing,
    ) -> u32;
}

/// The rule table of the published errata.
pub fn intel_rules() -> Vec<u32> {
    let mut rules = vec![0; 3 * 64];
    let written = unsafe { crashlog_intel_rules(rules.as_mut_ptr(), rules.len() as u64) };
    rules.truncate(written as usize);
    rules
}

/// One implementation of crashlog.h.
#[derive(Clone, Copy)]
pub struct Library {
    list: List,
    list_cper: ListCper,
    decode: Decode,
    encode: Encode,
    normalise: Normalise,
    start: Start,
    feed: Feed,
    finish: Finish,
}

pub const PROVED: Library = Library {
    list: crashlog_list,
    list_cper: crashlog_list_cper,
    decode: crashlog_decode,
    encode: crashlog_encode,
    normalise: crashlog_normalise,
    start: crashlog_receiver_start,
    feed: crashlog_receiver_feed,
    finish: crashlog_receiver_finish,
};

/// The library, with the walk that takes a small stack.
pub const FLAT: Library = Library { list: crashlog_list_flat, ..PROVED };

pub const PLAIN: Library = Library {
    list: plain_list,
    list_cper: plain_list_cper,
    decode: plain_decode,
    encode: plain_encode,
    normalise: plain_normalise,
    start: plain_receiver_start,
    feed: plain_receiver_feed,
    finish: plain_receiver_finish,
};

/// A lent slice, as C has it.
fn lent<T>(slice: &[T]) -> (*const T, u64) {
    (slice.as_ptr(), slice.len() as u64)
}

fn lent_mut<T>(slice: &mut [T]) -> (*mut T, u64) {
    (slice.as_mut_ptr(), slice.len() as u64)
}

/// Each gives the answer and what else is told.
impl Library {
    pub fn list(&self, region: &[u8], rules: &[u32], limit: u64, spans: &mut [u32]) -> (u32, Listing) {
        let mut told = UNTOLD_LISTING;
        let ((r, rn), (t, tn), (s, sn)) = (lent(region), lent(rules), lent_mut(spans));
        (unsafe { (self.list)(r, rn, t, tn, limit, s, sn, &mut told) }, told)
    }

    pub fn list_cper(
        &self,
        cper: &[u8],
        record_id: &[u8; 16],
        rules: &[u32],
        limit: u64,
        spans: &mut [u32],
    ) -> (u32, Listing) {
        let mut told = UNTOLD_LISTING;
        let ((c, cn), (t, tn), (s, sn)) = (lent(cper), lent(rules), lent_mut(spans));
        (unsafe { (self.list_cper)(c, cn, record_id.as_ptr(), t, tn, limit, s, sn, &mut told) }, told)
    }

    pub fn start(&self, receiver: &mut Receiver, rules: &[u32]) -> u32 {
        let (t, tn) = lent(rules);
        unsafe { (self.start)(receiver, t, tn) }
    }

    pub fn feed(&self, receiver: &mut Receiver, piece: &[u8], spans: &mut [u32]) -> (u32, u64) {
        let mut rows = UNTOLD;
        let ((p, pn), (s, sn)) = (lent(piece), lent_mut(spans));
        (unsafe { (self.feed)(receiver, p, pn, s, sn, &mut rows) }, rows)
    }

    pub fn finish(&self, receiver: &mut Receiver, spans: &mut [u32]) -> (u32, Listing) {
        let mut told = UNTOLD_LISTING;
        let (s, sn) = lent_mut(spans);
        (unsafe { (self.finish)(receiver, s, sn, &mut told) }, told)
    }

    pub fn decode(&self, bytes: &[u8], rules: &[u32], header: &mut Header) -> (u32, Judged) {
        let mut told = Judged { declared: UNTOLD, header_size: UNTOLD, flags: UNTOLD, bad_type: UNTOLD, ending: UNTOLD };
        let ((b, bn), (t, tn)) = (lent(bytes), lent(rules));
        (unsafe { (self.decode)(b, bn, t, tn, header, &mut told) }, told)
    }

    pub fn encode(&self, header: &Header, rules: &[u32], out: &mut [u8]) -> (u32, u64) {
        let mut length = UNTOLD;
        let ((t, tn), (o, on)) = (lent(rules), lent_mut(out));
        (unsafe { (self.encode)(header, t, tn, o, on, &mut length) }, length)
    }

    pub fn normalise(&self, cper: &[u8], out: &mut [u8]) -> (u32, u64) {
        let mut length = UNTOLD;
        let ((c, cn), (o, on)) = (lent(cper), lent_mut(out));
        (unsafe { (self.normalise)(c, cn, o, on, &mut length) }, length)
    }
}
