//! Times of several candidates at the same work, taken in turn, round after round.

use std::hint::black_box;

const ROUNDS: usize = 15;

/// A sample's least time, in nanoseconds.
const AT_LEAST: f64 = 4e6;

#[repr(C)]
struct Moment {
    seconds: i64,
    nanoseconds: i64,
}

unsafe extern "C" {
    fn clock_gettime(clock: i32, moment: &mut Moment) -> i32;
}

/// This thread's processor time, in nanoseconds: what else runs on the machine does not count.
fn now() -> f64 {
    const THREAD_CPUTIME: i32 = 3;
    let mut moment = Moment { seconds: 0, nanoseconds: 0 };
    let failed = unsafe { clock_gettime(THREAD_CPUTIME, &mut moment) };
    assert_eq!(failed, 0);
    moment.seconds as f64 * 1e9 + moment.nanoseconds as f64
}

/// The candidates' names.
pub const C: &str = "C";
pub const LIBRARY: &str = "library";
pub const STANDIN: &str = "Rust";
pub const PUBLISHED: &str = "published Rust";
pub const LISTING: &str = "a listing";
pub const NESTED: &str = "the nested walk";
pub const ONE_BY_ONE: &str = "its regions one by one";

/// A candidate's name, and its work.
pub type Candidate<'a> = (&'static str, Box<dyn FnMut() + 'a>);

/// The times of one call, in nanoseconds: of each candidate, round by round.
pub struct Times {
    names: Vec<&'static str>,
    rounds: Vec<Vec<f64>>,
}

/// A median and its quartiles.
#[derive(Clone, Copy)]
pub struct Spread {
    pub low: f64,
    pub median: f64,
    pub high: f64,
}

fn spread(mut values: Vec<f64>) -> Spread {
    values.sort_by(f64::total_cmp);
    let last = values.len() - 1;
    Spread { low: values[last / 4], median: values[last / 2], high: values[last - last / 4] }
}

fn timed(work: &mut dyn FnMut(), calls: u32) -> f64 {
    let start = now();
    for _ in 0..calls {
        work();
    }
    (now() - start) / calls as f64
}

/// How many calls make a sample long enough.
fn calls_of(work: &mut dyn FnMut()) -> u32 {
    work();
    let one = timed(work, 3);
    (AT_LEAST / one).ceil().clamp(1.0, 1e6) as u32
}

/// Makes a call from so many frames further down.
#[inline(never)]
fn deeper(frames: usize, call: &mut dyn FnMut()) {
    let frame = black_box([0u8; 64]);
    if frames == 0 { call() } else { deeper(frames - 1, call) }
    black_box(&frame);
}

/// Each round starts with another candidate, and further down the stack: where the stack lies changes a call's time.
pub fn sample(candidates: &mut [Candidate]) -> Times {
    let calls: Vec<u32> = candidates.iter_mut().map(|(_, work)| calls_of(work)).collect();
    let mut rounds = vec![vec![0.0; ROUNDS]; candidates.len()];
    for round in 0..ROUNDS {
        for turn in 0..candidates.len() {
            let i = (round + turn) % candidates.len();
            deeper(round, &mut || rounds[i][round] = timed(&mut candidates[i].1, calls[i]));
        }
    }
    Times { names: candidates.iter().map(|(name, _)| *name).collect(), rounds }
}

impl Times {
    fn of(&self, name: &str) -> Option<&Vec<f64>> {
        self.names.iter().position(|known| *known == name).map(|i| &self.rounds[i])
    }

    /// The median time of a candidate that was timed.
    pub fn median(&self, name: &str) -> f64 {
        spread(self.of(name).unwrap().clone()).median
    }

    /// The ratio of two candidates' times, round by round.
    pub fn ratio(&self, over: &str, under: &str) -> Option<Spread> {
        let (over, under) = (self.of(over)?, self.of(under)?);
        Some(spread(over.iter().zip(under).map(|(a, b)| a / b).collect()))
    }
}
