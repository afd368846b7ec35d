//! The library, behind the program that calls it (caller/caller.c).

use crate::case::{Call, Case, hex};
use crate::replay;
use crate::span;
use crate::x86;
use std::io::{self, BufReader, Read, Write};
use std::process::{Child, ChildStdin, ChildStdout, Stdio};

pub struct Library {
    program: String,
    child: Child,
    requests: ChildStdin,
    answers: BufReader<ChildStdout>,
}

/// The functions that make a call, in the order of their replies: a listing is made by two, which are held to the same.
fn functions(call: Call) -> &'static [&'static str] {
    if call == Call::Listings { &["crashlog_list", "crashlog_list_flat"] } else { &["it"] }
}

/// What came of a call of one function.
pub struct Reply {
    pub told: [u64; 6],
    /// The first byte that was changed past those that may be.
    changed: Option<i64>,
    input_changed: bool,
    /// A number beside those that the call tells was changed.
    beside_changed: bool,
    /// A call of a reception that is to be refused was not, or was and changed or told something.
    wrongly_refused: bool,
    /// A reception told more or fewer rows.
    other_rows: bool,
    pub written: Vec<u8>,
}

impl Library {
    pub fn start(program: &str) -> io::Result<Library> {
        let mut child = x86::run(program).stdin(Stdio::piped()).stdout(Stdio::piped()).spawn()?;
        let requests = child.stdin.take().expect("it is a pipe");
        let answers = BufReader::new(child.stdout.take().expect("it is a pipe"));
        Ok(Library { program: program.to_string(), child, requests, answers })
    }

    pub fn ask(&mut self, case: &Case) -> io::Result<Vec<Reply>> {
        self.send([case].into_iter())?;
        self.replies(case)
    }

    fn send<'a>(&mut self, cases: impl Iterator<Item = &'a Case>) -> io::Result<()> {
        let mut batch = vec![0; 4];
        for case in cases {
            batch.extend((case.call as u32).to_le_bytes());
            batch.extend(replay::bytes_of(case));
        }
        let size = batch.len() as u32 - 4;
        batch[..4].copy_from_slice(&size.to_le_bytes());
        self.requests.write_all(&batch)
    }

    fn replies(&mut self, case: &Case) -> io::Result<Vec<Reply>> {
        functions(case.call).iter().map(|_| self.reply(case)).collect()
    }

    fn reply(&mut self, case: &Case) -> io::Result<Reply> {
        let mut fixed = [[0; 8]; 8];
        self.answers.read_exact(fixed.as_flattened_mut())?;
        let mut written = vec![0; case.written.len()];
        self.answers.read_exact(&mut written)?;
        let numbers = fixed.map(u64::from_le_bytes);
        let changed = numbers[6] as i64;
        Ok(Reply {
            told: std::array::from_fn(|at| numbers[at]),
            changed: (changed != i64::MIN).then_some(changed),
            input_changed: numbers[7] & 1 != 0,
            beside_changed: numbers[7] & 2 != 0,
            wrongly_refused: numbers[7] & 4 != 0,
            other_rows: numbers[7] & 8 != 0,
            written,
        })
    }

    /// Tries some cases, and says for each what was wrong, if anything. A call that does not return is the error.
    pub fn check(&mut self, cases: &[&Case]) -> Result<Vec<Result<(), String>>, String> {
        match self.check_at_once(cases) {
            Ok(verdicts) => Ok(verdicts),
            Err(_) => Err(self.first_that_does_not_return(cases)),
        }
    }

    fn check_at_once(&mut self, cases: &[&Case]) -> io::Result<Vec<Result<(), String>>> {
        self.send(cases.iter().copied())?;
        cases.iter().map(|case| Ok(judge_all(case, &self.replies(case)?))).collect()
    }

    /// Makes the calls one by one, on a program started anew; the old one has ended.
    fn first_that_does_not_return(&mut self, cases: &[&Case]) -> String {
        let ended = self.child.wait().map_or_else(|error| error.to_string(), |status| status.to_string());
        match Library::start(&self.program) {
            Err(error) => return error.to_string(),
            Ok(library) => *self = library,
        }
        match cases.iter().find(|case| self.ask(case).is_err()) {
            Some(case) => format!("this call does not return ({ended}): {}", case.describe()),
            None => format!("the program that makes the calls has ended: {ended}"),
        }
    }
}

/// The error names each function that does what it must not.
fn judge_all(case: &Case, replies: &[Reply]) -> Result<(), String> {
    let mut wrong = Vec::new();
    for (function, reply) in functions(case.call).iter().zip(replies) {
        if let Err(what) = judge(case, reply) {
            wrong.push(format!("{function} {what}"));
        }
    }
    if wrong.is_empty() { Ok(()) } else { Err(wrong.join("\n  ")) }
}

/// The error says what a function does that it must not.
fn judge(case: &Case, reply: &Reply) -> Result<(), String> {
    if reply.told != case.told {
        return Err(format!("tells {:?}", reply.told));
    }
    if reply.written != case.written {
        return Err(format!("writes {}", hex(&reply.written)));
    }
    if let Some(at) = reply.changed {
        return Err(format!("changes byte {at} of the lent buffer"));
    }
    if reply.input_changed {
        return Err("changes the input".to_string());
    }
    if reply.beside_changed {
        return Err("changes a number beside those that it tells".to_string());
    }
    if reply.wrongly_refused {
        return Err("does not refuse a call, or changes or tells something where it does".to_string());
    }
    if reply.other_rows {
        return Err("tells more or fewer rows".to_string());
    }
    match case.call {
        Call::Listings | Call::CperListings => case.check_nesting(&span::rows_in(&reply.written)),
        _ => Ok(()),
    }
}
