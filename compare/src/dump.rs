//! The dump programs.

use crate::case::Call;
use crate::x86;
use std::io::{self, Write};
use std::process::Stdio;
use std::thread;

/// The one for a region, and the one for a CPER.
pub struct Dumps {
    pub region: String,
    pub cper: String,
}

impl Dumps {
    /// The program that prints the text of such a case.
    pub fn program(&self, call: Call) -> Option<&str> {
        match call {
            Call::Texts => Some(&self.region),
            Call::CperTexts => Some(&self.cper),
            _ => None,
        }
    }
}

/// What a program prints for some bytes.
pub fn text(program: &str, bytes: &[u8]) -> io::Result<Vec<u8>> {
    let mut child = x86::run(program).stdin(Stdio::piped()).stdout(Stdio::piped()).spawn()?;
    let mut input = child.stdin.take().expect("it is a pipe");
    let bytes = bytes.to_vec();
    // It may stop reading early; what it then prints is what counts.
    let writer = thread::spawn(move || drop(input.write_all(&bytes)));
    let output = child.wait_with_output()?;
    writer.join().expect("the writer does not panic");
    Ok(output.stdout)
}
