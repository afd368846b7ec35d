//! Programs for x86-64, which may not be this machine's processor.

use std::process::Command;

/// Runs such a program. This program itself is started from the project's root.
pub fn run(program: &str) -> Command {
    let mut command = Command::new("tools/x86");
    command.args(["run", program]);
    command
}
