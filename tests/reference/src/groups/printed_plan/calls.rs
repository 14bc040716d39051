//! Running the plan program, and the call that gives its text.

use std::io::Write;
use std::path::Path;
use std::process::{Command, Stdio};
use std::thread;
use std::time::Duration;

use crate::ffi::{self, Text};

/// The text that the library gives for an input.
pub fn plan_text(input: &[u8]) -> Text {
    unsafe { ffi::cuzhaveli_plan_text(input.as_ptr(), input.len()) }
}

/// What one run of the program showed.
pub struct Shown {
    pub text: Vec<u8>,
    pub errors: Vec<u8>,
    /// The program ended by itself, not by a signal.
    pub ended: bool,
}

/// Runs the program and hands it the pieces, with a pause between them.
pub fn run_program(program: &Path, pieces: &[&[u8]]) -> Shown {
    let mut child = Command::new(program)
        .stdin(Stdio::piped())
        .stdout(Stdio::piped())
        .stderr(Stdio::piped())
        .spawn()
        .unwrap_or_else(|error| panic!("cannot run {}: {error}", program.display()));
    let mut input = child.stdin.take().expect("a pipe");
    for (place, piece) in pieces.iter().enumerate() {
        if place > 0 {
            thread::sleep(Duration::from_millis(3));
        }
        // The program may end before it has read all; what it prints decides.
        if input.write_all(piece).is_err() {
            break;
        }
    }
    drop(input);
    let output = child.wait_with_output().expect("the program's output");
    let ended = output.status.code().is_some();
    Shown { text: output.stdout, errors: output.stderr, ended }
}
