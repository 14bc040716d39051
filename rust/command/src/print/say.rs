//! What the program says: results on standard output, all else on standard error; in colour on a
//! terminal.

use std::env;
use std::fmt::Display;
use std::fs;
use std::io::{self, IsTerminal, Write};
use std::os::unix::fs::FileTypeExt;
use std::path::Path;

use cuzhaveli_images::fault::Fault;
use cuzhaveli_images::os::sys;
use cuzhaveli_images::read::gaps::Gaps;
use cuzhaveli_images::read::set::Set;

use crate::cli::args::Given;
use crate::print::json::Object;

const RED: &str = "31";
const GREEN: &str = "32";

/// Tells what a command found: an object for programs, or text for people.
pub fn told(given: &Given, object: Object, text: String) -> Result<(), Fault> {
    line(if given.flag("--json") { object.to_string() } else { text })
}

/// Text in a colour, if that is wanted there: NO_COLOR has no value, and it is a terminal that
/// knows colours.
fn coloured(text: &str, colour: &str, terminal: bool) -> String {
    let empty = |name| env::var_os(name).is_none_or(|value| value.is_empty());
    match terminal && empty("NO_COLOR") && env::var_os("TERM").is_none_or(|term| term != "dumb") {
        true => format!("\x1b[{colour}m{text}\x1b[0m"),
        false => text.into(),
    }
}

/// A result that is as it should be.
pub fn good(text: &str) -> String {
    coloured(text, GREEN, io::stdout().is_terminal())
}

/// A result that is not.
pub fn bad(text: &str) -> String {
    coloured(text, RED, io::stdout().is_terminal())
}

/// Writes a line of results.
pub fn line(text: impl Display) -> Result<(), Fault> {
    bytes(format!("{text}\n").as_bytes())
}

/// Writes results as they are. An output that was closed is an error like any other.
pub fn bytes(text: &[u8]) -> Result<(), Fault> {
    is_open()?;
    let mut output = io::stdout().lock();
    let written = output.write_all(text).and_then(|()| output.flush());
    written.map_err(|error| Fault::Failed(format!("standard output: {error}")))
}

/// Refuses a standard output that the program was started without.
pub fn is_open() -> Result<(), Fault> {
    if sys::output_was_closed() {
        return Err(Fault::Failed("standard output: closed".into()));
    }
    Ok(())
}

/// Tells the user why the program ends; nothing for an empty text.
pub fn error(text: &str) {
    if !text.is_empty() {
        warn(text);
    }
}

/// Tells the user something on the way. There is nobody to tell if that fails.
pub fn warn(text: &str) {
    let name = coloured("cuzhaveli:", RED, io::stderr().is_terminal());
    let _ = writeln!(io::stderr(), "{name} {text}");
}

/// Says that a pipe is waited for, which may last.
pub fn waits_for(path: &Path) {
    if fs::metadata(path).is_ok_and(|data| data.file_type().is_fifo()) {
        warn(&format!("{} is a pipe: waiting for what is written to it", path.display()));
    }
}

/// Tells the user several things on the way.
pub fn warn_all(texts: &[String]) {
    texts.iter().for_each(|text| warn(text));
}

/// Tells of images that are there and are not believed.
pub fn notes(set: &Set) {
    set.notes().iter().for_each(|note| warn(note));
}

/// Tells of stripes that cannot be made right.
pub fn gaps(set: &Set, gaps: &Gaps) {
    warn_all(&gaps.told(set));
}
