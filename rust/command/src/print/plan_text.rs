//! Plans that are texts, from files or standard input.

use std::ffi::OsStr;
use std::fs::File;
use std::io::{self, Read};
use std::path::Path;

use cuzhaveli::{Refusal, Shape};
use cuzhaveli_images::fault::Fault;
use cuzhaveli_images::os::sys;

use crate::print::say;

/// More than any plan has: a text of so many bytes is refused as any that is too long.
const MOST_TEXT: u64 = 4096;

/// The text of a file, or of standard input for `-`.
pub fn read_text(name: &OsStr) -> Result<Vec<u8>, Fault> {
    let (mut text, path) = (Vec::new(), Path::new(name));
    if name == "-" && sys::input_was_closed() {
        return Err(Fault::Failed("standard input: closed; give it a plan, or a file".into()));
    }
    say::waits_for(path);
    let read = match name == "-" {
        true => io::stdin().take(MOST_TEXT).read_to_end(&mut text),
        false => File::open(path).and_then(|file| file.take(MOST_TEXT).read_to_end(&mut text)),
    };
    read.map_err(|error| Fault::path(path, error))?;
    Ok(text)
}

/// The steps of an accepted plan, three bytes each: row, kind and number.
pub fn steps(shape: Shape, lost: usize, text: &[u8]) -> Result<Vec<u8>, Refusal> {
    let plain = shape.plain_text(lost, text)?;
    let byte = |field: &str| match field {
        "R" => 0,
        "D" => 1,
        number => number.parse().unwrap_or(u8::MAX), // no accepted plan has another field
    };
    Ok(plain.lines().skip(1).flat_map(|line| line.split(',').map(byte)).collect())
}

#[cfg(test)]
mod tests {
    use super::*;

    #[test]
    fn the_steps_of_a_text_are_those_of_its_plan() {
        let shape = Shape::new(7, 7, 1).unwrap();
        for lost in 0..9 {
            let plan = shape.plan(lost).unwrap();
            let text = shape.write_plan(lost, &plan.steps().collect::<Vec<_>>()).unwrap();
            assert_eq!(steps(shape, lost, text.as_bytes()).unwrap(), plan.bytes());
        }
        assert_eq!(steps(shape, 1, b"row,set,number\n").unwrap_err().number(), 22);
    }
}
