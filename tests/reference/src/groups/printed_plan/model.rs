//! The printed plan in the second implementation: as many data disks as rows.

use std::collections::HashSet;

use crate::ffi::Text;
use crate::harness::answer::ACCEPTED;
use crate::harness::model::{cells_read, our_steps, refuse};

/// The printed text as the library's call gives it.
pub fn plan_text(input: &[u8]) -> Text {
    let printed = printed(input);
    let mut bytes = [0; 458];
    bytes[..printed.len()].copy_from_slice(&printed);
    Text { bytes, length: printed.len() }
}

/// What the plan program prints for an input.
pub fn printed(input: &[u8]) -> Vec<u8> {
    let text = match values(input) {
        None => "refused,12\n".to_string(),
        Some((p, lost)) => match refuse(p, p).disk(lost).answer() {
            ACCEPTED => printed_steps(p, lost),
            answer => format!("refused,{}\n", answer.refusal),
        },
    };
    text.into_bytes()
}

/// The two numbers of an input that has the form.
fn values(input: &[u8]) -> Option<(usize, usize)> {
    let line = input.strip_prefix(b"p,lost\n")?.strip_suffix(b"\n")?;
    let fields: Vec<&[u8]> = line.split(|b| *b == b',').collect();
    match fields[..] {
        [p, lost] => Some((decimal(p)?, decimal(lost)?)),
        _ => None,
    }
}

/// One or two digits, no leading zero except 0 itself.
fn decimal(field: &[u8]) -> Option<usize> {
    let formed = match field {
        [a] => a.is_ascii_digit(),
        [a, b] => a.is_ascii_digit() && b.is_ascii_digit() && *a != b'0',
        _ => false,
    };
    formed.then(|| field.iter().fold(0, |n, b| 10 * n + (b - b'0') as usize))
}

/// The lines of our plan, with the cells no earlier step read.
fn printed_steps(p: usize, lost: usize) -> String {
    let mut text = String::from("step,row,set,number,new\n");
    let mut read = HashSet::new();
    for (place, step) in our_steps(p, p, lost).iter().enumerate() {
        let before = read.len();
        read.extend(cells_read(p, p, lost, std::slice::from_ref(step)));
        let new = read.len() - before;
        let letter = ["R", "D"][step.kind];
        text += &format!("{place},{},{letter},{},{new}\n", step.row, step.number);
    }
    text
}
