//! Plans as text in the second implementation: a text is cut at its LFs, a line at its commas.

use super::calls::{Judged, Numbers, Written};
use crate::groups::judge::model::judge_plan;
use crate::harness::answer::{Answer, ACCEPTED};
use crate::harness::model::{bytes_of, refuse, steps_of, Step};

/// The bytes of the slice that a text is written to.
pub const ROOM: usize = 263;

/// The judge's call on a text.
pub fn judge_text((width, disks, lost): Numbers, text: &[u8]) -> Judged {
    let numbers = refuse(width, disks).disk(lost);
    let answer = numbers.when(22, |of| steps_in(of.width, text).is_none()).answer();
    match steps_in(width, text) {
        Some(steps) if answer == ACCEPTED => judge_plan(width, disks, lost, &bytes_of(&steps)),
        _ => Judged { answer, reads: 0 },
    }
}

/// The writing call.
pub fn write_plan(numbers: Numbers, plan: &[u8], out: &mut [u8]) -> Written {
    let (width, disks, lost) = numbers;
    let checks = refuse(width, disks).disk(lost).length(plan.len(), |of| 3 * of.width);
    let answer = checks.length(out.len(), |_| ROOM).answer();
    if answer != ACCEPTED {
        return Written { answer, length: 0 };
    }
    write(judge_plan(width, disks, lost, plan).answer, &steps_of(plan), out)
}

/// The call from a text to its plain form.
pub fn plain_text((width, disks, lost): Numbers, text: &[u8], out: &mut [u8]) -> Written {
    let answer = refuse(width, disks).disk(lost).length(out.len(), |_| ROOM).answer();
    if answer != ACCEPTED {
        return Written { answer, length: 0 };
    }
    let answer = judge_text((width, disks, lost), text).answer;
    write(answer, &steps_in(width, text).unwrap_or_default(), out)
}

fn write(answer: Answer, steps: &[Step], out: &mut [u8]) -> Written {
    if answer != ACCEPTED {
        return Written { answer, length: 0 };
    }
    let text = plain(steps);
    out[..text.len()].copy_from_slice(text.as_bytes());
    Written { answer, length: text.len() }
}

/// The plain form of steps.
pub fn plain(steps: &[Step]) -> String {
    let letter = |kind: usize| if kind == 0 { 'R' } else { 'D' };
    let line = |s: &Step| format!("{},{},{}\n", s.row, letter(s.kind), s.number);
    format!("row,set,number\n{}", steps.iter().map(line).collect::<String>())
}

/// The steps of a text of that many lines after the names, if it has the form.
pub fn steps_in(width: usize, text: &[u8]) -> Option<Vec<Step>> {
    let ended = text.strip_suffix(b"\n")?;
    let without_cr = |line: &'_ [u8]| line.strip_suffix(b"\r").unwrap_or(line).to_vec();
    let lines: Vec<Vec<u8>> = ended.split(|byte| *byte == b'\n').map(without_cr).collect();
    let (names, values) = lines.split_first()?;
    if names != b"row,set,number" || values.len() != width {
        return None;
    }
    values.iter().map(|line| step_in(line)).collect()
}

fn step_in(line: &[u8]) -> Option<Step> {
    let fields: Vec<&[u8]> = line.split(|byte| *byte == b',').collect();
    let [row, letter, number] = fields[..] else {
        return None;
    };
    let kind = match letter {
        b"R" | b"r" => 0,
        b"D" | b"d" => 1,
        _ => return None,
    };
    Some(Step { row: number_in(row)?, kind, number: number_in(number)? })
}

fn number_in(digits: &[u8]) -> Option<usize> {
    let few = (1..=3).contains(&digits.len());
    if !few || !digits.iter().all(u8::is_ascii_digit) {
        return None;
    }
    let number: usize = std::str::from_utf8(digits).ok()?.parse().ok()?;
    Some(number).filter(|number| *number <= 255)
}
