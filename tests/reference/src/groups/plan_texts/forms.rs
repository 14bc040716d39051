//! Texts of steps in the various forms of editors, and damaged texts.

use crate::harness::model::Step;
use crate::harness::Random;

/// The steps as text, with line ends, letters and leading zeros at random.
pub fn any_form(steps: &[Step], random: &mut Random) -> Vec<u8> {
    let mut text = b"row,set,number".to_vec();
    text.extend(end(random));
    for step in steps {
        text.extend(number(step.row, random));
        text.extend([b',', letter(step.kind, random), b',']);
        text.extend(number(step.number, random));
        text.extend(end(random));
    }
    text
}

fn end(random: &mut Random) -> &'static [u8] {
    match random.once_in(2) {
        true => b"\r\n",
        false => b"\n",
    }
}

fn letter(kind: usize, random: &mut Random) -> u8 {
    let capital = if kind == 0 { b'R' } else { b'D' };
    match random.once_in(2) {
        true => capital.to_ascii_lowercase(),
        false => capital,
    }
}

fn number(n: usize, random: &mut Random) -> Vec<u8> {
    let digits = 1 + random.below(3);
    format!("{n:0digits$}").into_bytes()
}

/// Bytes that stand in texts, and some beside them that do not.
const LIKELY: &[u8] = b"0123456789,RrDd\r\n\n/:PQ;. -+\0x";

/// The text with one to three changes: a byte changed, put in, left out, or a stretch repeated or left out.
pub fn damaged(text: &[u8], random: &mut Random) -> Vec<u8> {
    let mut text = text.to_vec();
    for _ in 0..1 + random.below(3) {
        let place = random.below(text.len() + 1);
        let byte = if random.once_in(4) { random.byte() } else { *random.pick(LIKELY) };
        let end = (place + 1 + random.below(12)).min(text.len());
        match random.below(6) {
            0 if place < text.len() => text[place] = byte,
            1 if place < text.len() => drop(text.remove(place)),
            2 => drop(text.drain(place..end)),
            3 => {
                let part = text[place..end].to_vec();
                text.splice(place..place, part);
            }
            4 => text.truncate(place),
            _ => text.insert(place, byte),
        }
    }
    text
}
