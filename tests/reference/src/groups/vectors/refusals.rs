//! Calls that are refused.

use super::file::{number, Line};
use crate::groups;
use crate::groups::rebuild_two::calls::rebuild_two;
use crate::harness::Group;
use crate::vectors::refusals::{refusal, shape, zeros};

pub fn refused(group: &mut Group, line: &Line) {
    let arguments: Vec<usize> = line.words[3..].iter().map(|word| number(word)).collect();
    let got = library(line.words[2], &arguments);
    group.same(|| line.name(line.words[2]), line.count(1), got as usize);
}

fn library(name: &str, arguments: &[usize]) -> u8 {
    match arguments {
        [_, _, _, first, second, length] if name == "rebuild_two" => {
            rebuild_two(shape(arguments), *first, *second, &mut zeros(*length)).refusal
        }
        _ => refusal!(calls, name, arguments),
    }
}
