//! What the plan program prints, and the call gives, for well formed and other inputs.

use std::path::Path;
use std::thread;

use super::calls::{plan_text, run_program, Shown};
use super::inputs::{self, well_formed};
use super::model::{self, printed};
use crate::groups::planner::calls::plan_disk;
use crate::harness::model::WIDTHS;
use crate::harness::{Group, Setting};

pub fn run(setting: &mut Setting, group: &mut Group) {
    let program = &setting.program;
    examples(group, program);
    every_disk(group, program);
    all_inputs(group, program, &inputs::all());
    in_pieces(group, program);
}

fn compare(group: &mut Group, input: &[u8], expected: &[u8], shown: &Shown) {
    let short = &input[..input.len().min(200)];
    let say = |what: &str| format!("{what}, input of {} \"{}\"", input.len(), short.escape_ascii());
    let call = || say("plan program");
    group.same(|| say("plan_text"), model::plan_text(input), plan_text(input));
    group.same_bytes(call, expected, &shown.text);
    group.same_bytes(|| format!("{}, error output", call()), b"", &shown.errors);
    group.same(|| format!("{}, ended by itself", call()), true, shown.ended);
}

/// Runs all inputs, on as many threads as the machine has.
fn all_inputs(group: &mut Group, program: &Path, inputs: &[Vec<u8>]) {
    let threads = thread::available_parallelism().map_or(1, |n| n.get());
    let part = inputs.len().div_ceil(threads).max(1);
    let run_part = |part: &[Vec<u8>]| -> Vec<Shown> {
        part.iter().map(|input| run_program(program, &[input])).collect()
    };
    let run_part = &run_part;
    let shown: Vec<Shown> = thread::scope(|scope| {
        let running: Vec<_> =
            inputs.chunks(part).map(|part| scope.spawn(move || run_part(part))).collect();
        running.into_iter().flat_map(|thread| thread.join().expect("a whole part")).collect()
    });
    for (input, shown) in inputs.iter().zip(&shown) {
        compare(group, input, &printed(input), shown);
    }
}

/// The outputs that document 01 writes out.
fn examples(group: &mut Group, program: &Path) {
    let lines = "step,row,set,number,new\n0,0,R,0,5\n1,2,R,2,5\n2,4,R,4,5\n3,1,D,0,2\n4,3,D,2,2\n";
    let written = [
        ("p,lost\n5,1\n", lines),
        ("", "refused,12\n"),
        ("p,lost\n9,0\n", "refused,1\n"),
        ("p,lost\n37,0\n", "refused,1\n"),
        ("p,lost\n9,99\n", "refused,1\n"),
        ("p,lost\n5,7\n", "refused,3\n"),
        ("p,lost\n31,33\n", "refused,3\n"),
    ];
    for (input, text) in written {
        let shown = run_program(program, &[input.as_bytes()]);
        compare(group, input.as_bytes(), text.as_bytes(), &shown);
    }
    for (p, lost) in [(31, 32), (3, 4)] {
        let shown = run_program(program, &[&well_formed(p, lost)]);
        let first = shown.text.split_inclusive(|b| *b == b'\n').next().unwrap_or(b"");
        let call = || format!("plan program, values {p},{lost}, first line");
        group.same_bytes(call, b"step,row,set,number,new\n", first);
    }
}

/// Every disk of every width; the new cells add up to the library's count.
fn every_disk(group: &mut Group, program: &Path) {
    for p in WIDTHS {
        for lost in 0..p + 2 {
            let input = well_formed(p, lost);
            let shown = run_program(program, &[&input]);
            compare(group, &input, &printed(&input), &shown);
            let call = || format!("plan program, values {p},{lost}, sum of new");
            let reads = plan_disk(p, p, lost).reads;
            group.same(call, Some(reads), sum_of_new(&shown.text));
        }
    }
}

/// The sum of the last column.
fn sum_of_new(text: &[u8]) -> Option<u32> {
    let text = std::str::from_utf8(text).ok()?;
    let last = |line: &str| line.rsplit(',').next()?.parse::<u32>().ok();
    text.lines().skip(1).map(last).sum()
}

/// Inputs that arrive in two pieces, or byte by byte.
fn in_pieces(group: &mut Group, program: &Path) {
    for input in [well_formed(5, 1), well_formed(31, 32), b"p,lost\n5,1\n\n".to_vec()] {
        let expected = printed(&input);
        for place in 1..input.len() {
            let shown = run_program(program, &[&input[..place], &input[place..]]);
            compare(group, &input, &expected, &shown);
        }
        let bytes: Vec<&[u8]> = input.chunks(1).collect();
        compare(group, &input, &expected, &run_program(program, &bytes));
    }
}
