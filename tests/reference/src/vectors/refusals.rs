//! Calls that are refused, each with one argument or two out of range.

use super::lines::Lines;
use crate::ffi::{Answer, Checked, Judged, Plan, Scrubbed};
use crate::groups;
use crate::harness::Shape;

/// What an argument is, so that wrong ones can be found for it.
#[derive(Clone, Copy)]
enum Kind {
    Width,
    Disks,
    Size,
    Disk,
    DataDisk,
    Row,
    Length,
}

use Kind::{DataDisk, Disk, Disks, Length, Row, Size, Width};

/// Arguments that are accepted, all of p = 5, k = 3, s = 2.
type Arguments = &'static [(Kind, usize)];

const PLAN: Arguments = &[(Width, 5), (Disks, 3), (Disk, 1)];
const RELIEF: Arguments = &[(Width, 5), (Disks, 3), (Disk, 1), (DataDisk, 2)];
const LIST: Arguments = &[(Width, 5), (Disks, 3), (Disk, 1), (Length, 25)];
const JUDGE: Arguments = &[(Width, 5), (Disks, 3), (Disk, 1), (Length, 15)];
const PLAN_LIST: Arguments = &[(Width, 5), (Disks, 3), (Disk, 1), (Length, 15), (Length, 25)];
const STRIPE: Arguments = &[(Width, 5), (Disks, 3), (Size, 2), (Length, 50)];
const ONE: Arguments = &[(Width, 5), (Disks, 3), (Size, 2), (Disk, 1), (Length, 50), (Length, 10)];
const BY_PLAN: Arguments =
    &[(Width, 5), (Disks, 3), (Size, 2), (Disk, 1), (Length, 15), (Length, 50), (Length, 10)];
const TWO: Arguments = &[(Width, 5), (Disks, 3), (Size, 2), (Disk, 1), (Disk, 4), (Length, 50)];
const CELLS: Arguments = &[(Width, 5), (Disks, 3), (Size, 2), (Length, 25), (Length, 50)];
const UPDATE: Arguments =
    &[(Width, 5), (Disks, 3), (Size, 2), (Row, 4), (DataDisk, 2), (Length, 50), (Length, 2)];

const CALLS: [(&str, Arguments); 17] = [
    ("plan_disk", PLAN),
    ("balanced_plan", PLAN),
    ("relief_plan", RELIEF),
    ("fewest_plan", PLAN),
    ("read_list", LIST),
    ("judge_plan", JUDGE),
    ("plan_list", PLAN_LIST),
    ("encode_stripe", STRIPE),
    ("check_stripe", STRIPE),
    ("scrub_stripe", STRIPE),
    ("rebuild_one", ONE),
    ("rebuild_balanced", ONE),
    ("rebuild_tested", ONE),
    ("rebuild_by_plan", BY_PLAN),
    ("rebuild_two", TWO),
    ("rebuild_cells", CELLS),
    ("update_cell", UPDATE),
];

/// The refusal of a call on zeros, by its name and arguments: of the second implementation
/// (`model`) or of the library (`calls`). Rebuilding two disks is up to the caller.
macro_rules! refusal {
    ($who:ident, $name:expr, $a:expr) => {{
        use $crate::vectors::refusals::{shape, zeros, Refused};
        let a: &[usize] = $a;
        let mut lent: Vec<Vec<u8>> = a.iter().map(|length| zeros(*length)).collect();
        let mut last = lent.pop().unwrap_or_default();
        let at = |place: usize| -> &[u8] { &lent[place] };
        match $name {
            "plan_disk" => groups::planner::$who::plan_disk(a[0], a[1], a[2]).refusal(),
            "balanced_plan" => {
                groups::balanced_plan::$who::balanced_plan(a[0], a[1], a[2]).refusal()
            }
            "relief_plan" => {
                groups::relief_plan::$who::relief_plan(a[0], a[1], a[2], a[3]).refusal()
            }
            "fewest_plan" => groups::fewest_plan::$who::fewest_plan(a[0], a[1], a[2]).refusal(),
            "read_list" => {
                groups::read_list::$who::read_list(a[0], a[1], a[2], &mut last).refusal()
            }
            "judge_plan" => groups::judge::$who::judge_plan(a[0], a[1], a[2], &last).refusal(),
            "plan_list" => {
                groups::plan_list::$who::plan_list((a[0], a[1], a[2]), at(3), &mut last).refusal()
            }
            "encode_stripe" => groups::encode::$who::encode_stripe(shape(a), &mut last).refusal(),
            "check_stripe" => groups::encode::$who::check_stripe(shape(a), &last).refusal(),
            "scrub_stripe" => groups::scrub::$who::scrub_stripe(shape(a), &last).refusal(),
            "rebuild_one" => {
                groups::rebuild_one::$who::rebuild_one(shape(a), a[3], at(4), &mut last).refusal()
            }
            "rebuild_balanced" => {
                let call = groups::rebuild_balanced::$who::rebuild_balanced;
                call(shape(a), a[3], at(4), &mut last).refusal()
            }
            "rebuild_tested" => {
                let call = groups::rebuild_tested::$who::rebuild_tested;
                call(shape(a), a[3], at(4), &mut last).refusal()
            }
            "rebuild_by_plan" => {
                let call = groups::rebuild_by_plan::$who::rebuild_by_plan;
                call(shape(a), a[3], at(4), at(5), &mut last).refusal()
            }
            "rebuild_cells" => {
                groups::rebuild_cells::$who::rebuild_cells(shape(a), at(3), &mut last).refusal()
            }
            "update_cell" => {
                let mut stripe = at(5).to_vec();
                let call = groups::update::$who::update_cell;
                call(shape(a), (a[3], a[4]), &mut stripe, &last).refusal()
            }
            other => panic!("no call {other}"),
        }
    }};
}
pub(crate) use refusal;

/// An answer that can be a refusal.
pub trait Refused {
    fn refusal(&self) -> u8;
}

impl Refused for Answer {
    fn refusal(&self) -> u8 {
        self.refusal
    }
}

macro_rules! refused {
    ($($answer:ident),*) => {
        $(impl Refused for $answer {
            fn refusal(&self) -> u8 {
                self.answer.refusal
            }
        })*
    };
}

refused!(Plan, Judged, Checked, Scrubbed);

pub fn shape(arguments: &[usize]) -> Shape {
    Shape::new(arguments[0], arguments[1], arguments[2])
}

/// Lent memory of a length that calls are refused with; none of the others, which are no lengths.
pub fn zeros(length: usize) -> Vec<u8> {
    vec![0; if length <= MOST_LENT { length } else { 0 }]
}

const MOST_LENT: usize = 100;

fn model(name: &str, arguments: &[usize]) -> u8 {
    if name == "rebuild_two" {
        let [_, _, _, first, second, length] = arguments else {
            panic!("six arguments");
        };
        let call = groups::rebuild_two::model::rebuild_two;
        return call(shape(arguments), *first, *second, *length).refusal;
    }
    refusal!(model, name, arguments)
}

/// Numbers that are refused in place of one that is accepted.
fn wrong((kind, right): (Kind, usize)) -> Vec<usize> {
    match kind {
        Width => vec![0, 1, 4, 9, 37, 256 + 5, (1 << 32) + 5, usize::MAX],
        Disks => vec![0, 1, 6, 256 + 3, usize::MAX],
        Size => vec![0, 4_097, 65_536 + 2, usize::MAX],
        Disk => vec![5, 256 + 1, usize::MAX],
        DataDisk => vec![3, 4, 5, usize::MAX],
        Row => vec![5, 256, usize::MAX],
        Length => vec![0, right - 1, right + 1, 2 * right],
    }
}

/// The file's text.
pub fn refusals() -> String {
    let mut lines = Lines::new("refusals");
    for (name, right) in CALLS {
        for arguments in arguments_of(right) {
            let refusal = model(name, &arguments);
            if (1..=5).contains(&refusal) || refusal == 13 || refusal == 15 {
                let words: Vec<String> = arguments.iter().map(usize::to_string).collect();
                lines.add(format!("refused {refusal} {name} {}", words.join(" ")));
            }
        }
    }
    lines.finish()
}

/// One argument wrong at a time, then two, then the same disk twice.
fn arguments_of(right: &[(Kind, usize)]) -> Vec<Vec<usize>> {
    let numbers: Vec<usize> = right.iter().map(|argument| argument.1).collect();
    let with = |mut numbers: Vec<usize>, place: usize, number: usize| {
        numbers[place] = number;
        numbers
    };
    let mut all = Vec::new();
    for (place, argument) in right.iter().enumerate() {
        for number in wrong(*argument) {
            all.push(with(numbers.clone(), place, number));
        }
        for (later, other) in right.iter().enumerate().skip(place + 1) {
            let first = with(numbers.clone(), place, wrong(*argument)[0]);
            all.push(with(first, later, wrong(*other)[0]));
        }
    }
    let disks: Vec<usize> =
        (0..right.len()).filter(|place| matches!(right[*place].0, Disk | DataDisk)).collect();
    if let [first, second] = disks[..] {
        all.push(with(numbers.clone(), second, numbers[first]));
    }
    all
}
