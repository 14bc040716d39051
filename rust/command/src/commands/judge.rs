//! `judge`: a host's plan.

use cuzhaveli_images::fault::Fault;
use cuzhaveli_images::names::count;

use crate::cli::args::Given;
use crate::cli::table::{Command, Kind, Operand, Use};
use crate::cli::words::{DISKS, JSON, LOST, WIDTH};
use crate::print::json::Object;
use crate::print::plan_text::read_text;
use crate::print::say;

pub const COMMAND: Command = Command {
    name: "judge",
    brief: "is a host's plan right, and how many cells does it read?",
    about: &[
        "Judges a plan that is a text: the line row,set,number and a line for each step, such as 0,R,0 or 1,D,4.",
    ],
    words: &[
        Use::Opt(&WIDTH),
        Use::May(&Use::Opt(&DISKS)),
        Use::Opt(&LOST),
        Use::May(&Use::Opt(&JSON)),
        Use::Operand(&Operand {
            name: "FILE",
            kind: Kind::File,
            about: "the plan; - for standard input",
        }),
    ],
    tells: &[
        ("accepted", "whether the plan is"),
        ("reads", "the cells of a stripe that it reads; 0 if it is not accepted"),
        ("refusal", "the number of the refusal, 6 to 9 or 22; 0 if it is accepted"),
        ("place", "the step that is refused, from 0 on"),
    ],
};

pub fn run(given: &Given) -> Result<(), Fault> {
    let shape = given.shape()?;
    let lost = given.lost(shape)?;
    let text = read_text(&given.operands[0])?;
    let judged = shape.judge_text(lost, &text);
    let (reads, refusal, place) = match judged {
        Ok(reads) => (reads, 0, 0),
        Err(refusal) => (0, refusal.number(), refusal.place()),
    };
    let object = Object(vec![
        ("accepted", judged.is_ok().into()),
        ("reads", u64::from(reads).into()),
        ("refusal", u64::from(refusal).into()),
        ("place", u64::from(place).into()),
    ]);
    match judged {
        Ok(_) => {
            let cells = count(reads.into(), "cell");
            say::told(given, object, format!("{}: {cells} of a stripe read", say::good("Accepted")))
        }
        Err(refusal) => {
            let why = Fault::from(refusal).to_string();
            say::told(given, object, format!("{}: {why}", say::bad("Not accepted")))?;
            Err(Fault::No(String::new()))
        }
    }
}
