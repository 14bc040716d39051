//! `plan`: a picture of a plan, or its text.

use cuzhaveli::{Plan, Set as CellSet, Shape, Step};
use cuzhaveli_images::fault::Fault;

use crate::cli::args::Given;
use crate::cli::table::{Command, Kind, Opt, Use};
use crate::cli::values::usage;
use crate::cli::words::{DISKS, JSON, LOST, WIDTH};
use crate::print::json::Object;
use crate::print::picture::Picture;
use crate::print::say;
use crate::print::svg;

pub const COMMAND: Command = Command {
    name: "plan",
    brief: "a picture of the plan for a lost disk",
    about: &[
        "Draws which cells the plan reads, and for what; beside each row the set that rebuilds its lost cell, below each \
         disk how many of its cells are read, and the most that are of one.",
    ],
    words: &[
        Use::Opt(&WIDTH),
        Use::May(&Use::Opt(&DISKS)),
        Use::Opt(&LOST),
        Use::MayOne(&[
            Use::Opt(&Opt {
                name: "--balanced",
                value: None,
                about: "the plan that spreads the reads over the survivors",
            }),
            Use::Opt(&Opt {
                name: "--fewest",
                value: None,
                about: "the one of these plans that reads the fewest cells",
            }),
            Use::Opt(&Opt {
                name: "--relieve",
                value: Some(("R", Kind::Disk)),
                about: "the plan that asks the least of this data disk",
            }),
        ]),
        Use::MayOne(&[
            Use::Opt(&JSON),
            Use::Opt(&Opt { name: "--svg", value: None, about: "the picture as SVG" }),
            Use::Opt(&Opt {
                name: "--text",
                value: None,
                about: "the steps of the plan as the text that judge reads",
            }),
            Use::Opt(&Opt {
                name: "--csv",
                value: None,
                about: "the steps of our plan as the plan program prints them, for as many data disks as WIDTH",
            }),
        ]),
    ],
    tells: &[
        ("width", "the rows of a stripe"),
        ("disks", "the data disks"),
        ("lost", "the lost disk"),
        ("reads", "the cells of a stripe that are read"),
        ("rows", "those that row parity alone would need"),
        ("shares", "those of each disk, P and Q last"),
        ("steps", "the steps in their order: row, set (R or D), number"),
    ],
};

pub fn run(given: &Given) -> Result<(), Fault> {
    given.at_most_one(&["--json", "--csv", "--svg", "--text"])?;
    given.at_most_one(&["--balanced", "--fewest", "--relieve"])?;
    let shape = given.shape()?;
    let lost = given.lost(shape)?;
    if given.flag("--csv") {
        return csv(given, shape, lost);
    }
    let (plan, name) = plan(given, shape, lost)?;
    if given.flag("--text") {
        let steps: Vec<Step> = plan.steps().collect();
        return say::bytes(shape.write_plan(lost, &steps)?.as_bytes());
    }
    let picture = Picture::of(shape, lost, &plan, name)?;
    if given.flag("--svg") {
        return say::bytes(svg::draw(&picture).as_bytes());
    }
    if given.flag("--json") {
        return say::line(object(&picture, lost, &plan));
    }
    say::bytes(picture.text().as_bytes())
}

fn object(picture: &Picture, lost: usize, plan: &Plan) -> Object {
    let (width, disks) = (picture.shape.width(), picture.shape.disks());
    let shares: Vec<usize> = (0..disks + 2).map(|disk| picture.share(disk)).collect();
    let step = |step: Step| {
        let (set, number) = match step.set {
            CellSet::Row(number) => ("R", number),
            CellSet::Diagonal(number) => ("D", number),
        };
        let (row, number) = (usize::from(step.row), usize::from(number));
        Object(vec![("row", row.into()), ("set", set.into()), ("number", number.into())])
    };
    Object(vec![
        ("width", width.into()),
        ("disks", disks.into()),
        ("lost", lost.into()),
        ("reads", u64::from(plan.reads()).into()),
        ("rows", (width * disks).into()),
        ("shares", (&*shares).into()),
        ("steps", plan.steps().map(step).collect()),
    ])
}

/// The plan that was asked for, and its name; for P and Q there is ours alone.
fn plan(given: &Given, shape: Shape, lost: usize) -> Result<(Plan, String), Fault> {
    if let Some(disk) = given.disk("--relieve", shape)? {
        let plan = shape.relief_plan(lost, disk);
        let plan = plan.map_err(|refusal| given.refused("--relieve", refusal))?;
        return Ok((plan, format!("relief of disk {disk}")));
    }
    Ok(match (given.flag("--balanced"), given.flag("--fewest")) {
        (true, _) => (shape.balanced_plan(lost)?, "balanced plan".into()),
        (_, true) => (shape.fewest_plan(lost)?, "fewest plan".into()),
        _ => (shape.plan(lost)?, "own plan".into()),
    })
}

/// The plan program's text.
fn csv(given: &Given, shape: Shape, lost: usize) -> Result<(), Fault> {
    for other in ["--balanced", "--fewest", "--relieve"] {
        given.at_most_one(&["--csv", other])?;
    }
    if shape.disks() != shape.width() {
        return Err(usage("--csv is for as many data disks as WIDTH; leave -k out".into()));
    }
    let input = format!("p,lost\n{},{lost}\n", shape.width());
    say::bytes(&cuzhaveli::plan_text(input.as_bytes()))
}
