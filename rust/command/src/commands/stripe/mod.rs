//! `stripe`: calls of the library on stripes of standard input, without labels and checksums.

mod calls;
mod draw;
mod missing;
mod records;

use cuzhaveli::{Refusal, Scrub, Shape};
use cuzhaveli_images::fault::Fault;
use cuzhaveli_images::names::count;

use crate::cli::args::Given;
use crate::cli::near::meant;
use crate::cli::table::{Command, Kind, Operand, Opt, Use};
use crate::cli::values::usage;
use crate::cli::words::{CELL, DISKS, JSON, WIDTH};
use crate::commands::stripe::calls::{named, Call};
use crate::commands::stripe::records::{room, Records, Results};
use crate::print::cell_sets;
use crate::print::json::{Object, Value};
use crate::print::say;

/// An action, the options that it needs, and those that it may have.
type Action = (&'static str, &'static [&'static str], &'static [&'static str]);

const ACTIONS: &[Action] = &[
    ("encode", &[], &[]),
    ("check", &[], &["--json"]),
    ("scrub", &[], &["--json"]),
    ("rebuild", &["--disk"], &["--test"]),
    ("rebuild-cells", &["--missing"], &["--draw", "--json"]),
    ("update", &["--disk", "--row"], &[]),
    ("server-write", &["--servers"], &[]),
    ("server-rebuild", &["--servers", "--server"], &["--loss"]),
];
/// Their names.
const NAMES: [&str; ACTIONS.len()] = {
    let (mut names, mut place) = ([""; ACTIONS.len()], 0);
    while place < names.len() {
        names[place] = ACTIONS[place].0;
        place += 1;
    }
    names
};

pub const COMMAND: Command = Command {
    name: "stripe",
    brief: "the library's calls on stripes of standard input, for code under test",
    about: &[
        "Reads stripes from standard input, one after another, without labels and checksums, and \
         makes one call of the library on each; what the calls leave goes to standard output in \
         the same order. A stripe has (DISKS + 2) * WIDTH * CELL bytes: the cell of row i on disk \
         c starts at byte (c * WIDTH + i) * CELL, P is disk DISKS and Q the last. Stripes count \
         from 0. One is in memory at a time, and what is done is handed out before more is waited \
         for.",
        "encode writes P and Q of each stripe, whatever stood there.",
        "check tells each stripe that is not clean, and the sets of it that do not XOR to zero, \
         such as R 2 or D 0; the status is then 1.",
        "scrub prints a line for each stripe: clean; the number of the one disk whose cells alone \
         explain it; or more. If one is not clean, the status is 1.",
        "rebuild writes the lost disk, or both, in their places, whatever stood there: one by our \
         plan, which reads its cells alone and does not notice survivors that do not belong \
         together. With --test they are tested first, by all cells of the stripe.",
        "rebuild-cells writes the missing cells in their places, whatever stood there. With --draw \
         nothing is read: it draws which cells are missing, which are read, and the sets whose XOR \
         brings each back.",
        "update takes after each stripe the CELL new bytes of the cell of --row and --disk, a data \
         disk; what goes on is the stripe with this cell, its P cell and its Q cells changed.",
        "server-write and server-rebuild take M + 1 stripes together, those of servers 0 to M - 1 \
         and last of the parity server M, and hand on as many. server-write makes the last the XOR \
         of the others, whatever stood there. server-rebuild first mends the disks that --loss \
         names, and then makes stripe N the XOR of the others, whatever stood there.",
        "Where the library refuses a stripe, one that ends too early, or an input without any, \
         standard error names it by its number and its first byte in the input, the output ends \
         before it, and the status is 3. Options that it refuses are told before anything is read.",
    ],
    words: &[
        Use::Operand(&Operand {
            name: "ACTION",
            kind: Kind::Word(&NAMES),
            about: "encode, check, scrub, rebuild, rebuild-cells, update, server-write or \
                    server-rebuild",
        }),
        Use::Opt(&WIDTH),
        Use::May(&Use::Opt(&DISKS)),
        Use::May(&Use::Opt(&CELL)),
        Use::Any(&Use::Opt(&Opt {
            name: "--disk",
            value: Some(("D", Kind::Disk)),
            about: "of rebuild: a lost disk, at most two; of update: the disk of the cell",
        })),
        Use::May(&Use::Opt(&Opt {
            name: "--test",
            value: None,
            about: "of rebuild, with one disk: refuse survivors that are those of no clean stripe",
        })),
        Use::May(&Use::Opt(&Opt {
            name: "--missing",
            value: Some(("CELLS", Kind::File)),
            about: "of rebuild-cells: the missing cells, DISK.ROW or DISK for all its rows, with \
                    commas between them, such as 1,P.0,3.4; or a file of such words, with commas, \
                    spaces or ends of lines between them",
        })),
        Use::May(&Use::Opt(&Opt {
            name: "--draw",
            value: None,
            about: "of rebuild-cells: a picture, and no stripes",
        })),
        Use::May(&Use::Opt(&Opt {
            name: "--row",
            value: Some(("ROW", Kind::Number)),
            about: "of update: the row of the cell",
        })),
        Use::May(&Use::Opt(&Opt {
            name: "--servers",
            value: Some(("M", Kind::Number)),
            about: "of server-write and server-rebuild: the servers without the parity server, 2 \
                    to 16",
        })),
        Use::May(&Use::Opt(&Opt {
            name: "--server",
            value: Some(("N", Kind::Number)),
            about: "of server-rebuild: the lost server, 0 to M",
        })),
        Use::Any(&Use::Opt(&Opt {
            name: "--loss",
            value: Some(("S.D", Kind::Text)),
            about: "of server-rebuild: a lost disk D of another server S, at most two of each",
        })),
        Use::May(&Use::Opt(&JSON)),
    ],
    tells: &[
        (
            "found",
            "of a verdict: the stripes that are not clean, each with stripe, its number, and of \
             check with sets, those that do not XOR to zero, of scrub with disks, the one that \
             explains it, or none if several are needed",
        ),
        ("stripes", "of a verdict: the stripes"),
        ("dirty", "of a verdict: those that are not clean"),
        (
            "missing",
            "of a picture: the missing cells, each with disk, row and sets, whose XOR brings it \
             back; none if nothing does",
        ),
        ("read", "of a picture: the other cells that are read"),
        ("determined", "of a picture: whether all missing cells come back"),
    ],
};

pub fn run(given: &Given) -> Result<(), Fault> {
    let name = action(given)?;
    let shape = given.shape()?;
    let call = match name {
        "check" => return examine(given, shape, sets_of),
        "scrub" => return examine(given, shape, disks_of),
        "rebuild-cells" if given.flag("--draw") => return draw::draw(given, shape),
        "encode" => Call::Encode,
        "rebuild" => calls::rebuild(given, shape)?,
        "rebuild-cells" => calls::rebuild_cells(given, shape)?,
        "update" => calls::update(given, shape)?,
        "server-write" => calls::server_write(given, shape)?,
        _ => calls::server_rebuild(given, shape)?,
    };
    change(given, shape, call)
}

/// The action, whose options are all there and no others.
fn action(given: &Given) -> Result<&'static str, Fault> {
    let asked = &given.operands[0];
    let Some((name, needs, may)) = ACTIONS.iter().find(|(name, ..)| asked == name) else {
        let near = meant(&asked.to_string_lossy(), NAMES.iter().copied());
        let (asked, names) = (asked.display(), NAMES.join(", "));
        return Err(usage(format!("{asked}: not one of {names}{near}")));
    };
    if let Some(option) = needs.iter().find(|option| !given.flag(option)) {
        return Err(usage(format!("{name} needs {option}")));
    }
    let mut all = ACTIONS.iter().flat_map(|(_, needs, may)| needs.iter().chain(*may));
    let other = |option: &&&str| !needs.contains(option) && !may.contains(option);
    if let Some(option) = all.find(|option| given.flag(option) && other(option)) {
        return Err(usage(format!("{option} is not for {name}; leave it out")));
    }
    if *name == "rebuild-cells" && given.flag("--json") && !given.flag("--draw") {
        return Err(usage("--json: standard output has the stripes; leave it out".into()));
    }
    Ok(name)
}

/// Makes a call on every stripe, and hands the stripes on.
fn change(given: &Given, shape: Shape, mut call: Call) -> Result<(), Fault> {
    let mut record = room(call.record_len(shape))?;
    // Of zeros, which are clean, the call refuses what the options say and nothing else.
    call.make(shape, &mut record).map_err(|refusal| named(given, refusal))?;
    let (mut records, mut results) = (Records::new(record)?, Results::new()?);
    let len = call.result_len(shape);
    let done = records.each(
        &mut results,
        |_, record| call.make(shape, record),
        |results, _, record, ()| results.write(&record[..len]),
    );
    results.end(done.map(|_| ()))
}

/// What is told of a stripe: a line, if it has one, and a field for programs if it is not clean.
type Told = (Option<String>, Option<(&'static str, Value)>);

/// Tells of every stripe what is wrong with it.
fn examine(
    given: &Given,
    shape: Shape,
    look: fn(Shape, u64, &[u8]) -> Result<Told, Refusal>,
) -> Result<(), Fault> {
    let (json, mut dirty) = (given.flag("--json"), 0_u64);
    let mut records = Records::new(room(shape.stripe_len())?)?;
    let mut results = Results::new()?;
    let done = records.each(
        &mut results,
        |number, stripe| look(shape, number, stripe),
        |results, number, _, (line, field)| {
            let before = if dirty == 0 { FOUND } else { "," };
            dirty += u64::from(field.is_some());
            match (json, line, field) {
                (false, Some(line), _) => results.write(line.as_bytes()),
                (true, _, Some(field)) => {
                    let object = Object(vec![("stripe", number.into()), field]);
                    results.write(format!("{before}{object}").as_bytes())
                }
                _ => Ok(()),
            }
        },
    );
    let stripes = results.end(done)?;
    if json {
        let before = if dirty == 0 { FOUND } else { "" };
        let sums = Object(vec![("stripes", stripes.into()), ("dirty", dirty.into())]).fields();
        say::line(format!("{before}],{sums}}}"))?;
    }
    match dirty {
        0 => Ok(()),
        _ => Err(Fault::No(format!("{dirty} of {} not clean", count(stripes, "stripe")))),
    }
}

/// The beginning of what is found, as JSON.
const FOUND: &str = "{\"found\":[";

/// `check`: the sets that do not XOR to zero; a clean stripe has no line.
fn sets_of(shape: Shape, number: u64, stripe: &[u8]) -> Result<Told, Refusal> {
    if shape.is_clean(stripe)? {
        return Ok((None, None));
    }
    let names: Vec<String> =
        cell_sets::dirty(shape, stripe).into_iter().map(cell_sets::name).collect();
    let line = format!("Stripe {number} is not clean: {}\n", names.join(", "));
    let names = names.into_iter().map(Value::Text).collect();
    Ok((Some(line), Some(("sets", Value::List(names)))))
}

/// `scrub`: a verdict.
fn disks_of(shape: Shape, _: u64, stripe: &[u8]) -> Result<Told, Refusal> {
    Ok(match shape.scrub(stripe)? {
        Scrub::Clean => (Some("clean\n".into()), None),
        Scrub::OneDisk(disk) => (Some(format!("{disk}\n")), Some(("disks", (&[disk][..]).into()))),
        Scrub::MoreThanOne => (Some("more\n".into()), Some(("disks", (&[][..]).into()))),
    })
}
