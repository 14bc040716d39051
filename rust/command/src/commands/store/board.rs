//! `board`: how many stores can bear two more losses, one more, none, or are past saving.

use std::ffi::{OsStr, OsString};
use std::os::unix::ffi::OsStrExt;
use std::path::Path;

use cuzhaveli::Totals;
use cuzhaveli_images::fault::Fault;
use cuzhaveli_images::names::{count, disk_names};
use cuzhaveli_images::store::board::{standing, totals, word, Standing};
use cuzhaveli_images::store::replace::read;

use crate::cli::args::Given;
use crate::cli::table::{Command, Kind, Opt, Use};
use crate::cli::values::usage;
use crate::cli::words::{JSON, STORES};
use crate::print::json::Object;
use crate::print::say;

pub const COMMAND: Command = Command {
    name: "board",
    brief: "which stores can bear two more losses, one more, none, or are past saving",
    about: &[
        "Tells of each store which disks are lost, stale or lack images, and how many stores are optimal, degraded (one \
         disk), critical (two) or failed (more). The status is for monitoring: 0 all are optimal, 1 some are degraded or \
         critical, 5 some have failed or are unknown: no disk of them is there.",
    ],
    words: &[
        Use::May(&Use::Opt(&JSON)),
        Use::One(&[
            Use::Opt(&Opt {
                name: "--list",
                value: Some(("FILE", Kind::File)),
                about: "a file with a store a line; lines that begin with # are passed over",
            }),
            STORES,
        ]),
    ],
    tells: &[
        (
            "stores",
            "the stores, each with store, state (optimal, degraded, critical, failed, unknown) and \
             lost, its disks",
        ),
        ("optimal", "the stores that can bear two more losses"),
        ("degraded", "those that can bear one more"),
        ("critical", "those that can bear none"),
        ("failed", "those past saving, unless disks come back"),
        ("unknown", "those of which no disk is there"),
    ],
};

/// No list has more bytes.
const MOST_LIST: u64 = 1 << 20;

pub fn run(given: &Given) -> Result<(), Fault> {
    let stores = match (given.value("--list"), given.operands.is_empty()) {
        (Some(list), true) => listed(Path::new(list))?,
        (None, false) => given.operands.clone(),
        _ => return Err(usage("give --list or stores, one of the two".into())),
    };
    if stores.is_empty() {
        return Err(usage("--list: the file names no store; give a store a line".into()));
    }
    let found: Vec<Option<Standing>> =
        stores.iter().map(|store| standing(Path::new(store))).collect::<Result<_, _>>()?;
    let known: Vec<&Standing> = found.iter().flatten().collect();
    let totals = match known.is_empty() {
        true => Totals { optimal: 0, degraded: 0, critical: 0, failed: 0 },
        false => totals(&known)?,
    };
    let unknown = found.len() - known.len();
    let told = told(&stores, &found, &totals, unknown);
    say::told(given, told.0, told.1)?;
    match (totals.failed as usize + unknown, totals.degraded + totals.critical) {
        _ if known.is_empty() => {
            Err(Fault::Images("none of these is a store of which a disk is there".into()))
        }
        (0, 0) => Ok(()),
        (0, _) => Err(Fault::No(
            "rebuild: cuzhaveli rebuild STORE, for a new, empty disk with --new DISK".into(),
        )),
        _ => Err(Fault::Images("stores past saving, unless disks come back: mount them".into())),
    }
}

fn told(
    stores: &[OsString],
    found: &[Option<Standing>],
    totals: &Totals,
    unknown: usize,
) -> (Object, String) {
    let (mut objects, mut text) = (Vec::new(), String::new());
    for (store, found) in stores.iter().zip(found) {
        let (object, line) = told_of(&store.display().to_string(), found.as_ref());
        objects.push(object);
        text += &line;
    }
    let Totals { optimal, degraded, critical, failed } = *totals;
    let [optimal, degraded, critical, failed] =
        [optimal, degraded, critical, failed].map(u64::from);
    text += &format!(
        "{}: {optimal} optimal, {degraded} degraded, {critical} critical, {failed} failed, {unknown} unknown",
        count(stores.len() as u64, "store")
    );
    let object = Object(vec![
        ("stores", objects.into_iter().collect()),
        ("optimal", optimal.into()),
        ("degraded", degraded.into()),
        ("critical", critical.into()),
        ("failed", failed.into()),
        ("unknown", unknown.into()),
    ]);
    (object, text)
}

/// What is told of one store.
fn told_of(store: &str, found: Option<&Standing>) -> (Object, String) {
    let (state, lost, shape) = match found {
        Some(one) => (word(one.lost.len()), &one.lost[..], Some(one.numbers.shape)),
        None => ("unknown", &[][..], None),
    };
    let line = match (shape, lost) {
        (_, []) => format!("{store}: {state}\n"),
        (Some(shape), lost) => format!("{store}: {state}, {}\n", disk_names(shape, lost)),
        _ => String::new(),
    };
    let object =
        Object(vec![("store", store.into()), ("state", state.into()), ("lost", lost.into())]);
    (object, line)
}

/// The lines of a file that lists stores; empty ones and those that begin with # are passed over.
fn listed(path: &Path) -> Result<Vec<OsString>, Fault> {
    let text = read(path, MOST_LIST).map_err(|error| Fault::path(path, error))?;
    let lines = text.split(|byte| *byte == b'\n');
    let lines = lines.filter(|line| !line.is_empty() && !line.starts_with(b"#"));
    Ok(lines.map(|line| OsStr::from_bytes(line).to_os_string()).collect())
}
