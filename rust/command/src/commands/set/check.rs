//! `check` of a bare set: every byte of its images.

use std::sync::Arc;

use cuzhaveli_images::fault::Fault;
use cuzhaveli_images::names::disk_names;
use cuzhaveli_images::os::pace::Pace;
use cuzhaveli_images::os::stop;
use cuzhaveli_images::read::examine::examine;
use cuzhaveli_images::read::set::Set;

use crate::cli::args::Given;
use crate::cli::values::usage;
use crate::commands::report::Report;
use crate::print::progress::Progress;
use crate::print::say;

pub fn run(given: &Given) -> Result<(), Fault> {
    let from = given.number("--from")?.unwrap_or(0);
    let mut set = Set::open(given.path(0), &[])?;
    say::notes(&set);
    let mut report = Report::new(set.label.geometry.shape, given.flag("--json"));
    report.lost(&set)?;
    let geometry = set.label.geometry;
    if from > 0 && from >= geometry.stripes {
        let stripes = geometry.stripes;
        return Err(usage(format!("--from {from}: the set has {stripes} stripes, counted from 0")));
    }
    let first = from / geometry.unit;
    let folder = set.folder().display().to_string();
    stop::at(first * geometry.unit);
    stop::says_where(&format!("to go on: cuzhaveli check --from # {folder}"));
    let pace = given.pace()?;
    report.cached(&set.go_direct());
    report.labels(&set)?;
    let set = Arc::new(set);
    examine_set(&set, first, pace, given.flag("-q"), &mut report)?;
    report.end(&format!("{} lost, ", set.lost().len()))?;
    what_to_do(&set, &report)
}

/// Checks the images of a set from a unit on.
fn examine_set(
    set: &Arc<Set>,
    first: u64,
    pace: Pace,
    quiet: bool,
    report: &mut Report,
) -> Result<(), Fault> {
    let geometry = set.label.geometry;
    let each = geometry.shape.stripe_len() as u64;
    let begun = geometry.stripes - (first * geometry.unit).min(geometry.stripes);
    let mut progress = Progress::new("check".into(), Some(each * begun), quiet);
    report.read += examine(set, first, pace, |mut found| {
        report.found(&mut found)?;
        let next = found.batch.first + found.batch.count as u64;
        stop::at(next);
        progress.note(format!("; to go on from here: --from {next}"));
        progress.add(found.batch.count as u64 * each);
        Ok(())
    })?;
    report.stripes += begun;
    Ok(())
}

/// Ends with what is to be done.
fn what_to_do(set: &Set, report: &Report) -> Result<(), Fault> {
    let (folder, lost) = (set.folder().display(), set.lost());
    if report.beyond > 0 {
        return Err(Fault::Beyond(format!(
            "{folder}: film that cannot be made right; put back images that are somewhere else, or save the rest: \
             cuzhaveli decode {folder} FILM"
        )));
    }
    let mut todo = Vec::new();
    if report.bad > 0 {
        todo.push(format!("repair what is bad: cuzhaveli repair {folder}"));
    }
    if !lost.is_empty() {
        let disks = disk_names(set.label.geometry.shape, &lost);
        todo.push(format!("rebuild {disks}: cuzhaveli rebuild {folder}"));
    }
    if report.dirty > 0 {
        todo.push(format!(
            "the parity was wrong when the film was encoded: cuzhaveli decode {folder} FILM, compare it with its \
             source, encode it anew"
        ));
    }
    match todo.is_empty() {
        true => Ok(()),
        false => Err(Fault::No(todo.join("; then "))),
    }
}
