//! `check` of a store: every disk, every file.

use cuzhaveli_images::fault::Fault;
use cuzhaveli_images::names::disk_names;
use cuzhaveli_images::os::stop;
use cuzhaveli_images::read::examine::Findings;
use cuzhaveli_images::read::set::Set;
use cuzhaveli_images::store::board::settled;
use cuzhaveli_images::store::check::{check, DiskFlaw, Inspector, StoreChecked};
use cuzhaveli_images::store::opened::Store;

use crate::cli::args::Given;
use crate::commands::report::Report;
use crate::print::say;
use crate::print::watcher::Watcher;

pub fn run(given: &Given) -> Result<(), Fault> {
    given.only_for("a set", &["--from"])?;
    let pace = given.pace()?; // refused before anything is told
    let store = settled(given.path(0))?;
    say::warn_all(&store.notes());
    let mut report = Report::new(store.numbers().shape, given.flag("--json"));
    stop::says("nothing was written; check it again");
    let checked = check(&store, &pace, &mut report, &mut Watcher::new(given.flag("-q")))?;
    (report.stripes, report.read) = (checked.stripes, checked.read);
    let (lost, stale, missing) = (checked.away.len(), checked.stale, checked.missing);
    report.end(&format!("{lost} lost, {stale} stale, {missing} missing, "))?;
    what_to_do(&store, &checked, &report)
}

impl Inspector for Report {
    fn disk(&mut self, disk: usize, flaw: DiskFlaw) -> Result<(), Fault> {
        let (what, text, field) = match flaw {
            DiskFlaw::Lost => ("lost", "is lost: it is not there", ("why", "missing".into())),
            DiskFlaw::Stale(number) => ("stale", "is stale", ("generation", number.into())),
            DiskFlaw::Ahead(number) => {
                ("ahead", "has a change that was cut off", ("generation", number.into()))
            }
        };
        let text = format!("{} {text}", self.name(disk));
        self.tell(what, vec![("disk", disk.into()), field], text)
    }

    fn file(&mut self, name: String) {
        self.file = Some(name);
    }

    fn gone(&mut self) -> Result<(), Fault> {
        self.beyond += 1;
        self.tell("gone", Vec::new(), "too much of it is lost".into())
    }

    fn missing(&mut self, disk: usize) -> Result<(), Fault> {
        let text = format!("{} lacks its image", self.name(disk));
        self.tell("missing", vec![("disk", disk.into())], text)
    }

    fn images(&mut self, set: &Set, cached: &[usize]) -> Result<(), Fault> {
        self.cached(cached);
        self.labels(set)
    }

    fn batch(&mut self, found: &mut Findings) -> Result<(), Fault> {
        self.found(found)
    }
}

/// Ends with what is to be done.
fn what_to_do(store: &Store, checked: &StoreChecked, report: &Report) -> Result<(), Fault> {
    let away = &checked.away;
    let folder = store.folder.display();
    if report.beyond > 0 {
        return Err(Fault::Beyond(format!(
            "{folder}: film that cannot be made right; put back disks that are somewhere else, or read what is left: \
             cuzhaveli get {folder} PACKAGE TO, or through cuzhaveli mount"
        )));
    }
    let mut todo = Vec::new();
    if report.bad > 0 {
        todo.push(format!("repair what is bad: cuzhaveli repair {folder}"));
    }
    if !away.is_empty() {
        let new: String = away.iter().map(|disk| format!(" --new {disk}")).collect();
        todo.push(format!(
            "mount {}, or put new ones there: cuzhaveli rebuild{new} {folder}",
            disk_names(store.numbers().shape, away)
        ));
    }
    if checked.missing > 0 || !store.is_settled() {
        todo.push(format!("bring the disks up to date: cuzhaveli rebuild {folder}"));
    }
    if report.dirty > 0 {
        todo.push("the parity was wrong when a film was put: get it, compare it with its source, put it anew".into());
    }
    match todo.is_empty() {
        true => Ok(()),
        false => Err(Fault::No(todo.join("; then "))),
    }
}
