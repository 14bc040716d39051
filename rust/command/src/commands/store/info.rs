//! `info` of a store: its numbers, and a picture of its disks.

use std::fs;

use cuzhaveli_images::fault::Fault;
use cuzhaveli_images::layout::label::{hex, Label};
use cuzhaveli_images::names::{bytes, disk_name, disk_names};
use cuzhaveli_images::os::sys;
use cuzhaveli_images::store::board::beside_changes;
use cuzhaveli_images::store::opened::Store;
use cuzhaveli_images::store::place::Disk;

use crate::cli::args::Given;
use crate::print::json::Object;
use crate::print::say;

const CELLS: u64 = 20;

/// What a disk has.
struct DiskState {
    disk: usize,
    /// Why it is not there.
    away: Option<String>,
    stale: bool,
    /// Images that it lacks.
    lacks: usize,
    used: u64,
    free: u64,
}

pub fn run(given: &Given) -> Result<(), Fault> {
    let (store, lost) = beside_changes(given.path(0))?;
    say::warn_all(&store.notes());
    let states: Vec<DiskState> =
        (0..store.disks.len()).map(|disk| state(&store, disk)).collect::<Result<_, _>>()?;
    say::told(given, object(&store, &lost, &states), text(&store, &lost, &states))?;
    match lost.is_empty() {
        true => Ok(()),
        false => Err(Fault::No(String::new())),
    }
}

fn state(store: &Store, disk: usize) -> Result<DiskState, Fault> {
    let there = match &store.disks[disk] {
        Disk::There(there) => there,
        Disk::Away(what) => {
            let away = Some(what.to_string());
            return Ok(DiskState { disk, away, stale: false, lacks: 0, used: 0, free: 0 });
        }
    };
    let path = &there.folder.path;
    let free = sys::room(path).map_err(|error| Fault::path(path, error))?.bytes;
    let length = |set| fs::metadata(store.image_path(disk, &set)).map_or(0, |data| data.len());
    let used = store.catalogue.sets().map(length).sum();
    let labels = store.catalogue.files().filter_map(|(_, file)| file.label(store.numbers()));
    let lacks = labels.filter(|label: &Label| !store.has_image(disk, label)).count();
    Ok(DiskState { disk, away: None, stale: store.stale().contains(&disk), lacks, used, free })
}

impl DiskState {
    fn word(&self) -> &'static str {
        match (&self.away, self.stale, self.lacks) {
            (Some(_), ..) => "lost",
            (None, true, _) => "stale",
            (None, false, 0) => "whole",
            _ => "lacking",
        }
    }

    fn object(&self) -> Object {
        Object(vec![
            ("disk", self.disk.into()),
            ("state", self.word().into()),
            ("lacks", self.lacks.into()),
            ("used", self.used.into()),
            ("free", self.free.into()),
        ])
    }

    /// A line of the picture: what a disk has, and its bytes used and free.
    fn line(&self, name: &str) -> String {
        let DiskState { used, free, lacks, .. } = self;
        if let Some(what) = &self.away {
            return format!("  disk {name:>2}  {:22}  {}", "", say::bad(&format!("lost: {what}")));
        }
        let full = u128::from(*used) * u128::from(CELLS);
        let full = full.div_ceil((u128::from(*used) + u128::from(*free)).max(1));
        let bar = format!("{:.<20}", "#".repeat((full as usize).min(CELLS as usize)));
        let state = match (self.stale, lacks) {
            (false, 0) => say::good("whole"),
            (true, 0) => say::bad("stale"),
            (false, _) => say::bad(&format!("lacks {lacks}")),
            (true, _) => say::bad(&format!("stale, lacks {lacks}")),
        };
        format!("  disk {name:>2}  [{bar}]  {state}, {} used, {} free", bytes(*used), bytes(*free))
    }
}

fn length(store: &Store) -> u64 {
    store.catalogue.packages.iter().map(|package| package.length()).sum()
}

fn object(store: &Store, lost: &[usize], states: &[DiskState]) -> Object {
    let (numbers, catalogue) = (store.numbers(), &store.catalogue);
    Object(vec![
        ("store", (&*hex(&numbers.store)).into()),
        ("generation", catalogue.generation.into()),
        ("width", numbers.shape.width().into()),
        ("disks", numbers.shape.disks().into()),
        ("cell", numbers.shape.cell_size().into()),
        ("unit", numbers.unit.into()),
        ("group", numbers.group.into()),
        ("separate", numbers.separate.into()),
        ("packages", catalogue.packages.len().into()),
        ("files", catalogue.files().count().into()),
        ("length", length(store).into()),
        ("lost", lost.into()),
        ("each", states.iter().map(DiskState::object).collect()),
    ])
}

fn text(store: &Store, lost: &[usize], states: &[DiskState]) -> String {
    let (numbers, catalogue) = (store.numbers(), &store.catalogue);
    let (shape, film) = (numbers.shape, length(store));
    let apart = if numbers.separate { "each on its own device" } else { "which may share devices" };
    let lost = match lost.is_empty() {
        true => say::good("none"),
        false => say::bad(&disk_names(shape, lost)),
    };
    let mut lines = vec![
        format!("Store     {}, generation {}", hex(&numbers.store), catalogue.generation),
        format!("Disks     {} with film, P and Q, {apart}; width {}", shape.disks(), shape.width()),
        format!(
            "Cells     {}, {} stripes a unit, {} a group",
            bytes(shape.cell_size() as u64),
            numbers.unit,
            numbers.group
        ),
        format!("Packages  {}", catalogue.packages.len()),
        format!("Files     {}, {} ({film})", catalogue.files().count(), bytes(film)),
        format!("Lost      {lost}"),
        String::new(),
    ];
    lines.extend(states.iter().map(|state| state.line(&disk_name(shape, state.disk))));
    lines.join("\n")
}
