//! Which store the disks in the places are of, and the catalogue that counts.

use std::path::Path;
use std::rc::Rc;

use super::catalogue::{Catalogue, Numbers};
use super::place::{Disk, Places, Seen, There};
use super::quorum::Quorum;
use crate::fault::Fault;
use crate::layout::label::hex;
use crate::layout::sums::SetName;
use crate::names::disk_names;
use crate::os::files::can_open;

/// The numbers of a store that cannot be opened, and the disks that are not there, if any catalogue
/// is.
pub fn glance(folder: &Path) -> Result<Option<(Numbers, Vec<usize>)>, Fault> {
    let places = Places::open(folder);
    let seen = places.look();
    can_open(folder)?;
    let Some(copy) = seen.iter().enumerate().find_map(in_place) else { return Ok(None) };
    let numbers = copy.numbers;
    let ours =
        |disk: &usize| in_place((*disk, &seen[*disk])).is_some_and(|copy| copy.numbers == numbers);
    let lost = (0..numbers.shape.disks() + 2).filter(|disk| !ours(disk)).collect();
    Ok(Some((numbers, lost)))
}

/// No promise is further ahead of the change that counts: every change that is cut off adds one.
const FAR: u64 = 1 << 32;

/// The promises and generations of a store.
pub(super) fn promised(store: &SetName, seen: &[Seen]) -> Vec<u64> {
    let of = |seen: &Seen| match seen {
        Seen::Disk(_, file, copy) if file.store == *store => {
            Some(file.promise.max(copy.as_ref().map_or(0, |copy| copy.generation)))
        }
        _ => None,
    };
    seen.iter().filter_map(of).collect()
}

/// Puts disks aside whose promise or generation no change of the store made: taken for one, it would
/// leave no number for a change. Gives the largest of the others.
pub(super) fn put_aside(disks: &mut [Disk], counts: u64, promised: &[u64]) -> u64 {
    let far = |number: u64| number.saturating_sub(counts) > FAR;
    for disk in disks {
        let Disk::There(there) = disk else { continue };
        let number = there.promise.max(there.copy.as_ref().map_or(0, |copy| copy.generation));
        if far(number) {
            *disk = Disk::Away(format!(
                "has the promise or generation {number}, which no change of this store made, and {counts} counts; \
                 empty it, and rebuild it as a new disk"
            ));
        }
    }
    promised.iter().copied().filter(|number| !far(*number)).max().unwrap_or(0)
}

/// The numbers of the one store of which enough disks are in their places.
pub(super) fn numbers(folder: &Path, seen: &[Seen]) -> Result<Numbers, Fault> {
    let copies: Vec<&Catalogue> = seen.iter().enumerate().filter_map(in_place).collect();
    let mut candidates: Vec<Numbers> = Vec::new();
    for copy in &copies {
        if !candidates.contains(&copy.numbers) {
            candidates.push(copy.numbers);
        }
    }
    let count = |one: &Numbers| copies.iter().filter(|copy| copy.numbers == *one).count();
    let enough: Vec<&Numbers> = candidates
        .iter()
        .filter(|one| count(one) >= Quorum::of(one.shape.disks()).to_read())
        .collect();
    match enough[..] {
        [one] => Ok(*one),
        [] => Err(too_few(folder, seen, candidates.iter().max_by_key(|one| count(one)))),
        _ => Err(Fault::Images(format!(
            "{}: disks of two stores; put those of one somewhere else",
            folder.display()
        ))),
    }
}

/// The whole catalogue of a disk that stands in its place.
fn in_place((disk, seen): (usize, &Seen)) -> Option<&Catalogue> {
    match seen {
        Seen::Disk(_, file, Some(copy))
            if file.disk == disk && disk < copy.numbers.shape.disks() + 2 =>
        {
            Some(copy)
        }
        _ => None,
    }
}

/// What a place is in the store.
pub(super) fn settle(numbers: &Numbers, disk: usize, seen: Seen) -> Disk {
    match seen {
        Seen::Nothing(what) | Seen::Unnamed(what) => Disk::Away(what),
        Seen::Disk(_, file, _) if file.store != numbers.store => {
            Disk::Away(format!("is a disk of store {}, not of this one", hex(&file.store)))
        }
        Seen::Disk(_, file, _) if file.disk != disk => {
            Disk::Away(format!("is disk {} of this store, in another place", file.disk))
        }
        Seen::Disk(folder, file, copy) => {
            let copy = copy.filter(|copy| copy.numbers == *numbers);
            Disk::There(There { folder, promise: file.promise, copy })
        }
    }
}

/// The catalogue that counts.
pub(super) fn counting(
    folder: &Path,
    numbers: &Numbers,
    disks: &[Disk],
) -> Result<Rc<Catalogue>, Fault> {
    let copy = |disk: &Disk| match disk {
        Disk::There(there) => there.copy.clone(),
        Disk::Away(_) => None,
    };
    let copies: Vec<Rc<Catalogue>> = disks.iter().filter_map(copy).collect();
    let generations: Vec<u64> = copies.iter().map(|copy| copy.generation).collect();
    let generation = Quorum::of(numbers.shape.disks()).counts(&generations);
    let mut same = copies.iter().filter(|copy| Some(copy.generation) == generation);
    let Some(one) = same.next() else {
        return Err(too_few(folder, &[], Some(numbers)));
    };
    if same.any(|other| other != one) {
        return Err(Fault::Images(format!(
            "{}: two different catalogues of generation {}; take away the disks that are not of this store's course",
            folder.display(),
            one.generation
        )));
    }
    Ok(one.clone())
}

/// Why no store can be opened.
fn too_few(folder: &Path, seen: &[Seen], best: Option<&Numbers>) -> Fault {
    let shown = folder.display();
    let Some(numbers) = best else {
        return Fault::Images(format!(
            "{shown}: no disk-NN with the files of a store; mount its disks there, or make one: cuzhaveli create"
        ));
    };
    let disks = numbers.shape.disks() + 2;
    let has = |disk: &usize| seen.get(*disk).and_then(|seen| in_place((*disk, seen))).is_some();
    let lost: Vec<usize> = (0..disks).filter(|disk| !has(disk)).collect();
    Fault::Images(format!(
        "{shown}: {} are not there or have no whole catalogue, and {} of the {disks} disks must; mount them, or \
         put them in their places",
        disk_names(numbers.shape, &lost),
        Quorum::of(numbers.shape.disks()).to_read()
    ))
}
