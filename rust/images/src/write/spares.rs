//! The images that a rebuild of a set writes: files or drives that may be written, all tested first.

use crate::fault::Fault;
use crate::os::drives::{apart, drive_at, Overwrite};
use crate::read::set::{Absence, Set};
use crate::write::output::Output;
use crate::write::spare::Spare;

/// The images to be written, gone on with or begun. All are tested before the first is written.
pub fn make_spares(set: &Set, lost: &[usize], named: &Overwrite) -> Result<Vec<Spare>, Fault> {
    strangers(set, lost)?;
    let label = &set.label;
    let ours = |disk: usize| [label.mark(disk), label.block(disk)];
    let is_drive = |disk: &usize| drive_at(&set.path(*disk)).is_some();
    let (drives, files): (Vec<usize>, Vec<usize>) = lost.iter().partition(|disk| is_drive(disk));
    let mut spares: Vec<Spare> = Vec::new();
    for disk in drives {
        let mut output = Output::drive(&set.path(disk), named, &ours(disk))?;
        output.set_len(label.geometry.image_bytes())?;
        spares.push(Spare::drive(output, label, disk)?);
    }
    for (number, spare) in spares.iter().enumerate() {
        let Some(drive) = spare.output.drive else { continue };
        let written = spares[..number].iter().map(|spare| &spare.output);
        let written = written.filter_map(|output| Some((output.path(), output.drive?)));
        apart(spare.output.path(), drive, &written.chain(set.drives()).collect::<Vec<_>>())?;
    }
    for disk in &files {
        Output::begun(&set.path(*disk), &ours(*disk))?;
    }
    for disk in files {
        spares.push(Spare::file(&set.path(disk), label, disk)?);
    }
    spares.iter_mut().try_for_each(|spare| spare.mark(label))?;
    Ok(spares)
}

/// What stands in a lost disk's place is not overwritten unless that disk is named; drives have
/// their own rule.
fn strangers(set: &Set, lost: &[usize]) -> Result<(), Fault> {
    let (mut told, mut options) = (Vec::new(), String::new());
    for disk in lost {
        match set.absence(*disk) {
            Some(Absence::Foreign(what)) if drive_at(&set.path(*disk)).is_none() => {
                told.push(format!("{} {what}", set.path(*disk).display()));
            }
            Some(Absence::Named) => {}
            _ => continue,
        }
        options += &format!("--disk {disk} ");
    }
    if told.is_empty() {
        return Ok(());
    }
    Err(Fault::Images(format!(
        "{}; put the right images there, or let these be replaced: cuzhaveli rebuild {options}{}",
        told.join("; "),
        set.folder().display()
    )))
}
