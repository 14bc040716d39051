//! A package of a store to a new folder, or one file of it to its target.

use std::collections::BTreeSet;
use std::fs;
use std::io::ErrorKind;
use std::path::{Path, PathBuf};
use std::sync::Arc;

use super::catalogue::{Entry, Package};
use super::opened::Store;
use crate::fault::Fault;
use crate::names::count;
use crate::os::folder::{folder_of, part_path, sync_folder};
use crate::os::{stop, sys};
use crate::read::whole_film::Decoded;
use crate::watch::Watch;
use crate::write::deliver::{deliver, Target};
use crate::write::output::{taken, Output};

/// Gives one file of a package.
pub fn get_file(
    store: &Store,
    package: &Package,
    file: &Entry,
    target: Target,
    watch: &mut dyn Watch,
) -> Result<Decoded, Fault> {
    one(store, package, file, target, watch)
        .map_err(|fault| changed_meanwhile(store, package).unwrap_or(fault))
}

/// Gives all files of a package to a new folder, which gets its name once they are whole.
pub fn get(
    store: &Store,
    package: &Package,
    to: &Path,
    watch: &mut dyn Watch,
) -> Result<Decoded, Fault> {
    all(store, package, to, watch)
        .map_err(|fault| changed_meanwhile(store, package).unwrap_or(fault))
}

/// What is said of a package that was replaced or removed while it was read.
fn changed_meanwhile(store: &Store, package: &Package) -> Option<Fault> {
    let now = Store::open(&store.folder).ok()?;
    (now.catalogue.package(&package.name) != Some(package)).then(|| {
        let (folder, name) = (store.folder.display(), package.name.as_str());
        Fault::Failed(format!("{folder}: {name} was changed while it was read; get it again"))
    })
}

fn one(
    store: &Store,
    package: &Package,
    file: &Entry,
    mut target: Target,
    watch: &mut dyn Watch,
) -> Result<Decoded, Fault> {
    let set = match store.set(package, file) {
        Ok(set) => set.map(Arc::new),
        Err(fault) => {
            discard(target);
            return Err(fault);
        }
    };
    if let Some(set) = set {
        set.notes().iter().for_each(|note| watch.warn(note));
        return deliver(&set, target, &format!("get {}", file.name.as_str()), watch);
    }
    if let Err(fault) = target.finish(0, 0) {
        discard(target);
        return Err(fault);
    }
    Ok(Decoded { read: 0, mended: 0 })
}

/// Takes away a file that was begun and has nothing in it.
fn discard(target: Target) {
    if let Target::Output(output) = target {
        output.discard();
    }
}

fn all(
    store: &Store,
    package: &Package,
    to: &Path,
    watch: &mut dyn Watch,
) -> Result<Decoded, Fault> {
    if to.symlink_metadata().is_ok() {
        return Err(taken(to));
    }
    let part = part_path(to);
    match fs::create_dir(&part) {
        Err(error) if error.kind() == ErrorKind::AlreadyExists => return Err(taken(&part)),
        made => made.map_err(|error| Fault::path(&part, error))?,
    }
    let shown = part.display();
    stop::says(&format!("the package is not whole: remove {shown}, and get it again"));
    match fill(store, package, &part, watch) {
        Ok(decoded) => {
            sys::rename_new(&part, to).map_err(|error| Fault::path(to, error))?;
            sync_folder(folder_of(to))?;
            Ok(decoded)
        }
        Err(Fault::Beyond(what)) => Err(Fault::Beyond(what)),
        Err(fault) => {
            let _ = fs::remove_dir_all(&part); // made just now, and nothing else is in it
            Err(fault)
        }
    }
}

/// Writes all files below a folder; those that cannot be made right are told, and the rest goes on.
/// Of a file of which more than two disks are lost nothing is kept.
fn fill(
    store: &Store,
    package: &Package,
    part: &Path,
    watch: &mut dyn Watch,
) -> Result<Decoded, Fault> {
    let mut decoded = Decoded { read: 0, mended: 0 };
    let mut folders = BTreeSet::from([part.to_path_buf()]);
    let (mut beyond, mut gone) = (Vec::new(), 0);
    for file in &package.files {
        let path = part.join(file.name.path());
        make_above(part, &path, &mut folders)?;
        let target = Target::Output(Output::create_named(&path)?);
        match one(store, package, file, target, watch) {
            Ok(one) => {
                decoded.read += one.read;
                decoded.mended += one.mended;
            }
            Err(Fault::Beyond(what)) => beyond.push(what),
            Err(Fault::Images(what)) => {
                watch.warn(&what);
                gone += 1;
            }
            Err(fault) => return Err(fault),
        }
    }
    is_whole(store, package, part, beyond, gone)?;
    folders.iter().try_for_each(|folder| sync_folder(folder))?;
    Ok(decoded)
}

/// Refuses a package of which files have gaps or are gone.
fn is_whole(
    store: &Store,
    package: &Package,
    part: &Path,
    mut beyond: Vec<String>,
    gone: usize,
) -> Result<(), Fault> {
    if gone == package.files.len() && gone > 0 {
        return Err(Fault::Images(what_is_left(store)));
    }
    if gone > 0 {
        beyond.push(format!("{} left out: {}", count(gone as u64, "file"), what_is_left(store)));
    }
    if beyond.is_empty() {
        return Ok(());
    }
    let (what, shown) = (beyond.join("; "), part.display());
    Err(Fault::Beyond(format!("{what}; {shown} has the rest")))
}

/// How what is left of files is read of which too much is lost.
fn what_is_left(store: &Store) -> String {
    let folder = store.folder.display();
    format!(
        "too many disks are lost; put them back, or read what is left through a mount: \
         cuzhaveli mount {folder} POINT"
    )
}

/// Makes the folders between a folder and a path below it.
fn make_above(part: &Path, path: &Path, folders: &mut BTreeSet<PathBuf>) -> Result<(), Fault> {
    let above: Vec<&Path> = path.ancestors().skip(1).take_while(|one| *one != part).collect();
    for folder in above.into_iter().rev() {
        if folders.insert(folder.into()) {
            fs::create_dir(folder).map_err(|error| Fault::path(folder, error))?;
        }
    }
    Ok(())
}
