//! A package out of a store.

use super::change::{Change, Changed};
use super::name::Name;
use super::opened::Store;
use crate::fault::Fault;

/// A package that was removed.
pub struct Removed {
    pub files: usize,
    pub length: u64,
    pub changed: Changed,
}

/// Removes a package of a store that is locked.
pub fn remove(store: &Store, name: &Name) -> Result<Removed, Fault> {
    let package = store.package(name)?;
    let (files, length) = (package.files.len(), package.length());
    let changed = Change::begin(store)?.commit(store.catalogue.without(name))?;
    Ok(Removed { files, length, changed })
}
