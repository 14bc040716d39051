//! The calls for C on stores as folders and files.

use std::ffi::{c_char, c_int, c_void, CString};

use cuzhaveli_images::fault::Fault;

use crate::c::{bytes, cache, call, handle, none, path};
use crate::film::Film;
use crate::tree::{About, Tree};

/// `struct cuzhaveli_play_about`.
#[repr(C)]
pub struct CAbout {
    number: u64,
    length: u64,
    is_folder: c_int,
}

impl From<About> for CAbout {
    fn from(about: About) -> CAbout {
        let is_folder = c_int::from(about.is_folder);
        CAbout { number: about.number, length: about.length, is_folder }
    }
}

/// Takes one name of a folder; another answer than 0 ends it.
pub type Each =
    extern "C" fn(context: *mut c_void, name: *const c_char, about: *const CAbout) -> c_int;

/// # Safety
/// `tree` is null, or of cuzhaveli_play_tree and not closed.
unsafe fn of<'a>(tree: *const Tree) -> Result<&'a Tree, Fault> {
    unsafe { tree.as_ref() }.ok_or_else(|| none("tree"))
}

/// # Safety
/// As cuzhaveli_play.h says.
#[no_mangle]
pub unsafe extern "C" fn cuzhaveli_play_tree(folder: *const c_char, tree: *mut *mut Tree) -> c_int {
    call(|| {
        let folder = unsafe { bytes(folder) }.ok_or_else(|| none("folder"))?;
        let opened = Box::new(Tree::open(path(folder), cache())?);
        if tree.is_null() {
            return Err(none("place for the tree"));
        }
        // Sound: not null, and the caller says that a pointer can be written there.
        unsafe { tree.write(Box::into_raw(opened)) };
        Ok(())
    })
}

/// # Safety
/// As cuzhaveli_play.h says.
#[no_mangle]
pub unsafe extern "C" fn cuzhaveli_play_find(
    tree: *const Tree,
    folder: u64,
    name: *const c_char,
    about: *mut CAbout,
) -> c_int {
    call(|| {
        let name = unsafe { bytes(name) }.ok_or_else(|| none("name"))?;
        let found = unsafe { of(tree) }?.find(folder, name)?;
        unsafe { give(found, about) }
    })
}

/// # Safety
/// As cuzhaveli_play.h says.
#[no_mangle]
pub unsafe extern "C" fn cuzhaveli_play_about(
    tree: *const Tree,
    number: u64,
    about: *mut CAbout,
) -> c_int {
    call(|| {
        let found = unsafe { of(tree) }?.about(number)?;
        unsafe { give(found, about) }
    })
}

/// # Safety
/// `about` is null, or can be written.
unsafe fn give(found: About, about: *mut CAbout) -> Result<(), Fault> {
    if about.is_null() {
        return Err(none("place for the answer"));
    }
    unsafe { about.write(found.into()) };
    Ok(())
}

/// # Safety
/// As cuzhaveli_play.h says.
#[no_mangle]
pub unsafe extern "C" fn cuzhaveli_play_names(
    tree: *const Tree,
    folder: u64,
    each: Option<Each>,
    context: *mut c_void,
) -> c_int {
    call(|| {
        let each = each.ok_or_else(|| none("function"))?;
        for (name, about) in unsafe { of(tree) }?.names(folder)? {
            let name = CString::new(name).unwrap_or_default();
            if each(context, name.as_ptr(), &about.into()) != 0 {
                break;
            }
        }
        Ok(())
    })
}

/// # Safety
/// As cuzhaveli_play.h says.
#[no_mangle]
pub unsafe extern "C" fn cuzhaveli_play_film(
    tree: *const Tree,
    number: u64,
    film: *mut *mut Film,
) -> c_int {
    call(|| {
        let opened = unsafe { of(tree) }?.film(number)?;
        if film.is_null() {
            return Err(none("place for the film"));
        }
        // Sound: not null, and the caller says that a pointer can be written there.
        unsafe { film.write(handle(opened)) };
        Ok(())
    })
}

/// # Safety
/// As cuzhaveli_play.h says.
#[no_mangle]
pub unsafe extern "C" fn cuzhaveli_play_end(tree: *mut Tree) {
    if !tree.is_null() {
        // Sound: of cuzhaveli_play_tree, and the caller does not use it again.
        call(|| {
            drop(unsafe { Box::from_raw(tree) });
            Ok(())
        });
    }
}
