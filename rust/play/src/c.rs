//! The calls for C. No panic leaves them, and none of them keeps a pointer of the caller.

use std::cell::RefCell;
use std::ffi::{c_char, c_int, c_void, CStr, CString, OsStr};
use std::os::unix::ffi::OsStrExt;
use std::panic::{catch_unwind, AssertUnwindSafe};
use std::path::Path;
use std::sync::{Arc, OnceLock};
use std::time::Duration;

use cuzhaveli_images::fault::Fault;

use crate::cache::{Cache, LIMIT};
use crate::film::Film;
use crate::{drives, open, report};

/// Numbers of errors as Linux has them.
const NO_ENTRY: c_int = 2;
const INPUT_OUTPUT: c_int = 5;
const INVALID: c_int = 22;

thread_local! {
    static WHY: RefCell<CString> = RefCell::default();
}

static CACHE: OnceLock<Arc<Cache>> = OnceLock::new();

/// The units in memory, of the usual limit if none was given before.
pub(crate) fn cache() -> Arc<Cache> {
    CACHE.get_or_init(|| Arc::new(Cache::new(LIMIT))).clone()
}

fn keep(why: &str) {
    let why = CString::new(why.replace('\0', "?")).unwrap_or_default();
    WHY.with(|kept| *kept.borrow_mut() = why);
}

/// Runs a call: 0, or the number of its error, whose text is kept.
pub(crate) fn call(work: impl FnOnce() -> Result<(), Fault>) -> c_int {
    match catch_unwind(AssertUnwindSafe(work)) {
        Ok(Ok(())) => 0,
        Ok(Err(fault)) => {
            keep(&fault.to_string());
            match fault {
                Fault::No(_) => NO_ENTRY,
                Fault::Usage(_) => INVALID,
                _ => INPUT_OUTPUT,
            }
        }
        Err(_) => {
            keep("a defect of the program: see its standard error");
            INPUT_OUTPUT
        }
    }
}

/// The bytes of a C string; none for a null pointer.
///
/// # Safety
/// `text` is null, or points to bytes that end with a zero and outlive the answer.
pub(crate) unsafe fn bytes<'a>(text: *const c_char) -> Option<&'a [u8]> {
    (!text.is_null()).then(|| unsafe { CStr::from_ptr(text) }.to_bytes())
}

pub(crate) fn path(bytes: &[u8]) -> &Path {
    Path::new(OsStr::from_bytes(bytes))
}

pub(crate) fn none(what: &str) -> Fault {
    Fault::Usage(format!("no {what} is given"))
}

/// Hands a film to C, which closes it.
pub(crate) fn handle(film: Arc<Film>) -> *mut Film {
    Arc::into_raw(film).cast_mut()
}

/// Why the last call of this thread failed.
#[no_mangle]
pub extern "C" fn cuzhaveli_play_why() -> *const c_char {
    let text = || WHY.with(|kept| kept.borrow().as_ptr());
    catch_unwind(text).unwrap_or(c"".as_ptr())
}

/// Sets the limit of units in memory, if none is set; answers the one that holds.
#[no_mangle]
pub extern "C" fn cuzhaveli_play_limit(bytes: u64) -> u64 {
    let set = || CACHE.get_or_init(|| Arc::new(Cache::new(bytes))).limit();
    catch_unwind(set).unwrap_or(0)
}

/// Sets the milliseconds that a drive is waited for, if none are set; answers those that hold.
#[no_mangle]
pub extern "C" fn cuzhaveli_play_patience(milliseconds: u64) -> u64 {
    let set = || drives::patience(Duration::from_millis(milliseconds)).as_millis() as u64;
    catch_unwind(set).unwrap_or(0)
}

/// Takes a report; the text is there until it returns.
pub type Take = extern "C" fn(text: *const c_char);

/// Hands reports to a function instead of standard error.
#[no_mangle]
pub extern "C" fn cuzhaveli_play_reports(take: Option<Take>) {
    let hand = |take: Take| {
        report::to(Box::new(move |text| {
            let text = CString::new(text.replace('\0', "?")).unwrap_or_default();
            take(text.as_ptr());
        }))
    };
    let _ = catch_unwind(|| take.map(hand));
}

/// # Safety
/// As cuzhaveli_play.h says.
#[no_mangle]
pub unsafe extern "C" fn cuzhaveli_play_open(
    folder: *const c_char,
    package: *const c_char,
    file: *const c_char,
    film: *mut *mut Film,
) -> c_int {
    call(|| {
        let (folder, package, file) = unsafe { (bytes(folder), bytes(package), bytes(file)) };
        let folder = path(folder.ok_or_else(|| none("folder"))?);
        let opened = match (package, file) {
            (Some(package), Some(file)) => open::stored(folder, package, file, &cache())?,
            (None, None) => open::bare(folder, &cache())?.0,
            _ => return Err(none("package, or no file of it,")),
        };
        if film.is_null() {
            return Err(none("place for the film"));
        }
        // Sound: not null, and the caller says that a pointer can be written there.
        unsafe { film.write(handle(Arc::new(opened))) };
        Ok(())
    })
}

/// # Safety
/// As cuzhaveli_play.h says.
#[no_mangle]
pub unsafe extern "C" fn cuzhaveli_play_length(film: *const Film) -> u64 {
    // Sound: null, or of cuzhaveli_play_open and not closed.
    unsafe { film.as_ref() }.map_or(0, Film::length)
}

/// # Safety
/// As cuzhaveli_play.h says.
#[no_mangle]
pub unsafe extern "C" fn cuzhaveli_play_read(
    film: *const Film,
    to: *mut c_void,
    len: usize,
    at: u64,
) -> c_int {
    call(|| {
        // Sound: null, or of cuzhaveli_play_open and not closed.
        let film = unsafe { film.as_ref() }.ok_or_else(|| none("film"))?;
        if len == 0 {
            return film.read(at, &mut []);
        }
        if to.is_null() || isize::try_from(len).is_err() {
            return Err(none("place for the bytes"));
        }
        // Sound: the caller says that so many bytes can be written there, and nobody else looks.
        film.read(at, unsafe { std::slice::from_raw_parts_mut(to.cast(), len) })
    })
}

/// # Safety
/// As cuzhaveli_play.h says.
#[no_mangle]
pub unsafe extern "C" fn cuzhaveli_play_close(film: *mut Film) {
    if !film.is_null() {
        // Sound: of cuzhaveli_play_open, and the caller does not use it again.
        call(|| {
            drop(unsafe { Arc::from_raw(film) });
            Ok(())
        });
    }
}
