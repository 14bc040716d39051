//! `mount`: a store as a file system. What serves it is a helper, `cuzhaveli-fuse`, so that this
//! program links nothing.

use std::env;
use std::ffi::OsString;
use std::fs;
use std::io::ErrorKind;
use std::os::unix::ffi::OsStrExt;
use std::os::unix::process::CommandExt;
use std::path::{self, Path, PathBuf};
use std::process;

use cuzhaveli_images::fault::Fault;
use cuzhaveli_images::read::set::Set;
use cuzhaveli_images::store::place::is_store;

use crate::cli::args::Given;
use crate::cli::table::{Command, Kind, Operand, Opt, Use};
use crate::cli::words::PLACE;
use crate::commands::store::opened;
use crate::print::say;

const HELPER: &str = "cuzhaveli-fuse";

/// The type of what it mounts.
const SERVED: &str = "fuse.cuzhaveli-fuse";

pub const COMMAND: Command = Command {
    name: "mount",
    brief: "a store as a file system, to play from, with up to two disks gone",
    about: &[
        "Shows the packages of a store, and the files of each, below the folder POINT; of a folder of images the one file \
         film. Nothing can be written there. It returns once POINT can be read; umount POINT ends it (fusermount3 -u POINT \
         for users), and so does the signal of kill to cuzhaveli-fuse.",
        "Every byte that is read has been compared with its checksum. What is lost or bad is mended: a single lost piece by \
         its row, else by its unit. Where more is gone than can be mended, a read of those bytes fails (EIO), and reads of \
         others go on; a folder of images with more than two lost is refused.",
        "A drive that does not answer in time (--patience) stops no film: what it has is computed from the other disks, \
         and it is asked in the background until it answers in time again. It is reported once, on standard error and in \
         the system's log. This works for as many drives as could be lost; where too few answer, the late ones are waited \
         for, a minute at most.",
        "put, remove, patch, rebuild and repair can run beside it. A name is looked up in the catalogue of at most two \
         seconds before; a file that is open stays readable after it was removed or replaced. An image that is rebuilt is \
         read once it has its name.",
        "It needs the program cuzhaveli-fuse, which is built where libfuse3 is, beside this one or on PATH. To mount at every \
         start, a line of /etc/fstab: /srv/store /films fuse.cuzhaveli-fuse ro,allow_other,nofail 0 0",
    ],
    words: &[
        Use::May(&Use::Opt(&Opt {
            name: "--allow-other",
            value: None,
            about: "other users may read too; it needs user_allow_other in /etc/fuse.conf, or root",
        })),
        Use::May(&Use::Opt(&Opt {
            name: "--cache",
            value: Some(("BYTES", Kind::Number)),
            about: "keep no more than BYTES of units in memory, but two units; 32M if it is not given",
        })),
        Use::May(&Use::Opt(&Opt {
            name: "--foreground",
            value: None,
            about: "do not return, but serve, and tell on standard error what cannot be read",
        })),
        Use::May(&Use::Opt(&Opt {
            name: "--patience",
            value: Some(("MS", Kind::Number)),
            about: "wait no longer than MS milliseconds for a drive where the other disks have what is needed; 200 if not given",
        })),
        PLACE,
        Use::Operand(&Operand {
            name: "POINT",
            kind: Kind::Folder,
            about: "the folder where the files are shown",
        }),
    ],
    tells: &[],
};

/// The options as the helper takes them.
fn options(given: &Given) -> Result<Vec<OsString>, Fault> {
    let mut words: Vec<OsString> = Vec::new();
    if given.flag("--foreground") {
        words.push("-f".into());
    }
    if given.flag("--allow-other") {
        words.push("-oallow_other".into());
    }
    if let Some(bytes) = given.number("--cache")? {
        words.push(format!("-ocache={bytes}").into());
    }
    if let Some(milliseconds) = given.number("--patience")? {
        words.push(format!("-opatience={milliseconds}").into());
    }
    Ok(words)
}

pub fn run(given: &Given) -> Result<(), Fault> {
    let (place, point) = (given.path(0), given.path(1));
    let mut words = options(given)?;
    if is_served(point) {
        return Err(Fault::Failed(format!(
            "{0} is mounted already; end that first: umount {0}",
            point.display()
        )));
    }
    let fails =
        |error| Fault::Failed(format!("{}: {error}; make an empty folder there", point.display()));
    if !point.metadata().map_err(fails)?.is_dir() {
        return Err(fails(ErrorKind::NotADirectory.into()));
    }
    // What is wrong with the disks is told here; the helper has nobody to tell.
    match is_store(place) {
        true => drop(opened(place)?),
        false => say::notes(&Set::open(place, &[])?),
    }
    // No word of the user is taken for an option.
    let full = |path: &Path| path.canonicalize().map_err(|error| Fault::path(path, error));
    let (place, point) = (full(place)?, full(point)?);
    if is_apart(&place, &point) {
        words.extend([place.into(), point.into()]);
        return start(&words);
    }
    Err(Fault::Failed(format!(
        "{} is in {}, or it or one of its disks is below: give another folder for POINT",
        point.display(),
        place.display()
    )))
}

/// Whether what is mounted hides nothing of what it is read from, which would wait for itself.
fn is_apart(place: &Path, point: &Path) -> bool {
    let below =
        |entry: fs::DirEntry| entry.path().canonicalize().is_ok_and(|path| path.starts_with(point));
    let entries = fs::read_dir(place).into_iter().flatten().flatten();
    !point.starts_with(place) && !place.starts_with(point) && !entries.into_iter().any(below)
}

/// Whether the helper serves this folder, or did until it was killed: a second mount would hide the
/// first. Of a killed one the path cannot be followed, and is taken as it is.
fn is_served(point: &Path) -> bool {
    let Ok(full) = point.canonicalize().or_else(|_| path::absolute(point)) else { return false };
    let name = escaped(full.as_os_str().as_bytes());
    let table = fs::read("/proc/self/mountinfo").unwrap_or_default();
    table.split(|&byte| byte == b'\n').any(|line| {
        let mut words = line.split(|&byte| byte == b' ');
        words.nth(4) == Some(&name[..]) && words.any(|word| word == SERVED.as_bytes())
    })
}

/// A path as the kernel writes it in its table of mounts.
fn escaped(path: &[u8]) -> Vec<u8> {
    let one = |&byte: &u8| match byte {
        b' ' | b'\t' | b'\n' | b'\\' => format!("\\{byte:03o}").into_bytes(),
        _ => vec![byte],
    };
    path.iter().flat_map(one).collect()
}

/// The helper beside this program; if there is none, its name, for PATH.
fn helper() -> PathBuf {
    let beside = env::current_exe().ok().map(|own| own.with_file_name(HELPER));
    beside.filter(|path| path.is_file()).unwrap_or_else(|| HELPER.into())
}

/// Becomes the helper.
fn start(words: &[OsString]) -> Result<(), Fault> {
    let error = process::Command::new(helper()).args(words).exec();
    Err(Fault::Failed(match error.kind() {
        ErrorKind::NotFound => format!(
            "no {HELPER} beside this program or on PATH; install libfuse3 with its headers, and build the command again: \
             make"
        ),
        _ => format!("{HELPER}: {error}"),
    }))
}
