//! What std lacks: flags of open, advice to the kernel, a rename that replaces nothing, room on
//! file systems, drives by number. Linux on x86-64; the only unsafe code of the command.

use std::ffi::CString;
use std::fs::{self, File, Metadata};
use std::io;
use std::os::fd::AsRawFd;
use std::os::unix::ffi::OsStrExt;
use std::os::unix::fs::{FileTypeExt, MetadataExt};
use std::path::Path;
use std::sync::atomic::{AtomicBool, Ordering};

/// Fails if the last part of a path is a link.
pub const NO_FOLLOW: i32 = 0o400_000;
/// Of a drive: fails if a file system or another program has it.
pub const EXCLUSIVE: i32 = 0o200;
/// Does not wait for the other end of a pipe.
pub const NO_WAIT: i32 = 0o4000;
/// Fails for what is no folder.
pub const FOLDER: i32 = 0o200_000;
/// Past the page cache.
pub const DIRECT: i32 = 0o40_000;

const RANDOM: i32 = 1;
const NOT_WAITING: i32 = 8;
const WILL_NEED: i32 = 3;
const AT_CWD: i32 = -100;
const NO_REPLACE: u32 = 1;
const GET_FD: i32 = 1;
const INTERRUPT: i32 = 2;
const TERMINATE: i32 = 15;
const TOO_LARGE: i32 = 25;
const OPEN_FILES: i32 = 7;
const MANY_IN_ALL: i32 = 23;
const MANY_HERE: i32 = 24;
const BY_DEFAULT: usize = 0;
const IGNORED: usize = 1;

/// The kernel may cut one piece of advice to the read-ahead of the device; this is the usual one.
const STRETCH: u64 = 128 << 10;

extern "C" {
    fn posix_fadvise(fd: i32, offset: i64, len: i64, advice: i32) -> i32;
    fn renameat2(from: i32, old: *const i8, to: i32, new: *const i8, flags: u32) -> i32;
    fn fcntl(fd: i32, command: i32, ...) -> i32;
    fn signal(number: i32, handler: usize) -> usize;
    fn raise(number: i32) -> i32;
    fn write(fd: i32, bytes: *const u8, len: usize) -> isize;
    fn fallocate(fd: i32, mode: i32, offset: i64, len: i64) -> i32;
    fn statvfs(path: *const i8, answer: *mut [u64; 16]) -> i32;
    fn preadv2(fd: i32, to: *const Target, count: i32, offset: i64, flags: i32) -> isize;
    fn getrlimit(which: i32, answer: *mut [u64; 2]) -> i32;
    fn setrlimit(which: i32, limits: *const [u64; 2]) -> i32;
}

fn advise(file: &File, offset: u64, len: u64, advice: i32) {
    // Sound for any numbers: the call only looks at the open file. Advice may be ignored.
    unsafe { posix_fadvise(file.as_raw_fd(), offset as i64, len as i64, advice) };
}

/// Nothing beside what is asked for is to be read.
pub fn random(file: &File) {
    advise(file, 0, 0, RANDOM);
}

/// These bytes are read next: the kernel begins now.
pub fn will_need(file: &File, offset: u64, len: u64) {
    let mut done = 0;
    while done < len {
        let stretch = STRETCH.min(len - done);
        advise(file, offset + done, stretch, WILL_NEED);
        done += stretch;
    }
}

/// Where a read goes, as the system takes it.
#[repr(C)]
struct Target {
    start: *mut u8,
    len: usize,
}

/// Reads all of the bytes, if the kernel has them in memory; says whether. A drive is not waited for.
pub fn read_now(file: &File, bytes: &mut [u8], offset: u64) -> bool {
    let room = Target { start: bytes.as_mut_ptr(), len: bytes.len() };
    // Sound: one room, whose bytes can be written for the whole call.
    let done = unsafe { preadv2(file.as_raw_fd(), &room, 1, offset as i64, NOT_WAITING) };
    usize::try_from(done).is_ok_and(|done| done == bytes.len())
}

/// Gives a file its name, if nothing has that name.
pub fn rename_new(old: &Path, new: &Path) -> io::Result<()> {
    let (from, to) =
        (CString::new(old.as_os_str().as_bytes())?, CString::new(new.as_os_str().as_bytes())?);
    // Sound: both are C strings that outlive the call.
    let done = unsafe { renameat2(AT_CWD, from.as_ptr(), AT_CWD, to.as_ptr(), NO_REPLACE) };
    if done == 0 {
        return Ok(());
    }
    let error = io::Error::last_os_error();
    if !matches!(error.kind(), io::ErrorKind::InvalidInput | io::ErrorKind::Unsupported) {
        return Err(error);
    }
    // A file system without that flag: a link replaces nothing either.
    fs::hard_link(old, new)?;
    fs::remove_file(old)
}

/// Takes room for so many bytes of a file, whose length it then is. Nothing is reserved where the
/// file system cannot.
pub fn reserve(file: &File, len: u64) -> io::Result<()> {
    // Sound for any numbers: the call only looks at the open file.
    if unsafe { fallocate(file.as_raw_fd(), 0, 0, len as i64) } == 0 {
        return Ok(());
    }
    match io::Error::last_os_error() {
        error if error.kind() == io::ErrorKind::Unsupported => file.set_len(len),
        error => Err(error),
    }
}

/// Whether an error says that a disk is full.
pub fn is_full(error: &io::Error) -> bool {
    matches!(error.kind(), io::ErrorKind::StorageFull | io::ErrorKind::QuotaExceeded)
}

/// How many files this program may have open at once, and how many it may let itself have.
fn open_files() -> [u64; 2] {
    let mut limits = [0; 2];
    // Sound: the answer is two numbers. Without one, both are 0.
    unsafe { getrlimit(OPEN_FILES, &mut limits) };
    limits
}

/// Lets this program have as many files open as it may let itself have; says how many.
pub fn raise_open_files() -> u64 {
    let [_, most] = open_files();
    // Sound: two numbers that outlive the call. Where it fails the limit stays as it was.
    unsafe { setrlimit(OPEN_FILES, &[most, most]) };
    open_files()[0]
}

/// Whether an error says that no further file can be opened, here or on the whole machine.
pub fn is_short_of_files(error: &io::Error) -> bool {
    matches!(error.raw_os_error(), Some(MANY_IN_ALL | MANY_HERE))
}

/// What a file system has free for this user; files are not counted where it has no limit of them.
#[derive(Clone, Copy, Debug)]
pub struct Room {
    pub bytes: u64,
    pub files: Option<u64>,
}

pub fn room(path: &Path) -> io::Result<Room> {
    let name = CString::new(path.as_os_str().as_bytes())?;
    let mut answer = [0; 16];
    // Sound: a C string that outlives the call, and more room than the 112 bytes of the answer.
    if unsafe { statvfs(name.as_ptr(), &mut answer) } != 0 {
        return Err(io::Error::last_os_error());
    }
    let [_, block, _, _, blocks, all, _, files, ..] = answer;
    Ok(Room { bytes: block.saturating_mul(blocks), files: (all > 0).then_some(files) })
}

/// The number of a drive; none for what is no drive.
pub fn drive(data: &Metadata) -> Option<u64> {
    data.file_type().is_block_device().then(|| data.rdev())
}

/// The whole drive of a partition, or the drive itself.
pub fn whole_drive(drive: u64) -> u64 {
    let major = drive >> 8 & 0xFFF | drive >> 32 & !0xFFF;
    let minor = drive & 0xFF | drive >> 12 & !0xFF;
    let folder = format!("/sys/dev/block/{major}:{minor}");
    if !Path::new(&folder).join("partition").exists() {
        return drive;
    }
    let read = fs::read_to_string(format!("{folder}/../dev")).unwrap_or_default();
    let number = |text: &str| text.trim().parse::<u64>().ok();
    let whole =
        read.split_once(':').and_then(|(major, minor)| Some((number(major)?, number(minor)?)));
    whole.map_or(drive, |(major, minor)| {
        (major & 0xFFF) << 8 | (major & !0xFFF) << 32 | minor & 0xFF | (minor & !0xFF) << 12
    })
}

/// Whether standard input and standard output were closed.
static CLOSED: [AtomicBool; 2] = [AtomicBool::new(false), AtomicBool::new(false)];

/// Runs before std, which opens /dev/null where one of them is closed: film would go nowhere, or be
/// taken for an empty one.
#[used]
#[link_section = ".init_array"]
static BEFORE_MAIN: extern "C" fn() = look;

extern "C" fn look() {
    for (number, closed) in (0..).zip(&CLOSED) {
        // Sound: the call only looks at the number.
        closed.store(unsafe { fcntl(number, GET_FD) } == -1, Ordering::Relaxed);
    }
}

/// Whether the program was started without a standard input.
pub fn input_was_closed() -> bool {
    CLOSED[0].load(Ordering::Relaxed)
}

/// Whether the program was started without a standard output.
pub fn output_was_closed() -> bool {
    CLOSED[1].load(Ordering::Relaxed)
}

/// Lets a function run when the program is to stop, unless it was started so that it does not.
pub fn on_stop(handler: extern "C" fn(i32)) {
    for number in [INTERRUPT, TERMINATE] {
        // Sound: the handler is a function for the whole life of the program.
        unsafe {
            if signal(number, handler as usize) == IGNORED {
                signal(number, IGNORED);
            }
        }
    }
}

/// A file that would be larger than this program may write is an error of the write, not its end.
pub fn outlive_size_limits() {
    // Sound: no handler is called.
    unsafe { signal(TOO_LARGE, IGNORED) };
}

/// Writes to standard error, within a signal too.
pub fn put_error(bytes: &[u8]) {
    // Sound: the bytes are there for the whole call. There is nobody to tell if it fails.
    unsafe { write(2, bytes.as_ptr(), bytes.len()) };
}

/// Ends the program by a signal, as if it had not been handled.
pub fn end_by(number: i32) {
    // Sound: both calls take any number.
    unsafe {
        signal(number, BY_DEFAULT);
        raise(number);
    }
}
