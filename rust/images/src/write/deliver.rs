//! A film to where it goes: a file, a drive, or a stream. A file gets its name once it is whole.

use std::ffi::OsStr;
use std::fs::{self, File, OpenOptions};
use std::io::{self, Write};
use std::os::fd::AsFd;
use std::path::Path;
use std::sync::Arc;

use crate::fault::Fault;
use crate::os::drives::{apart, drive_at, Overwrite};
use crate::os::folder::{folder_of, sync_folder};
use crate::os::{stop, sys};
use crate::read::gaps::Beyond;
use crate::read::set::Set;
use crate::read::whole_film::{read_all, Decoded, Sink};
use crate::watch::Watch;
use crate::write::output::{taken, Output};

/// The zeros that are written at once, at most.
const ZEROS: u64 = 1 << 20;

/// Where the film goes.
pub enum Target {
    /// A pipe, a terminal, a device that is no drive.
    Stream(File, String),
    Output(Output),
}

/// A film on its way.
struct Delivery<'a> {
    set: &'a Set,
    target: Target,
    watch: &'a mut dyn Watch,
    gaps: u64,
}

/// Reads a film to its target.
pub fn deliver(
    set: &Arc<Set>,
    target: Target,
    what: &str,
    watch: &mut dyn Watch,
) -> Result<Decoded, Fault> {
    let length = set.label.geometry.length;
    watch.begin(what, length);
    let mut delivery = Delivery { set, target, watch, gaps: 0 };
    let done = read_all(set, &mut delivery);
    delivery.watch.end();
    let Delivery { mut target, gaps, .. } = delivery;
    let decoded = match done {
        Ok(decoded) => decoded,
        Err(fault) => {
            target.discard();
            return Err(fault);
        }
    };
    if let Err(fault) = target.finish(length, gaps) {
        if !matches!(fault, Fault::Beyond(_)) {
            target.discard();
        }
        return Err(fault);
    }
    Ok(decoded)
}

impl Sink for Delivery<'_> {
    fn film(&mut self, at: u64, bytes: &[u8]) -> Result<(), Fault> {
        self.watch.add(bytes.len() as u64);
        match &mut self.target {
            Target::Output(output) => output.write(bytes, at),
            Target::Stream(file, name) => file
                .write_all(bytes)
                .map_err(|error| Fault::Failed(format!("{name}, byte {at}: {error}"))),
        }
    }

    /// A gap stays a hole in a file, is zeros on a drive, and ends a stream, which can have none.
    fn gap(&mut self, at: u64, bytes: u64, beyond: &Beyond) -> Result<(), Fault> {
        let what = format!(
            "{bytes} bytes of film from byte {at}: {}",
            beyond.told(self.set.label.geometry.shape)
        );
        if matches!(self.target, Target::Stream(..)) {
            return Err(Fault::Beyond(format!("{what}; the film ends here")));
        }
        self.watch.warn(&format!("{}: {what}", self.set.folder().display()));
        self.gaps += bytes;
        match &self.target {
            Target::Output(output) if output.drive.is_some() => clear(output, at, bytes),
            _ => Ok(()),
        }
    }
}

/// Writes zeros where a drive has other bytes, which would be taken for film.
fn clear(output: &Output, at: u64, bytes: u64) -> Result<(), Fault> {
    let zeros = vec![0; bytes.min(ZEROS) as usize];
    for start in (0..bytes).step_by(ZEROS as usize) {
        output.write(&zeros[..(bytes - start).min(ZEROS) as usize], at + start)?;
    }
    Ok(())
}

/// Standard output, if the program was started with one.
fn standard_output() -> Result<File, Fault> {
    if sys::output_was_closed() {
        return Err(Fault::Failed("standard output: closed".into()));
    }
    let output = io::stdout().as_fd().try_clone_to_owned().map(File::from);
    output.map_err(|error| Fault::Failed(format!("standard output: {error}")))
}

impl Target {
    /// Opens it for a film of that length, which is not on these drives.
    pub fn open(
        name: &OsStr,
        named: &Overwrite,
        length: u64,
        drives: &[(&Path, u64)],
    ) -> Result<Target, Fault> {
        let path = Path::new(name);
        if name == "-" {
            return Ok(Target::Stream(standard_output()?, "standard output".into()));
        }
        if let Some(drive) = drive_at(path) {
            let mut output = Output::drive(path, named, &[])?;
            apart(path, drive, drives)?;
            output.set_len(length)?;
            return Ok(Target::Output(output));
        }
        match fs::metadata(path) {
            Ok(data) if data.is_file() || data.is_dir() => Err(taken(path)),
            Ok(_) => {
                let file = OpenOptions::new().write(true).open(path);
                let file = file.map_err(|error| Fault::path(path, error))?;
                Ok(Target::Stream(file, path.display().to_string()))
            }
            Err(_) => Ok(Target::Output(Output::create(path)?)),
        }
    }

    /// Says to somebody who stops the command what is to be done.
    pub fn says_stopped(&self, command: &str) {
        if let Target::Output(output) = self {
            let part = output.path().display();
            stop::says(&format!("the film is not whole: remove {part}, and {command} again"));
        }
    }

    /// Makes the film last; one with gaps keeps the name of a part.
    pub fn finish(&mut self, length: u64, gaps: u64) -> Result<(), Fault> {
        let Target::Output(output) = self else { return Ok(()) };
        output.set_len(length)?;
        output.sync()?;
        if gaps > 0 {
            return Err(Fault::Beyond(format!(
                "{} has gaps of {gaps} bytes of zeros, where the film cannot be made right",
                output.path().display()
            )));
        }
        output.name()?;
        sync_folder(folder_of(output.path()))
    }

    /// Takes an unfinished film away again, as far as that can be done.
    fn discard(self) {
        if let Target::Output(output) = self {
            output.discard();
        }
    }
}
