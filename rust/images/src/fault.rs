//! Why a command ends with another status than 0.

use std::fmt;
use std::io;
use std::path::Path;

use cuzhaveli::Refusal;

use crate::os::folder::shown;

#[derive(Debug)]
pub enum Fault {
    /// The answer is no, and standard output has it; the text says more, or nothing.
    No(String),
    /// The words of the command are not those of its usage.
    Usage(String),
    /// The library refused; the text says of what or where, or nothing.
    Refused(Refusal, String),
    /// Reading or writing failed.
    Failed(String),
    /// More than two disks are lost, or images do not belong together.
    Images(String),
    /// Film that cannot be made right.
    Beyond(String),
    /// A change that may stand or not.
    Unsure(String),
}

impl Fault {
    pub fn status(&self) -> u8 {
        match self {
            Fault::No(_) => 1,
            Fault::Usage(_) => 2,
            Fault::Refused(..) => 3,
            Fault::Failed(_) => 4,
            Fault::Images(_) => 5,
            Fault::Beyond(_) => 6,
            Fault::Unsure(_) => 7,
        }
    }

    /// A path that cannot be read or written.
    pub fn path(path: &Path, error: io::Error) -> Fault {
        Fault::Failed(format!("{}: {error}", shown(path).display()))
    }

    /// A byte of a path that cannot be read or written.
    pub fn byte(path: &Path, byte: u64, error: &io::Error) -> Fault {
        Fault::Failed(format!("{}, byte {byte}: {error}", shown(path).display()))
    }
}

impl From<Refusal> for Fault {
    fn from(refusal: Refusal) -> Fault {
        Fault::Refused(refusal, String::new())
    }
}

impl fmt::Display for Fault {
    fn fmt(&self, f: &mut fmt::Formatter) -> fmt::Result {
        match self {
            Fault::Refused(refusal, place) => {
                let told = refusal.to_string();
                let text = told.split_once(": ").map_or(&*told, |(_, text)| text);
                write!(f, "{place}{text} (refusal {})", refusal.number())
            }
            Fault::No(text) | Fault::Usage(text) | Fault::Failed(text) => f.write_str(text),
            Fault::Images(text) | Fault::Beyond(text) | Fault::Unsure(text) => f.write_str(text),
        }
    }
}
