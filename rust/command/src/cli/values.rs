//! The values of options: numbers, disks, words of a list.

use std::ffi::OsStr;
use std::os::unix::ffi::OsStrExt;

use cuzhaveli::Shape;
use cuzhaveli_images::fault::Fault;

use crate::cli::near::meant;
use crate::cli::table::{Kind, Opt};

/// Words that are not those of the usage.
pub fn usage(text: String) -> Fault {
    Fault::Usage(text)
}

/// A disk as it is named.
#[derive(Clone, Copy, Debug, PartialEq, Eq)]
pub enum DiskName {
    Number(usize),
    P,
    Q,
}

impl DiskName {
    pub fn of(name: &str, value: &OsStr) -> Result<DiskName, Fault> {
        match value.as_bytes() {
            b"P" | b"p" => Ok(DiskName::P),
            b"Q" | b"q" => Ok(DiskName::Q),
            _ => {
                number(name, value).map(|number| DiskName::Number(number as usize)).map_err(|_| {
                    let value = value.display();
                    usage(format!("{name} {value}: no disk; give its number from 0 on, P or Q"))
                })
            }
        }
    }

    pub fn number(self, shape: Shape) -> usize {
        match self {
            DiskName::Number(number) => number,
            DiskName::P => shape.disks(),
            DiskName::Q => shape.disks() + 1,
        }
    }
}

/// Refuses a value that is not of the option's kind.
pub fn fits(option: &Opt, value: &OsStr) -> Result<(), Fault> {
    match option.value {
        Some((_, Kind::Number)) => number(option.name, value).map(|_| ()),
        Some((_, Kind::Disk)) => DiskName::of(option.name, value).map(|_| ()),
        Some((_, Kind::Word(words))) if !words.iter().any(|word| value == *word) => {
            let near = meant(&value.to_string_lossy(), words.iter().copied());
            let (name, value) = (option.name, value.display());
            Err(usage(format!("{name} {value}: not one of {}{near}", words.join(", "))))
        }
        _ => Ok(()),
    }
}

/// A decimal number, with K, M, G or T for powers of 1,024.
pub fn number(name: &str, value: &OsStr) -> Result<u64, Fault> {
    let wrong = || {
        usage(format!(
            "{name} {}: not a number below 2^64; give digits, with K, M, G or T after them for powers of 1,024",
            value.display()
        ))
    };
    let text = value.to_str().ok_or_else(wrong)?;
    let (digits, shift) = match text.as_bytes().last() {
        Some(b'K') => (&text[..text.len() - 1], 10),
        Some(b'M') => (&text[..text.len() - 1], 20),
        Some(b'G') => (&text[..text.len() - 1], 30),
        Some(b'T') => (&text[..text.len() - 1], 40),
        _ => (text, 0),
    };
    if digits.is_empty() || !digits.bytes().all(|byte| byte.is_ascii_digit()) {
        return Err(wrong());
    }
    let number: u64 = digits.parse().map_err(|_| wrong())?;
    number.checked_mul(1 << shift).ok_or_else(wrong)
}
