//! A file of a store with some bytes of it replaced.

use std::fs::File;
use std::io::{self, Read};

use crate::fault::Fault;
use crate::read::film::FilmReader;

/// The old film with other bytes from a place on, read in order.
pub struct Patched {
    /// None if the old file is empty.
    pub film: Option<FilmReader>,
    pub patch: File,
    /// Where the other bytes begin and end.
    pub start: u64,
    pub end: u64,
    pub at: u64,
    /// Why the old film could not be read.
    pub fault: Option<Fault>,
}

impl Patched {
    /// Reads old film up to a place.
    fn old(&mut self, bytes: &mut [u8], end: u64) -> io::Result<usize> {
        let len = (end - self.at).min(bytes.len() as u64) as usize;
        let Some(film) = &mut self.film else { return Ok(0) };
        film.read(self.at, &mut bytes[..len]).map_err(|fault| {
            let error = io::Error::other(fault.to_string());
            self.fault = Some(fault);
            error
        })
    }
}

impl Read for Patched {
    fn read(&mut self, bytes: &mut [u8]) -> io::Result<usize> {
        let done = if self.at < self.start {
            self.old(bytes, self.start)?
        } else if self.at < self.end {
            let len = (self.end - self.at).min(bytes.len() as u64) as usize;
            self.patch.read(&mut bytes[..len])?
        } else {
            self.old(bytes, u64::MAX)?
        };
        self.at += done as u64;
        Ok(done)
    }
}
