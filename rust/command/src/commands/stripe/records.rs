//! Stripes on standard input, one at a time, and what becomes of them on standard output.

use std::fs::File;
use std::io::{self, BufReader, BufWriter, ErrorKind, Read, Write};
use std::os::fd::AsFd;

use cuzhaveli::Refusal;
use cuzhaveli_images::fault::Fault;
use cuzhaveli_images::os::sys;

use crate::print::say;

/// The bytes that are read or written at once, of stripes that have fewer.
const CHUNK: usize = 64 << 10;

/// The records of standard input: each a stripe, with what a call takes beside it.
pub struct Records {
    input: BufReader<File>,
    record: Vec<u8>,
    number: u64,
}

/// Standard output.
pub struct Results(BufWriter<File>);

/// Room for a record: zeros, which are a clean stripe.
pub fn room(len: usize) -> Result<Vec<u8>, Fault> {
    let mut record = Vec::new();
    let reserved = record.try_reserve_exact(len);
    reserved.map_err(|error| Fault::Failed(format!("no memory for {len} bytes: {error}")))?;
    record.resize(len, 0);
    Ok(record)
}

impl Records {
    /// Takes the room that each record fills.
    pub fn new(record: Vec<u8>) -> Result<Records, Fault> {
        if sys::input_was_closed() {
            return Err(Fault::Failed("standard input: closed; give it stripes".into()));
        }
        let input = io::stdin().as_fd().try_clone_to_owned().map(File::from);
        let input = input.map_err(|error| Fault::Failed(format!("standard input: {error}")))?;
        Ok(Records { input: BufReader::with_capacity(CHUNK, input), record, number: 0 })
    }

    /// Makes a call on every record and writes what comes of it; how many there were. What is left
    /// at the end, and an input without any, the library gets too: it refuses another length. What
    /// is done is handed out before more is waited for, so that a program can give one at a time.
    pub fn each<T>(
        &mut self,
        results: &mut Results,
        mut call: impl FnMut(u64, &mut [u8]) -> Result<T, Refusal>,
        mut then: impl FnMut(&mut Results, u64, &[u8], T) -> Result<(), Fault>,
    ) -> Result<u64, Fault> {
        loop {
            if self.input.buffer().len() < self.record.len() {
                results.flush()?;
            }
            let len = self.fill()?;
            if len == 0 && self.number > 0 {
                return Ok(self.number);
            }
            let whole = len == self.record.len();
            let answer = call(self.number, &mut self.record[..len]);
            let answer = answer.map_err(|refusal| self.refused(refusal, len))?;
            if !whole {
                return Err(Fault::Failed("a defect: a short stripe was accepted".into()));
            }
            then(results, self.number, &self.record, answer)?;
            self.number += 1;
        }
    }

    /// Reads a record; fewer bytes only at the end of the input.
    fn fill(&mut self) -> Result<usize, Fault> {
        let mut done = 0;
        while done < self.record.len() {
            match self.input.read(&mut self.record[done..]) {
                Ok(0) => break,
                Ok(more) => done += more,
                Err(error) if error.kind() == ErrorKind::Interrupted => {}
                Err(error) => {
                    let byte = self.start() + done as u64;
                    return Err(Fault::Failed(format!("standard input, byte {byte}: {error}")));
                }
            }
        }
        Ok(done)
    }

    /// Where the record begins in the input.
    fn start(&self) -> u64 {
        self.number * self.record.len() as u64
    }

    fn refused(&self, refusal: Refusal, len: usize) -> Fault {
        let (number, start, whole) = (self.number, self.start(), self.record.len());
        let short = match len == whole {
            true => String::new(),
            false => format!("{len} of {whole} bytes, "),
        };
        Fault::Refused(refusal, format!("standard input, stripe {number} at byte {start}: {short}"))
    }
}

impl Results {
    pub fn new() -> Result<Results, Fault> {
        say::is_open()?;
        let output = io::stdout().as_fd().try_clone_to_owned().map(File::from);
        let output = output.map_err(|error| Fault::Failed(format!("standard output: {error}")))?;
        Ok(Results(BufWriter::with_capacity(CHUNK, output)))
    }

    pub fn write(&mut self, bytes: &[u8]) -> Result<(), Fault> {
        self.0.write_all(bytes).map_err(failed)
    }

    fn flush(&mut self) -> Result<(), Fault> {
        self.0.flush().map_err(failed)
    }

    /// Ends the output: what is whole is handed out also where the rest was refused.
    pub fn end<T>(mut self, done: Result<T, Fault>) -> Result<T, Fault> {
        let flushed = self.flush();
        done.and_then(|answer| flushed.map(|()| answer))
    }
}

fn failed(error: io::Error) -> Fault {
    Fault::Failed(format!("standard output: {error}"))
}
