//! The same question to many drives, each answered for itself.

use std::sync::mpsc::{Receiver, RecvTimeoutError};
use std::time::{Duration, Instant};

use crate::drives::Drives;
use crate::lane::Kind;

/// The answers that have not come yet, by disk.
pub struct Round<T>(Vec<(usize, Receiver<T>)>);

impl<T> Default for Round<T> {
    fn default() -> Round<T> {
        Round(Vec::new())
    }
}

impl<T: Send + 'static> Round<T> {
    /// Asks drives, but those that have not answered yet, and slow ones unless one insists.
    pub fn ask<W: FnOnce() -> T + Send + 'static>(
        &mut self,
        drives: &Drives,
        disks: impl Iterator<Item = usize>,
        insist: bool,
        work: impl Fn(usize) -> W,
    ) {
        for disk in disks {
            if self.0.iter().any(|(other, _)| *other == disk) {
                continue;
            }
            let lane = drives.lane(disk);
            let coming = lane.and_then(|lane| lane.ask(Kind::Look, insist, work(disk)));
            self.0.extend(coming.map(|coming| (disk, coming)));
        }
    }

    /// What comes until a moment.
    pub fn collect(&mut self, until: Instant) -> Vec<(usize, T)> {
        let mut came = Vec::new();
        self.0.retain(|(disk, coming)| {
            let left = until.saturating_duration_since(Instant::now());
            match coming.recv_timeout(left.max(Duration::from_micros(1))) {
                Ok(answer) => came.push((*disk, answer)),
                Err(RecvTimeoutError::Timeout) => return true,
                Err(RecvTimeoutError::Disconnected) => {}
            }
            false
        });
        came
    }

    /// Whether every drive has answered.
    pub fn is_over(&self) -> bool {
        self.0.is_empty()
    }
}
