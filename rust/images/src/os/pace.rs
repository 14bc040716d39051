//! No more than so many bytes a second of each disk, for work beside screens that play.

use std::thread::sleep;
use std::time::{Duration, Instant};

/// Less ahead than this is not waited for.
const SLACK: Duration = Duration::from_millis(5);

#[derive(Clone)]
pub struct Pace {
    rate: Option<u64>,
    /// When each disk has given what was asked of it so far, at that rate.
    free: Vec<Instant>,
}

impl Pace {
    pub fn new(rate: Option<u64>) -> Pace {
        Pace { rate, free: Vec::new() }
    }

    /// Whether there is a limit.
    pub fn is_limited(&self) -> bool {
        self.rate.is_some()
    }

    /// Waits until so many bytes more of each disk may have been read. Disks give theirs side by
    /// side, and what a disk was not asked for it does not give faster later.
    pub fn spend(&mut self, shares: impl IntoIterator<Item = (usize, u64)>) {
        let Some(rate) = self.rate else { return };
        let now = Instant::now();
        let mut last = now;
        for (disk, bytes) in shares {
            if self.free.len() <= disk {
                self.free.resize(disk + 1, now);
            }
            // Below 2^33 seconds: these are the bytes of one batch, and a rate is at least one.
            let time = Duration::from_secs_f64((bytes as f64 / rate.max(1) as f64).min(1e9));
            self.free[disk] = self.free[disk].max(now) + time;
            last = last.max(self.free[disk]);
        }
        let ahead = last - now;
        if ahead > SLACK {
            sleep(ahead);
        }
    }
}

#[cfg(test)]
mod tests {
    use super::*;

    #[test]
    fn bytes_take_their_time() {
        let mut pace = Pace::new(Some(1 << 20));
        let begun = Instant::now();
        (0..8).for_each(|_| pace.spend([(0, 1 << 15)]));
        assert!(begun.elapsed() >= Duration::from_millis(240));
        Pace::new(None).spend([(3, u64::MAX)]);
    }

    #[test]
    fn disks_give_side_by_side() {
        let mut pace = Pace::new(Some(1 << 20));
        let begun = Instant::now();
        (0..4).for_each(|_| pace.spend((0..10).map(|disk| (disk, 1 << 14))));
        let taken = begun.elapsed();
        assert!((58..500).contains(&taken.as_millis()), "{taken:?} instead of 62 ms");
    }
}
