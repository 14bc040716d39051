//! How many disks of a store must agree: any W and any R of them share one.

/// The disks of a store, counted for the rules of opening and changing it.
#[derive(Clone, Copy, Debug, PartialEq, Eq)]
pub struct Quorum {
    /// Disks with film.
    data: usize,
}

impl Quorum {
    pub fn of(data: usize) -> Quorum {
        Quorum { data }
    }

    /// All disks.
    fn all(self) -> usize {
        self.data + 2
    }

    /// W: the disks that must have a change before it is acknowledged.
    pub fn to_change(self) -> usize {
        self.data.max(3)
    }

    /// R: the catalogues that must be seen before one is believed.
    pub fn to_read(self) -> usize {
        self.all() + 1 - self.to_change()
    }

    /// Of the generations of the catalogues that are seen, the one that counts; none if too few are
    /// seen. In falling order it stands in place W less the disks whose catalogue is not seen: a
    /// higher one is on fewer than W disks, whatever those have, and was never acknowledged.
    pub fn counts(self, generations: &[u64]) -> Option<u64> {
        if generations.len() < self.to_read() {
            return None;
        }
        let mut falling = generations.to_vec();
        falling.sort_unstable_by(|one, other| other.cmp(one));
        let unseen = self.all().saturating_sub(falling.len());
        falling.get(self.to_change().checked_sub(unseen + 1)?).copied()
    }
}

#[cfg(test)]
mod tests {
    use super::*;

    /// Every list of so many numbers below a limit.
    fn lists(len: usize, below: u64) -> Vec<Vec<u64>> {
        let more = |list: Vec<u64>| {
            (0..below).map(move |last| [list.clone(), vec![last]].concat()).collect::<Vec<_>>()
        };
        (0..len).fold(vec![Vec::new()], |all, _| all.into_iter().flat_map(more).collect())
    }

    #[test]
    fn numbers_of_the_manual() {
        let both = |data| (Quorum::of(data).to_change(), Quorum::of(data).to_read());
        assert_eq!([2, 3, 4, 5, 31].map(both), [(3, 2), (3, 3), (4, 3), (5, 3), (31, 3)]);
        for data in 2..=31 {
            let quorum = Quorum::of(data);
            assert_eq!(quorum.to_change() + quorum.to_read(), data + 3); // any two share a disk
        }
    }

    /// What the rule says in words: the highest generation that W disks could have.
    #[test]
    fn the_highest_that_could_be_acknowledged() {
        for data in 2..=4 {
            let quorum = Quorum::of(data);
            for seen in 0..=data + 2 {
                for list in lists(seen, 3) {
                    let could = |generation: &u64| {
                        let have = list.iter().filter(|one| *one >= generation).count();
                        have + data + 2 - seen >= quorum.to_change()
                    };
                    let wanted = list.iter().copied().filter(could).max();
                    let wanted = wanted.filter(|_| seen >= quorum.to_read());
                    assert_eq!(quorum.counts(&list), wanted, "{data} {list:?}");
                }
            }
        }
    }

    /// An acknowledged change counts, whichever disks are seen; one on a single disk does not, if
    /// all are.
    #[test]
    fn acknowledged_changes_count() {
        for data in 2..=5 {
            let quorum = Quorum::of(data);
            for list in lists(data + 2, 2) {
                let have = list.iter().filter(|one| **one == 1).count();
                for mask in 0u32..1 << (data + 2) {
                    let seen: Vec<u64> = (0..data + 2)
                        .filter(|disk| mask >> disk & 1 == 1)
                        .map(|disk| list[disk])
                        .collect();
                    match quorum.counts(&seen) {
                        Some(generation) if have >= quorum.to_change() => assert_eq!(generation, 1),
                        Some(generation) if seen.len() == data + 2 => assert_eq!(generation, 0),
                        None => assert!(seen.len() < quorum.to_read()),
                        Some(_) => {}
                    }
                }
            }
        }
    }
}
