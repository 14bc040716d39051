//! The cells of a batch that cannot be read.

/// A bit for each cell of a batch, once one cannot be read.
#[derive(Default)]
pub struct Holes(Vec<u64>);

impl Holes {
    pub fn clear(&mut self) {
        self.0.clear();
    }

    pub fn add(&mut self, cell: usize, all: usize) {
        if self.0.is_empty() {
            self.0.resize(all.div_ceil(64), 0);
        }
        self.0[cell / 64] |= 1 << (cell % 64);
    }

    pub fn has(&self, cell: usize) -> bool {
        self.0.get(cell / 64).is_some_and(|word| word >> (cell % 64) & 1 == 1)
    }
}

#[cfg(test)]
mod tests {
    use super::*;

    #[test]
    fn holes_are_kept_until_the_next_batch() {
        let mut holes = Holes::default();
        assert!(!holes.has(70));
        [3, 64, 199].into_iter().for_each(|cell| holes.add(cell, 200));
        let seen: Vec<usize> = (0..300).filter(|cell| holes.has(*cell)).collect();
        assert_eq!(seen, [3, 64, 199]);
        holes.clear();
        assert!(!holes.has(64));
    }
}
