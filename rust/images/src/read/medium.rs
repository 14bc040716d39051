//! How images are read, through the page cache or past it, and how many reads that makes worth having.

/// How the images of a set are read.
#[derive(Clone, Copy, Default)]
pub struct Medium {
    /// Whether images are read past the page cache.
    direct: bool,
    /// Whether it is so, and each image has a device of its own.
    each_alone: bool,
}

impl Medium {
    /// Past the page cache; whether each image has a device of its own.
    pub fn direct(each_alone: bool) -> Medium {
        Medium { direct: true, each_alone }
    }

    /// Whether images are read past the page cache, each from a device of its own.
    pub fn each_alone(self) -> bool {
        self.each_alone
    }

    /// How many reads of so many images are worth having under way: without the page cache the
    /// kernel reads nothing ahead, and a device of its own has one waiting while another is served.
    pub fn threads(self, images: usize) -> usize {
        match (self.direct, self.each_alone) {
            (true, true) => 2 * images.max(1),
            (true, false) => 4,
            _ => 2,
        }
    }
}
