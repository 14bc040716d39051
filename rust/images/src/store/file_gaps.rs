//! What of the files of a store cannot be made right: the first so many stretches, and a count.

use crate::read::gaps::{Beyond, Gaps, MOST_STRETCHES};

/// Stripes of a file that cannot be made right; none where too much of it is lost.
pub struct FileGap {
    pub file: String,
    pub stripes: Option<Beyond>,
}

#[derive(Default)]
pub struct FileGaps {
    list: Vec<FileGap>,
    stripes: u64,
}

impl FileGaps {
    /// A file of which too much is lost.
    pub fn gone(&mut self, file: &str) {
        self.list.push(FileGap { file: file.into(), stripes: None });
    }

    /// Adds those of a file, as long as there are not too many.
    pub fn add(&mut self, file: &str, gaps: &Gaps) {
        let room = MOST_STRETCHES.saturating_sub(self.list.len());
        for stripes in gaps.stretches().iter().take(room) {
            self.list.push(FileGap { file: file.into(), stripes: Some(stripes.clone()) });
        }
        self.stripes += gaps.stripes();
    }

    pub fn is_empty(&self) -> bool {
        self.list.is_empty()
    }

    /// Those that are kept.
    pub fn list(&self) -> &[FileGap] {
        &self.list
    }

    /// All stripes that cannot be made right, without those of files of which too much is lost.
    pub fn stripes(&self) -> u64 {
        self.stripes
    }
}
