//! What a long call says on the way, on standard error: progress and warnings.

use cuzhaveli_images::watch::Watch;

use crate::print::progress::Progress;
use crate::print::say;

pub struct Watcher {
    quiet: bool,
    progress: Option<Progress>,
}

impl Watcher {
    pub fn new(quiet: bool) -> Watcher {
        Watcher { quiet, progress: None }
    }
}

impl Watch for Watcher {
    fn begin(&mut self, what: &str, bytes: u64) {
        self.progress = Some(Progress::new(what.into(), Some(bytes), self.quiet));
    }

    fn add(&mut self, bytes: u64) {
        if let Some(progress) = &mut self.progress {
            progress.add(bytes);
        }
    }

    fn end(&mut self) {
        self.progress = None;
    }

    fn warn(&mut self, text: &str) {
        say::warn(text);
    }
}
