//! What is reported while films are served, where nobody waits for an answer.

use std::io::{stderr, Write};
use std::sync::{Mutex, PoisonError};
use std::thread;

type To = Box<dyn Fn(&str) + Send>;

static TO: Mutex<Option<To>> = Mutex::new(None);

/// From now on reports go there; to standard error before.
pub fn to(to: To) {
    *TO.lock().unwrap_or_else(PoisonError::into_inner) = Some(to);
}

/// Reports something. Nobody who serves waits for it, for a log may be on a drive that hangs.
pub fn say(text: String) {
    let tell = move || match &*TO.lock().unwrap_or_else(PoisonError::into_inner) {
        Some(to) => to(&text),
        None => drop(writeln!(stderr(), "cuzhaveli: {text}")),
    };
    let _ = thread::Builder::new().name("report".into()).spawn(tell);
}
