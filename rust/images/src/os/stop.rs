//! What is said when somebody stops the program: things stay as a kill leaves them.

use std::sync::atomic::{AtomicU64, Ordering};
use std::sync::OnceLock;

use crate::os::sys;

/// What is said; a number goes between the two where there is a second.
struct Words {
    before: String,
    after: Option<String>,
}

static WORDS: OnceLock<Words> = OnceLock::new();
static NUMBER: AtomicU64 = AtomicU64::new(0);

/// From now on Ctrl-C, or the signal of `kill`, says this before it ends the program as it does
/// without.
pub fn says(text: &str) {
    set(Words { before: format!("cuzhaveli: stopped; {text}\n"), after: None });
}

/// The same with the number of [`at`] in it, where the text has a `#`.
pub fn says_where(text: &str) {
    let (before, after) = text.split_once('#').unwrap_or((text, ""));
    let before = format!("cuzhaveli: stopped; {before}");
    set(Words { before, after: Some(format!("{after}\n")) });
}

/// How far it is.
pub fn at(number: u64) {
    NUMBER.store(number, Ordering::Relaxed);
}

fn set(words: Words) {
    if WORDS.set(words).is_ok() {
        sys::on_stop(stopped);
    }
}

/// Runs within a signal: it takes no memory and no locks.
extern "C" fn stopped(signal: i32) {
    if let Some(words) = WORDS.get() {
        sys::put_error(words.before.as_bytes());
        if let Some(after) = &words.after {
            let mut room = [0; 20];
            sys::put_error(digits(NUMBER.load(Ordering::Relaxed), &mut room));
            sys::put_error(after.as_bytes());
        }
    }
    sys::end_by(signal);
}

/// A number as text, in memory that is lent.
fn digits(mut number: u64, room: &mut [u8; 20]) -> &[u8] {
    let mut start = room.len();
    loop {
        start -= 1;
        room[start] = b'0' + (number % 10) as u8;
        number /= 10;
        if number == 0 {
            return &room[start..];
        }
    }
}

#[cfg(test)]
mod tests {
    #[test]
    fn digits_of_numbers() {
        for number in [0, 7, 10, 4_096, u64::MAX] {
            let mut room = [0; 20];
            assert_eq!(super::digits(number, &mut room), number.to_string().as_bytes());
        }
    }
}
