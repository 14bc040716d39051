//! How far a command is, on standard error: a bar on a terminal, else a line a minute.

use std::io::{self, IsTerminal, Write};
use std::time::{Duration, Instant};

use cuzhaveli_images::names::bytes;

const CELLS: u64 = 30;
/// What takes less is not worth a bar.
const SHORT: Duration = Duration::from_secs(1);
const PAUSE: Duration = Duration::from_millis(200);
const MINUTE: Duration = Duration::from_secs(60);

#[derive(Clone, Copy, Debug, PartialEq, Eq)]
enum Form {
    Off,
    Bar,
    Lines,
}

impl Form {
    fn of(quiet: bool, terminal: bool) -> Form {
        match (quiet, terminal) {
            (true, _) => Form::Off,
            (false, true) => Form::Bar,
            (false, false) => Form::Lines,
        }
    }

    /// Whether something is to be shown now, so long after the begin and after the last time.
    fn is_due(self, begun: Duration, shown: Option<Duration>) -> bool {
        match self {
            Form::Off => false,
            Form::Bar => begun >= SHORT && shown.is_none_or(|shown| shown >= PAUSE),
            Form::Lines => shown.unwrap_or(begun) >= MINUTE,
        }
    }
}

pub struct Progress {
    what: String,
    /// Bytes to go through; none if nobody knows.
    total: Option<u64>,
    done: u64,
    /// What a line says more, such as how to go on from here.
    note: String,
    begun: Instant,
    shown: Option<Instant>,
    form: Form,
}

impl Progress {
    pub fn new(what: String, total: Option<u64>, quiet: bool) -> Progress {
        let form = Form::of(quiet, io::stderr().is_terminal());
        let note = String::new();
        Progress { what, total, done: 0, note, begun: Instant::now(), shown: None, form }
    }

    /// From now on lines say this too.
    pub fn note(&mut self, note: String) {
        self.note = note;
    }

    /// So many bytes more are done.
    pub fn add(&mut self, bytes: u64) {
        self.done += bytes;
        let begun = self.begun.elapsed();
        if !self.form.is_due(begun, self.shown.map(|shown| shown.elapsed())) {
            return;
        }
        self.shown = Some(Instant::now());
        let _ = match self.form {
            Form::Lines => {
                let line = line(&self.what, self.done, self.total, begun);
                writeln!(io::stderr(), "cuzhaveli: {line}{}", self.note)
            }
            _ => {
                let bar = bar(&self.what, self.done, self.total, begun);
                write!(io::stderr(), "\r{bar}\x1b[K")
            }
        };
    }
}

impl Drop for Progress {
    fn drop(&mut self) {
        if self.shown.is_some() && self.form == Form::Bar {
            let _ = write!(io::stderr(), "\r\x1b[K");
        }
    }
}

/// What is known of work that is under way: what was done, its part of all, the bytes a second, the
/// time left.
struct Speed {
    done: String,
    part: Option<f64>,
    rate: String,
    left: String,
}

fn pace(done: u64, total: Option<u64>, elapsed: Duration) -> Speed {
    let speed = done as f64 / elapsed.as_secs_f64().max(0.001);
    let rate = format!("{}/s", bytes(speed as u64));
    let part = total.map(|total| (done as f64 / total.max(1) as f64).min(1.0));
    let part = if total == Some(0) { Some(1.0) } else { part };
    let left = total.unwrap_or(0).saturating_sub(done) as f64 / speed.max(1.0);
    Speed { done: bytes(done), part, rate, left: clock(left as u64) }
}

/// Seconds as `0:41` or `2:03:07`.
fn clock(seconds: u64) -> String {
    let (hours, minutes, seconds) = (seconds / 3600, seconds / 60 % 60, seconds % 60);
    match hours {
        0 => format!("{minutes}:{seconds:02}"),
        _ => format!("{hours}:{minutes:02}:{seconds:02}"),
    }
}

/// Such as `check: 60 %, 412.0 MiB/s, 0:41 left`.
fn line(what: &str, done: u64, total: Option<u64>, elapsed: Duration) -> String {
    let Speed { done, part, rate, left } = pace(done, total, elapsed);
    match part {
        Some(part) => format!("{what}: {:.0} %, {rate}, {left} left", (part * 100.0).floor()),
        None => format!("{what}: {done}, {rate}"),
    }
}

/// Such as `rebuild disk 1 [###...]  60 %  412.0 MiB/s  0:41 left`.
fn bar(what: &str, done: u64, total: Option<u64>, elapsed: Duration) -> String {
    let Speed { done, part, rate, left } = pace(done, total, elapsed);
    let Some(part) = part else { return format!("{what}  {done}  {rate}") };
    let full = (part * CELLS as f64) as usize;
    let cells = "#".repeat(full) + &".".repeat(CELLS as usize - full);
    format!("{what} [{cells}] {:3.0} %  {rate}  {left} left", (part * 100.0).floor())
}

#[cfg(test)]
mod tests {
    use super::*;

    const SECOND: Duration = Duration::from_secs(1);

    #[test]
    fn bars_and_lines() {
        let shown = bar("rebuild disk 1", 600 << 20, Some(1000 << 20), SECOND);
        let cells = format!("[{}{}]", "#".repeat(18), ".".repeat(12));
        assert_eq!(shown, format!("rebuild disk 1 {cells}  60 %  600.0 MiB/s  0:00 left"));
        assert!(bar("x", 5, Some(0), Duration::ZERO).contains("100 %"));
        assert!(bar("x", 0, Some(1 << 60), SECOND).contains("  0 %"));
        assert_eq!(bar("encode", 3 << 20, None, SECOND), "encode  3.0 MiB  3.0 MiB/s");
        assert_eq!(line("encode", 3 << 20, None, SECOND), "encode: 3.0 MiB, 3.0 MiB/s");
        let told = line("check", 1 << 20, Some(11 << 20), 6 * SECOND);
        assert_eq!(told, "check: 9 %, 170.7 KiB/s, 1:00 left");
        assert_eq!([clock(41), clock(7387)], ["0:41", "2:03:07"]);
    }

    #[test]
    fn a_bar_after_a_second_and_a_line_a_minute() {
        let (bar, lines) = (Form::of(false, true), Form::of(false, false));
        assert!(!bar.is_due(SECOND / 2, None) && bar.is_due(SECOND, None));
        assert!(!bar.is_due(9 * SECOND, Some(PAUSE / 2)) && bar.is_due(9 * SECOND, Some(PAUSE)));
        assert!(!lines.is_due(59 * SECOND, None) && lines.is_due(60 * SECOND, None));
        assert!(!lines.is_due(99 * SECOND, Some(39 * SECOND)));
        assert!(lines.is_due(120 * SECOND, Some(60 * SECOND)));
        assert!(!Form::of(true, true).is_due(900 * SECOND, None));
    }
}
