//! A group of comparisons: counts them and reports what differs.

use std::fmt::Debug;

use super::part::Part;
use super::Shape;

/// Differences shown for one group; further ones are only counted.
const SHOWN: u64 = 5;

/// Characters shown of one value.
const SHOWN_LENGTH: usize = 2_000;

pub struct Group {
    name: String,
    comparisons: u64,
    differences: u64,
}

impl Group {
    pub fn new(name: &str) -> Group {
        Group { name: name.to_string(), comparisons: 0, differences: 0 }
    }

    /// Compares two values; `call` names the call and its arguments.
    pub fn same<T: PartialEq + Debug>(
        &mut self,
        call: impl FnOnce() -> String,
        expected: T,
        got: T,
    ) {
        self.comparisons += 1;
        if expected != got {
            self.differ(&call(), &format!("{expected:?}"), &format!("{got:?}"));
        }
    }

    /// Compares two stretches of bytes and tells the first place that differs.
    pub fn same_bytes(&mut self, call: impl FnOnce() -> String, expected: &[u8], got: &[u8]) {
        self.same_part(call, Part::Any, expected, got);
    }

    /// Compares stripes, with guards around them or without, and tells the place by disk and row.
    pub fn same_stripe(
        &mut self,
        call: impl FnOnce() -> String,
        shape: Shape,
        expected: &[u8],
        got: &[u8],
    ) {
        self.same_part(call, Part::Stripe(shape), expected, got);
    }

    /// Compares columns, with guards around them or without, and tells the place by row.
    pub fn same_column(
        &mut self,
        call: impl FnOnce() -> String,
        shape: Shape,
        expected: &[u8],
        got: &[u8],
    ) {
        self.same_part(call, Part::Column(shape), expected, got);
    }

    fn same_part(
        &mut self,
        call: impl FnOnce() -> String,
        part: Part,
        expected: &[u8],
        got: &[u8],
    ) {
        self.comparisons += 1;
        if expected == got {
            return;
        }
        let place = expected.iter().zip(got).take_while(|(a, b)| a == b).count();
        let named = part.name(expected.len(), place);
        let call = format!("{}, first differing byte {place}{named}", call());
        self.differ(&call, &show(expected, place), &show(got, place));
    }

    fn differ(&mut self, call: &str, expected: &str, got: &str) {
        self.differences += 1;
        if self.differences <= SHOWN {
            println!("reference: {}: DIFFERS: {}", self.name, cut(call));
            println!("  expected: {}", cut(expected));
            println!("  got:      {}", cut(got));
        }
    }

    /// Prints the group's line; true if all comparisons agree.
    pub fn finish(self) -> bool {
        if self.differences == 0 {
            println!("reference: {}: {} comparisons agree", self.name, self.comparisons);
        } else {
            println!(
                "reference: {}: {} of {} comparisons differ",
                self.name, self.differences, self.comparisons
            );
        }
        self.differences == 0
    }
}

/// The bytes as text; of a long stretch, those around the place.
fn show(bytes: &[u8], place: usize) -> String {
    let length = bytes.len();
    if length <= SHOWN_LENGTH {
        return format!("{length} bytes \"{}\"", bytes.escape_ascii());
    }
    let part = &bytes[place.saturating_sub(8)..(place + 24).min(length)];
    format!("{length} bytes, around the place \"{}\"", part.escape_ascii())
}

fn cut(text: &str) -> String {
    match text.char_indices().nth(SHOWN_LENGTH) {
        Some((end, _)) => format!("{} ...", &text[..end]),
        None => text.to_string(),
    }
}
