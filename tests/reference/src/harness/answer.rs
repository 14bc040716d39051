//! The parts of an answer that many calls share.

pub use crate::ffi::{Answer, YesNo as Yes};

pub const ACCEPTED: Answer = Answer { refusal: 0, place: 0 };

impl Answer {
    /// The answer with this refusal and no place.
    pub fn of(refusal: u8) -> Answer {
        Answer { refusal, place: 0 }
    }
}

pub const NO: Yes = Yes::NO;
pub const YES: Yes = Yes::YES;

/// The byte that stands for a yes or no.
pub fn yes(holds: bool) -> Yes {
    holds.into()
}
