//! How often a call gave each refusal, so that a group can show that it met them.

use super::answer::Answer;
use super::Group;

/// Times that each refusal must come.
const OFTEN: u64 = 100;

pub struct Seen {
    call: &'static str,
    times: [u64; 256],
}

impl Seen {
    pub fn new(call: &'static str) -> Seen {
        Seen { call, times: [0; 256] }
    }

    pub fn note(&mut self, answer: Answer) {
        self.times[answer.refusal as usize] += 1;
    }

    /// Each of these refusals, 0 for none, came often.
    pub fn each_came(&self, group: &mut Group, refusals: &[usize]) {
        for &refusal in refusals {
            let often = self.times[refusal] >= OFTEN;
            group.same(|| format!("{} gave {refusal} {OFTEN} times", self.call), true, often);
        }
    }
}
