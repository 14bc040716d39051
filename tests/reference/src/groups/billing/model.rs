//! Bills in the second implementation.

use super::calls::Bill;
use crate::groups::rebuild_runs::calls::Run;
use crate::groups::rebuild_runs::model::run_progress;
use crate::harness::answer::{Answer, ACCEPTED};
use std::cmp::Ordering;

const GIB: u128 = 1 << 30;

fn no_bill(answer: Answer) -> Bill {
    Bill { answer, ..Bill::default() }
}

/// The bill of so many bytes, band by band.
pub fn bill_bytes(bytes: u64, rates: [u64; 3]) -> Bill {
    if rates.iter().any(|rate| *rate > 1_000) {
        return no_bill(Answer::of(16));
    }
    if bytes > 1 << 54 {
        return no_bill(Answer::of(17));
    }
    let mut left = bytes as u128;
    let mut bands = [0; 3];
    let mut charge = 0;
    for (band, room) in [64 * GIB, (1_024 - 64) * GIB, u128::MAX].into_iter().enumerate() {
        let taken = left.min(room);
        left -= taken;
        bands[band] = taken as u64;
        charge += taken * rates[band] as u128;
    }
    Bill::of(bands, nearest_cents(charge))
}

/// The nearer of the whole cents below and above a charge, the even one where it lies half way.
fn nearest_cents(charge: u128) -> u64 {
    let below = charge / GIB;
    let above = below + 1;
    let nearest = match (charge - below * GIB).cmp(&(above * GIB - charge)) {
        Ordering::Less => below,
        Ordering::Greater => above,
        Ordering::Equal => [below, above][(below % 2) as usize],
    };
    nearest as u64
}

/// The bill of a run.
pub fn bill_run(run: &Run, rates: [u64; 3]) -> Bill {
    let progress = run_progress(run);
    match progress.answer {
        ACCEPTED => bill_bytes(progress.cells * run.shape.cell_size as u64, rates),
        answer => no_bill(answer),
    }
}
