//! The arrays that groups go through: widths p with numbers k of data disks.

use super::model::WIDTHS;

/// Every array: all k of every width.
pub fn every() -> Vec<(usize, usize)> {
    WIDTHS.iter().flat_map(|&p| (2..=p).map(move |k| (p, k))).collect()
}

/// All k of the widths up to 7; the least, a middle one and the two greatest of the others.
pub fn some() -> Vec<(usize, usize)> {
    let chosen = |p: usize| match p {
        3..=7 => (2..=p).collect(),
        _ => vec![2, p / 2, p - 1, p],
    };
    WIDTHS.iter().flat_map(|&p| chosen(p).into_iter().map(move |k| (p, k))).collect()
}
