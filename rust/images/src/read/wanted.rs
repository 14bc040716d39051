//! What is read of each stripe, and how what is lost comes back from it.

use std::collections::BTreeSet;
use std::ops::Range;

use cuzhaveli::{ReadList, Refusal, Shape};

use crate::read::set::Set;
use crate::read::way::{Choice, Way};

/// Rows of a disk that are read.
#[derive(Clone, Debug, PartialEq, Eq)]
pub struct Reading {
    pub disk: usize,
    pub rows: Range<usize>,
}

/// A cell that a call of the library needs, and the disk whose place it takes: its own, but by
/// rows.
#[derive(Clone, Copy, Debug)]
pub struct NeededCell {
    pub row: usize,
    pub disk: usize,
    pub as_disk: usize,
}

#[derive(Clone, Debug)]
pub struct Wanted {
    pub readings: Vec<Reading>,
    pub needs: Vec<NeededCell>,
    pub way: Way,
}

fn whole(shape: Shape, disk: usize) -> Reading {
    Reading { disk, rows: 0..shape.width() }
}

fn runs(list: &ReadList) -> Vec<Reading> {
    list.runs().map(|(disk, rows)| Reading { disk, rows }).collect()
}

/// The plan that is taken unasked, and its cells: of ours and the balanced one that which reads
/// fewer cells, the balanced one if there are two.
fn unasked(shape: Shape, lost: usize) -> Result<(Way, ReadList), Refusal> {
    let ours = shape.read_list(lost)?;
    let (way, list) = chosen(shape, lost, &Choice::Balanced)?;
    Ok(if list.len() <= ours.len() { (way, list) } else { (Way::Ours(lost), ours) })
}

/// The plan of a choice for one lost disk, and its cells. For P and Q there is one plan alone.
fn chosen(shape: Shape, lost: usize, choice: &Choice) -> Result<(Way, ReadList), Refusal> {
    let listed = |plan: Vec<u8>, way: fn(usize, Vec<u8>) -> Way| {
        let list = shape.plan_list(lost, &plan)?;
        Ok((way(lost, plan), list))
    };
    match choice {
        Choice::Plan(plan) => listed(plan.clone(), Way::Plan),
        Choice::Relief(disk) if lost < shape.disks() => {
            listed(shape.relief_plan(lost, *disk)?.bytes(), Way::Relief)
        }
        Choice::Balanced if lost < shape.disks() => {
            listed(shape.balanced_plan(lost)?.bytes(), |lost, _| Way::Balanced(lost))
        }
        Choice::Fewest if lost < shape.disks() => {
            listed(shape.fewest_plan(lost)?.bytes(), Way::Fewest)
        }
        Choice::Unasked => unasked(shape, lost),
        _ => Ok((Way::Ours(lost), shape.read_list(lost)?)),
    }
}

impl Wanted {
    /// Readings, and the cells of some of them that the way needs.
    fn of(readings: Vec<Reading>, needed: &[Reading], way: Way) -> Wanted {
        let need = |reading: &Reading| {
            let disk = reading.disk;
            reading.rows.clone().map(move |row| NeededCell { row, disk, as_disk: disk })
        };
        let needs = needed.iter().flat_map(need).collect();
        Wanted { readings, needs, way }
    }

    /// Some cells of disks that are there.
    pub fn cells(readings: Vec<Reading>) -> Wanted {
        Wanted::of(readings, &[], Way::None)
    }

    /// Every cell of every disk that is there.
    pub fn all(set: &Set) -> Wanted {
        Wanted::all_but(set, &[])
    }

    /// The same without some disks.
    fn all_but(set: &Set, away: &[usize]) -> Wanted {
        let shape = set.label.geometry.shape;
        let there = set.present().filter(|disk| !away.contains(disk));
        Wanted::cells(there.map(|disk| whole(shape, disk)).collect())
    }

    /// What a rebuild of the lost disks reads.
    pub fn rebuild(set: &Set, lost: &[usize], choice: &Choice) -> Result<Wanted, Refusal> {
        let shape = set.label.geometry.shape;
        let all = || Wanted::all(set).readings;
        Ok(match (choice, lost) {
            (_, []) => Wanted::cells(Vec::new()),
            (Choice::Tested, [one]) => Wanted::of(all(), &all(), Way::Tested(*one)),
            (Choice::Rows, [one]) if *one < shape.disks() => Wanted::by_rows(set, *one),
            (_, [one]) => {
                let (way, list) = chosen(shape, *one, choice)?;
                Wanted::of(runs(&list), &runs(&list), way)
            }
            (_, [first, second, ..]) => Wanted::of(all(), &all(), Way::Two([*first, *second])),
        })
    }

    /// Every row.
    fn by_rows(set: &Set, lost: usize) -> Wanted {
        let shape = set.label.geometry.shape;
        let disks = set.present().filter(|disk| *disk <= shape.disks());
        let readings: Vec<Reading> = disks.map(|disk| whole(shape, disk)).collect();
        let mut wanted = Wanted::of(readings.clone(), &readings, Way::Rows(lost));
        wanted.by_p(shape.disks(), lost);
        wanted
    }

    /// Some cells of disks that are there, upward, and rows of a lost data disk by P and the other
    /// data disks, which must be there.
    pub fn with_rows(
        set: &Set,
        cells: &[(usize, usize)],
        lost: usize,
        rows: Range<usize>,
    ) -> Wanted {
        let p = set.label.geometry.shape.disks();
        let others = (0..=p).filter(|disk| *disk != lost);
        let line: Vec<Reading> = others.map(|disk| Reading { disk, rows: rows.clone() }).collect();
        let each = line.iter().flat_map(|one| one.rows.clone().map(|row| (one.disk, row)));
        let all: BTreeSet<(usize, usize)> = cells.iter().copied().chain(each).collect();
        let single = |(disk, row): (usize, usize)| Reading { disk, rows: row..row + 1 };
        let readings = all.into_iter().map(single).collect();
        let mut wanted = Wanted::of(readings, &line, Way::SomeRows(lost, rows));
        wanted.by_p(p, lost);
        wanted
    }

    /// Lets P stand in the place of a lost data disk: the XOR of each row, which is P otherwise, is
    /// then what was lost.
    fn by_p(&mut self, p: usize, lost: usize) {
        self.needs.iter_mut().filter(|need| need.disk == p).for_each(|need| need.as_disk = lost);
    }

    /// What the film needs: the data disks and, for one that is lost, the parity cells of a plan;
    /// all of the others where two are lost.
    pub fn film(set: &Set) -> Result<Wanted, Refusal> {
        Wanted::film_but(set, &[])
    }

    /// The same where some disks are there and not asked.
    pub fn film_but(set: &Set, away: &[usize]) -> Result<Wanted, Refusal> {
        let shape = set.label.geometry.shape;
        let data = |disk: &usize| *disk < shape.disks();
        let there = |disk: &usize| set.image(*disk).is_some() && !away.contains(disk);
        let (present, lost): (Vec<usize>, Vec<usize>) =
            (0..set.label.geometry.disks()).partition(there);
        let readings: Vec<Reading> =
            present.into_iter().filter(data).map(|disk| whole(shape, disk)).collect();
        match lost[..] {
            [one] if data(&one) => {
                let (way, list) = unasked(shape, one)?;
                let needed = runs(&list);
                let parity = needed.iter().filter(|reading| !data(&reading.disk)).cloned();
                Ok(Wanted::of(readings.into_iter().chain(parity).collect(), &needed, way))
            }
            [first, second] if data(&first) || data(&second) => {
                let all = Wanted::all_but(set, away).readings;
                Ok(Wanted::of(all.clone(), &all, Way::Two([first, second])))
            }
            _ => Ok(Wanted::cells(readings)),
        }
    }

    /// The pieces that are read of a unit, by disk and row.
    pub fn pieces(&self) -> impl Iterator<Item = (usize, usize)> + '_ {
        self.readings.iter().flat_map(|one| one.rows.clone().map(|row| (one.disk, row)))
    }

    /// The cells that are read of a stripe.
    pub fn reads(&self) -> usize {
        self.readings.iter().map(|reading| reading.rows.len()).sum()
    }

    /// The cells that are read of a disk of a stripe.
    fn share(&self, disk: usize) -> usize {
        self.readings.iter().filter(|one| one.disk == disk).map(|one| one.rows.len()).sum()
    }

    /// The cells of a stripe that are read of the disk of which the most are.
    pub fn busiest(&self) -> usize {
        self.readings.iter().map(|one| self.share(one.disk)).max().unwrap_or(0)
    }

    /// Disks by how much is read of them, the least first.
    pub fn quietest(&self, set: &Set) -> Vec<usize> {
        let mut disks: Vec<usize> = set.present().collect();
        disks.sort_by_key(|disk| self.share(*disk));
        disks
    }
}
