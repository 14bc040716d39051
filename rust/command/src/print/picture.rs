//! A plan as a picture: which cells it reads, and for what.

use std::fmt::Write;

use cuzhaveli::{Plan, Set as CellSet, Shape};
use cuzhaveli_images::fault::Fault;
use cuzhaveli_images::names::disk_name;

use crate::print::cell_sets::{self, holds};

/// What happens to a cell.
#[derive(Clone, Copy, Debug, PartialEq, Eq)]
pub enum Mark {
    Lost,
    Row,
    Diagonal,
    Both,
    Unread,
}

impl Mark {
    pub const ALL: [Mark; 5] = [Mark::Lost, Mark::Row, Mark::Diagonal, Mark::Both, Mark::Unread];

    pub fn letter(self) -> char {
        match self {
            Mark::Lost => 'x',
            Mark::Row => '-',
            Mark::Diagonal => '/',
            Mark::Both => '#',
            Mark::Unread => '.',
        }
    }

    pub fn meaning(self) -> &'static str {
        match self {
            Mark::Lost => "lost",
            Mark::Row => "read for a row",
            Mark::Diagonal => "for a diagonal",
            Mark::Both => "for both",
            Mark::Unread => "not read",
        }
    }
}

/// The picture of a plan for a lost disk.
pub struct Picture {
    pub shape: Shape,
    lost: usize,
    plan: String,
    reads: u32,
    /// Row by row, disk by disk.
    pub marks: Vec<Vec<Mark>>,
    /// The set that rebuilds each row's lost cell.
    pub sets: Vec<String>,
}

impl Picture {
    /// Draws a plan of that name from its sets, and holds the drawing to the library's read list.
    pub fn of(shape: Shape, lost: usize, plan: &Plan, name: String) -> Result<Picture, Fault> {
        let list = shape.plan_list(lost, &plan.bytes())?;
        let mut sets_of = vec![String::new(); shape.width()];
        for step in plan.steps() {
            sets_of[usize::from(step.row)] = cell_sets::name(step.set);
        }
        let used: Vec<CellSet> = plan.steps().map(|step| step.set).collect();
        let disks = 0..shape.disks() + 2;
        let mark = |row| disks.clone().map(|disk| mark(shape, &used, lost, row, disk)).collect();
        let marks: Vec<Vec<Mark>> = (0..shape.width()).map(mark).collect();
        let agrees = |row: usize, disk: usize| {
            list.contains(row, disk) != matches!(marks[row][disk], Mark::Lost | Mark::Unread)
        };
        if !(0..shape.width()).all(|row| disks.clone().all(|disk| agrees(row, disk))) {
            return Err(Fault::Failed(
                "a defect: picture and read list differ; please report it".into(),
            ));
        }
        Ok(Picture { shape, lost, plan: name, reads: plan.reads(), marks, sets: sets_of })
    }

    /// How many cells of a disk are read.
    pub fn share(&self, disk: usize) -> usize {
        self.marks.iter().filter(|row| !matches!(row[disk], Mark::Lost | Mark::Unread)).count()
    }

    /// The share of each disk, with the lost one's mark in its place.
    pub fn shares(&self) -> Vec<String> {
        let share = |disk| match disk == self.lost {
            true => Mark::Lost.letter().to_string(),
            false => self.share(disk).to_string(),
        };
        (0..self.shape.disks() + 2).map(share).collect()
    }

    /// The words after the shares.
    pub fn most(&self) -> String {
        let most = (0..self.shape.disks() + 2).map(|disk| self.share(disk)).max().unwrap_or(0);
        format!("at most {most}")
    }

    /// The line above the picture.
    pub fn title(&self) -> String {
        let (p, k, reads) = (self.shape.width(), self.shape.disks(), self.reads);
        let disks = if k == p { String::new() } else { format!(", {k} data disks") };
        let (lost, plan) = (self.disk_name(self.lost), &self.plan);
        let (survivors, rows) = (p * (k + 1), p * k);
        format!(
            "width {p}{disks}, lost disk {lost}, {plan}: {reads} of {survivors} surviving cells read (all rows: {rows})"
        )
    }

    /// The name of a disk at the head of its column.
    pub fn disk_name(&self, disk: usize) -> String {
        disk_name(self.shape, disk)
    }

    /// The picture for a terminal.
    pub fn text(&self) -> String {
        let mut text = format!("{}\n\n     ", self.title());
        for disk in 0..self.shape.disks() + 2 {
            let _ = write!(text, "{:>3}", self.disk_name(disk));
        }
        text.push('\n');
        for (row, (marks, set)) in self.marks.iter().zip(&self.sets).enumerate() {
            let cells: String = marks.iter().map(|mark| format!("  {}", mark.letter())).collect();
            let _ = writeln!(text, "{row:>4} {cells}   {set}");
        }
        let shares: String = self.shares().iter().map(|share| format!("{share:>3}")).collect();
        let _ = writeln!(text, "read {shares}   {}", self.most());
        let legend = Mark::ALL.map(|mark| format!("{} {}", mark.letter(), mark.meaning()));
        text + "\n  " + &legend.join("   ") + "\n"
    }
}

fn mark(shape: Shape, used: &[CellSet], lost: usize, row: usize, disk: usize) -> Mark {
    let by =
        |is: fn(&CellSet) -> bool| used.iter().any(|set| is(set) && holds(shape, *set, row, disk));
    let by_row = by(|set| matches!(set, CellSet::Row(_)));
    let by_diagonal = by(|set| matches!(set, CellSet::Diagonal(_)));
    match (disk == lost, by_row, by_diagonal) {
        (true, ..) => Mark::Lost,
        (_, true, true) => Mark::Both,
        (_, true, false) => Mark::Row,
        (_, false, true) => Mark::Diagonal,
        (_, false, false) => Mark::Unread,
    }
}

#[cfg(test)]
mod tests {
    use super::*;

    fn of(shape: Shape, lost: usize, plan: Plan) -> Picture {
        let picture = Picture::of(shape, lost, &plan, "plan".into()).unwrap();
        let reads: usize = (0..shape.disks() + 2).map(|disk| picture.share(disk)).sum();
        assert_eq!(reads, picture.reads as usize);
        assert!(picture.sets.iter().all(|set| !set.is_empty()));
        picture
    }

    #[test]
    fn every_plan_has_a_picture_that_its_read_list_agrees_with() {
        for p in [3, 5, 7, 11, 13, 17, 19, 23, 29, 31] {
            for k in 2..=p {
                let shape = Shape::new(p, k, 1).unwrap();
                for lost in 0..k + 2 {
                    of(shape, lost, shape.plan(lost).unwrap());
                    of(shape, lost, shape.balanced_plan(lost).unwrap());
                    of(shape, lost, shape.fewest_plan(lost).unwrap());
                }
            }
        }
    }

    #[test]
    fn the_shares_of_the_further_plans() {
        let shape = Shape::new(31, 31, 1).unwrap();
        let balanced = of(shape, 3, shape.balanced_plan(3).unwrap());
        assert_eq!(balanced.most(), "at most 23");
        let relief = of(shape, 3, shape.relief_plan(3, 8).unwrap());
        assert_eq!((relief.share(8), &*relief.shares()[3], &*relief.shares()[8]), (16, "x", "16"));
    }
}
