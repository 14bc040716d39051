//! A lost disk and the steps that could rebuild each of its rows.

use crate::harness::arrays;
use crate::harness::model::{extra_cell, lost_rows, Step, WIDTHS};

/// A step that could rebuild its row, and the rows that must stand before it.
#[derive(Clone, Debug)]
pub struct Choice {
    pub step: Step,
    pub needs: Vec<usize>,
    /// The diagonal holds the row's lost cell only as its extra cell.
    pub extra: bool,
}

/// One lost disk of one array, with every choice of each row.
pub struct Loss {
    pub p: usize,
    pub k: usize,
    pub disk: usize,
    pub choices: Vec<Vec<Choice>>,
}

impl Loss {
    pub fn new(p: usize, k: usize, disk: usize) -> Loss {
        let mut choices = vec![Vec::new(); p];
        for kind in 0..2 {
            for number in 0..p {
                let lost = lost_rows(p, k, disk, kind, number);
                for &row in &lost {
                    let needs = lost.iter().copied().filter(|r| *r != row).collect();
                    let extra = kind == 1 && extra_cell(p, k, number) == Some((row, disk));
                    let step = Step { row, kind, number };
                    choices[row].push(Choice { step, needs, extra });
                }
            }
        }
        Loss { p, k, disk, choices }
    }

    /// Every lost disk of one array.
    fn of_array((p, k): (usize, usize)) -> Vec<Loss> {
        (0..k + 2).map(|disk| Loss::new(p, k, disk)).collect()
    }

    /// Every lost disk of every width with as many data disks as rows.
    pub fn full() -> Vec<Loss> {
        WIDTHS.iter().flat_map(|&p| Loss::of_array((p, p))).collect()
    }

    /// Those of every width with several numbers of data disks; of large arrays that are not full,
    /// the first disk, the last two data disks, P and Q.
    pub fn some() -> Vec<Loss> {
        let kept = |loss: &Loss| {
            let ends = loss.disk == 0 || loss.disk + 2 >= loss.k;
            loss.is_full() || loss.p <= 13 || ends
        };
        arrays::some().into_iter().flat_map(Loss::of_array).filter(kept).collect()
    }

    /// There are as many data disks as rows.
    pub fn is_full(&self) -> bool {
        self.k == self.p
    }

    /// The choice of a row that a step is.
    pub fn choice_of(&self, step: &Step) -> Choice {
        let found = self.choices[step.row].iter().find(|choice| choice.step == *step);
        found.expect("a step that the sets allow").clone()
    }

    /// The choices that need another row first.
    pub fn needing(&self) -> Vec<&Choice> {
        self.choices.iter().flatten().filter(|choice| !choice.needs.is_empty()).collect()
    }

    /// A plan that begins with a step and goes on with the other rows' first choices.
    pub fn started_with(&self, first: Step) -> Vec<Step> {
        let others = self.choices.iter().map(|of_row| of_row[0].step);
        let others = others.filter(|step| step.row != first.row);
        std::iter::once(first).chain(others).collect()
    }
}
