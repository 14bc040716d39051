//! Random plans that are accepted.

use super::{Choice, Loss};
use crate::harness::model::{our_steps, Step};
use crate::harness::Random;

impl Loss {
    /// A random accepted plan.
    pub fn accepted(&self, random: &mut Random) -> Vec<Step> {
        loop {
            let mut chosen = self.base(random);
            self.take_extra(&mut chosen, random);
            if let Some(steps) = accepted_order(chosen, random) {
                return steps;
            }
        }
    }

    /// One choice for each row, of one of several sorts.
    fn base(&self, random: &mut Random) -> Vec<Choice> {
        match random.below(6) {
            0 => self.lean(0, random),
            1 => self.lean(1, random),
            2 => self.ours(),
            3 => self.first_diagonals(random),
            4 => self.changed_in_few(random),
            _ => self.choices.iter().map(|of_row| random.pick(of_row).clone()).collect(),
        }
    }

    /// Random choices, mostly of one kind.
    fn lean(&self, kind: usize, random: &mut Random) -> Vec<Choice> {
        let pick = |of_row: &Vec<Choice>| {
            let liked = of_row.iter().find(|choice| choice.step.kind == kind);
            match liked {
                Some(choice) if !random.once_in(4) => choice.clone(),
                _ => random.pick(of_row).clone(),
            }
        };
        self.choices.iter().map(pick).collect()
    }

    /// The choices of our plan.
    fn ours(&self) -> Vec<Choice> {
        let steps = our_steps(self.p, self.k, self.disk);
        steps.iter().map(|step| self.choice_of(step)).collect()
    }

    /// D 0 to D (t - 1) and row sets, t near half; another plan as short as ours.
    fn first_diagonals(&self, random: &mut Random) -> Vec<Choice> {
        let t = (self.p - 1) / 2 + random.below(2);
        let taken = |choice: &&Choice| {
            let early = choice.step.kind == 1 && choice.step.number < t;
            early && !choice.extra
        };
        let pick = |of_row: &Vec<Choice>| {
            let early = of_row.iter().find(taken);
            early.unwrap_or(&of_row[0]).clone()
        };
        self.choices.iter().map(pick).collect()
    }

    /// A short plan with another choice in a few rows.
    fn changed_in_few(&self, random: &mut Random) -> Vec<Choice> {
        let mut chosen = match random.once_in(2) {
            true => self.ours(),
            false => self.first_diagonals(random),
        };
        for _ in 0..1 + random.below(3) {
            let place = random.below(self.p);
            let row = chosen[place].step.row;
            chosen[place] = random.pick(&self.choices[row]).clone();
        }
        chosen
    }

    /// Once in three, rebuilds a cell through a diagonal holding it only as extra.
    fn take_extra(&self, chosen: &mut [Choice], random: &mut Random) {
        let extra = self.choices.iter().flatten().find(|choice| choice.extra);
        let Some(extra) = extra.filter(|_| random.once_in(3)) else {
            return;
        };
        for choice in chosen {
            if choice.step.row == extra.step.row {
                *choice = extra.clone();
            } else if choice.step.kind == 1 && choice.step.number == extra.step.number {
                *choice = self.choices[choice.step.row][0].clone();
            }
        }
    }
}

/// The choices in a random order that is accepted, if there is one.
pub fn accepted_order(chosen: Vec<Choice>, random: &mut Random) -> Option<Vec<Step>> {
    let mut left = chosen;
    let mut order: Vec<Step> = Vec::new();
    while !left.is_empty() {
        let ready: Vec<usize> =
            (0..left.len()).filter(|&place| ready(&left[place], &order)).collect();
        if ready.is_empty() {
            return None;
        }
        order.push(left.swap_remove(*random.pick(&ready)).step);
    }
    Some(order)
}

/// All rows that the choice needs stand.
pub fn ready(choice: &Choice, order: &[Step]) -> bool {
    choice.needs.iter().all(|row| order.iter().any(|step| step.row == *row))
}
