//! Further plans, any accepted plan, and missing cells: what comes back, from what, and what is refused.

use cuzhaveli::{Plan, RefusalKind, Shape};

/// Several arrays, full and not.
fn shapes() -> impl Iterator<Item = Shape> {
    let arrays = [(3, 2), (3, 3), (5, 4), (7, 7), (13, 6), (31, 2), (31, 31)];
    arrays.into_iter().map(|(p, k)| Shape::new(p, k, 3).expect("within the limits"))
}

fn clean_stripe(shape: Shape) -> Vec<u8> {
    let mut stripe: Vec<u8> = (0..shape.stripe_len()).map(|i| (i * 37 % 251) as u8).collect();
    shape.encode(&mut stripe).unwrap();
    stripe
}

/// The stripe with other bytes in every cell that the plan does not read.
fn cells_read(shape: Shape, lost: usize, plan: &Plan, stripe: &[u8]) -> Vec<u8> {
    let list = shape.plan_list(lost, &plan.bytes()).unwrap();
    assert_eq!(list.len(), plan.reads() as usize);
    assert_eq!(list.len(), (0..shape.disks() + 2).map(|disk| list.share(disk)).sum::<usize>());
    let mut survivors = vec![0xEE; shape.stripe_len()];
    for (disk, rows) in list.runs() {
        for cell in rows.map(|row| shape.cell_range(row, disk)) {
            survivors[cell.clone()].copy_from_slice(&stripe[cell]);
        }
    }
    survivors
}

#[test]
fn every_disk_comes_back_by_every_plan_from_the_cells_of_its_list() {
    for shape in shapes() {
        let stripe = clean_stripe(shape);
        for lost in 0..shape.disks() + 2 {
            let relieved = (0..shape.disks()).filter(|disk| *disk != lost);
            let relief = relieved.map(|disk| shape.relief_plan(lost, disk).unwrap());
            let balanced = shape.balanced_plan(lost).unwrap();
            let mut column = vec![0; shape.column_len()];
            let survivors = cells_read(shape, lost, &balanced, &stripe);
            shape.rebuild_balanced(lost, &survivors, &mut column).unwrap();
            assert_eq!(column, stripe[shape.disk_range(lost)]);
            let fewest = shape.fewest_plan(lost).unwrap();
            for plan in relief.chain([balanced, fewest, shape.plan(lost).unwrap()]) {
                let mut column = vec![0; shape.column_len()];
                let survivors = cells_read(shape, lost, &plan, &stripe);
                shape.rebuild_by_plan(lost, &plan.bytes(), &survivors, &mut column).unwrap();
                assert_eq!(column, stripe[shape.disk_range(lost)]);
            }
        }
    }
}

#[test]
fn the_shares_are_those_that_the_plans_promise() {
    for shape in shapes().filter(|shape| shape.disks() == shape.width()) {
        let p = shape.width();
        for lost in 0..p {
            let balanced = shape.balanced_plan(lost).unwrap();
            let list = shape.plan_list(lost, &balanced.bytes()).unwrap();
            let busiest = (0..p + 2).map(|disk| list.share(disk)).max();
            assert_eq!(
                (balanced.reads() as usize, busiest),
                ((3 * p * p + 1) / 4, Some((3 * p + 2) / 4))
            );
            for disk in (0..p).filter(|disk| *disk != lost) {
                let relief = shape.relief_plan(lost, disk).unwrap();
                let list = shape.plan_list(lost, &relief.bytes()).unwrap();
                assert_eq!(
                    (relief.reads() as usize, list.share(disk)),
                    ((3 * p * p + 1) / 4, (p + 1) / 2)
                );
            }
        }
    }
}

#[test]
fn the_fewest_plan_reads_no_more_than_the_others_and_as_few_as_promised() {
    for shape in shapes() {
        let (p, k) = (shape.width(), shape.disks());
        for lost in 0..k {
            let reads = shape.fewest_plan(lost).unwrap().reads() as usize;
            let others = (0..k).filter(|disk| *disk != lost);
            let others = others.map(|disk| shape.relief_plan(lost, disk).unwrap());
            let ours = [shape.plan(lost).unwrap(), shape.balanced_plan(lost).unwrap()];
            assert!(others.chain(ours).all(|plan| reads <= plan.reads() as usize));
            assert!(4 * reads + (k - 1) * (p + 1) <= 4 * k * p);
            let least = [
                (p, (3 * p * p + 1) / 4),
                (p - 1, (3 * p * p + 5) / 4 - p),
                (2, (3 * p).div_ceil(2)),
            ];
            assert!(least.iter().all(|(disks, fewest)| k != *disks || reads == *fewest));
        }
        for parity in [k, k + 1] {
            assert_eq!(shape.fewest_plan(parity).unwrap(), shape.plan(parity).unwrap());
        }
    }
}

#[test]
fn a_plan_that_the_judge_refuses_gives_its_step_and_the_column_stands() {
    for shape in shapes() {
        let stripe = clean_stripe(shape);
        let by_rows: Vec<u8> = (0..shape.width() as u8).flat_map(|row| [row, 0, row]).collect();
        for (field, value, refusal) in [(0, 255, 6), (2, 0, 7), (0, 0, 7)] {
            let mut plan = by_rows.clone();
            plan[3 + field] = value;
            let mut column = vec![9; shape.column_len()];
            let refused = [
                shape.rebuild_by_plan(0, &plan, &stripe, &mut column).unwrap_err(),
                shape.plan_list(0, &plan).unwrap_err(),
                shape.judge_bytes(0, &plan).unwrap_err(),
            ];
            assert_eq!(refused.map(|given| (given.number(), given.place())), [(refusal, 1); 3]);
            assert_eq!(column, vec![9; shape.column_len()]);
        }
    }
}

/// The stripe with other bytes in the marked cells.
fn without(shape: Shape, marks: &[u8], stripe: &[u8]) -> Vec<u8> {
    let mut left = stripe.to_vec();
    for place in (0..marks.len()).filter(|place| marks[*place] != 0) {
        left[shape.cell_range(place % shape.width(), place / shape.width())].fill(0xEE);
    }
    left
}

#[test]
fn missing_cells_of_two_disks_come_back_and_one_more_is_refused() {
    for shape in shapes() {
        let (stripe, p) = (clean_stripe(shape), shape.width());
        for first in 0..shape.disks() + 2 {
            let second = (first + 1) % (shape.disks() + 2);
            let mut marks = vec![0; p * (shape.disks() + 2)];
            marks[first * p..(first + 1) * p].fill(255);
            marks[second * p..(second + 1) * p].fill(1);
            let mut mended = without(shape, &marks, &stripe);
            shape.rebuild_cells(&marks, &mut mended).unwrap();
            assert_eq!(mended, stripe);
            let third = (first + 2) % (shape.disks() + 2);
            marks[third * p] = 1;
            let left = without(shape, &marks, &stripe);
            let mut stands = left.clone();
            let refusal = shape.rebuild_cells(&marks, &mut stands).unwrap_err();
            assert_eq!((refusal.kind(), refusal.number()), (RefusalKind::Undetermined, 23));
            assert_eq!(stands, left);
        }
    }
}

#[test]
fn no_mark_changes_nothing_and_all_marks_are_refused() {
    for shape in shapes() {
        let before = vec![7; shape.stripe_len()]; // of no clean stripe
        let mut stripe = before.clone();
        let cells = shape.width() * (shape.disks() + 2);
        shape.rebuild_cells(&vec![0; cells], &mut stripe).unwrap();
        assert_eq!(shape.rebuild_cells(&vec![1; cells], &mut stripe).unwrap_err().number(), 23);
        assert_eq!(stripe, before);
    }
}
