//! The safe calls on any argument: refused by number, nothing written, no panic.

use cuzhaveli::ffi::{self, DisksRun, FullRun};
use cuzhaveli::{
    bill, plan_text, report_disk, version, ArrayState, Refusal, RefusalKind, Run, Scrub, Set,
    Shape, Step, Totals, NO_LOSS,
};

const WIDTHS: [usize; 10] = [3, 5, 7, 11, 13, 17, 19, 23, 29, 31];
const HUGE: [usize; 6] =
    [1 << 32, (1 << 32) + 5, 1 << 63, usize::MAX - 4, usize::MAX - 1, usize::MAX];

/// Every width with its fewest and its most data disks.
fn shapes() -> impl Iterator<Item = Shape> {
    let of = |(p, k)| Shape::new(p, k, 3).expect("within the limits");
    WIDTHS.into_iter().flat_map(|p| [(p, 2), (p, p)]).map(of)
}

fn number<T: std::fmt::Debug>(result: Result<T, Refusal>) -> u8 {
    result.expect_err("a refusal").number()
}

/// Lengths that a slice of this length must not have.
fn other_lengths(right: usize) -> [usize; 5] {
    [0, 1, right - 1, right + 1, 2 * right]
}

#[test]
fn shapes_are_refused_in_the_order_1_13_2() {
    for bad in HUGE.into_iter().chain([0, 1, 2, 4, 9, 32, 37]) {
        assert_eq!(number(Shape::new(bad, bad, 0)), 1);
        for p in WIDTHS.into_iter().filter(|p| bad < 2 || bad > *p) {
            assert_eq!(number(Shape::new(p, bad, 0)), 13);
        }
        for size in HUGE.into_iter().chain([0, 4_097]) {
            assert_eq!(number(Shape::new(31, 2, size)), 2);
        }
    }
}

#[test]
fn a_slice_of_another_length_gives_5_and_stands() {
    for shape in shapes() {
        let (stripe, column) = (shape.stripe_len(), shape.column_len());
        let mut run = shape.open_run(0, 1).unwrap();
        let plan = shape.plan(0).unwrap().bytes();
        let no_marks = vec![0; shape.width() * (shape.disks() + 2)];
        for other in other_lengths(stripe) {
            let mut bytes = vec![7; other];
            let mut right = vec![9; column];
            assert_eq!(number(shape.encode(&mut bytes)), 5);
            assert_eq!(number(shape.is_clean(&bytes)), 5);
            assert_eq!(number(shape.scrub(&bytes)), 5);
            assert_eq!(number(shape.rebuild_two([0, 1], &mut bytes)), 5);
            assert_eq!(number(shape.update_cell(0, 0, &mut bytes, &[7; 3])), 5);
            assert_eq!(number(shape.rebuild_one(0, &bytes, &mut right)), 5);
            assert_eq!(number(shape.rebuild_tested(0, &bytes, &mut right)), 5);
            assert_eq!(number(shape.rebuild_balanced(0, &bytes, &mut right)), 5);
            assert_eq!(number(shape.rebuild_by_plan(0, &plan, &bytes, &mut right)), 5);
            assert_eq!(number(shape.rebuild_cells(&no_marks, &mut bytes)), 5);
            assert_eq!(number(run.step(0, &bytes, &mut right)), 5);
            assert_eq!((bytes, right), (vec![7; other], vec![9; column]));
        }
        for other in other_lengths(column) {
            let (bytes, mut part) = (vec![7; stripe], vec![9; other]);
            assert_eq!(number(shape.rebuild_one(0, &bytes, &mut part)), 5);
            assert_eq!(number(shape.rebuild_tested(0, &bytes, &mut part)), 5);
            assert_eq!(number(shape.rebuild_balanced(0, &bytes, &mut part)), 5);
            assert_eq!(number(shape.rebuild_by_plan(0, &plan, &bytes, &mut part)), 5);
            assert_eq!(number(run.step(0, &bytes, &mut part)), 5);
            assert_eq!(part, vec![9; other]);
        }
        for other in other_lengths(shape.cell_size()) {
            let mut bytes = vec![7; stripe];
            assert_eq!(number(shape.update_cell(0, 0, &mut bytes, &vec![9; other])), 5);
            assert_eq!(number(shape.update_cell(31, 0, &mut bytes, &vec![9; other])), 5);
            assert_eq!(bytes, vec![7; stripe]);
        }
        for other in other_lengths(shape.width()) {
            let step = Step { row: 0, set: Set::Row(0) };
            assert_eq!(number(shape.judge(0, &vec![step; other])), 5);
            assert_eq!(number(shape.write_plan(0, &vec![step; other])), 5);
        }
        for other in other_lengths(3 * shape.width()) {
            let (bytes, mut part) = (vec![7; stripe], vec![9; column]);
            assert_eq!(number(shape.judge_bytes(0, &vec![0; other])), 5);
            assert_eq!(number(shape.plan_list(0, &vec![0; other])), 5);
            assert_eq!(number(shape.rebuild_by_plan(0, &vec![0; other], &bytes, &mut part)), 5);
            assert_eq!(part, vec![9; column]);
        }
        for other in other_lengths(no_marks.len()) {
            let mut bytes = vec![7; stripe];
            assert_eq!(number(shape.rebuild_cells(&vec![1; other], &mut bytes)), 5);
            assert_eq!(bytes, vec![7; stripe]);
        }
        assert_eq!(run, shape.open_run(0, 1).unwrap());
    }
}

#[test]
fn a_disk_that_is_not_there_gives_3() {
    for shape in shapes() {
        let (mut stripe, mut column) = (vec![7; shape.stripe_len()], vec![9; shape.column_len()]);
        for disk in HUGE.into_iter().chain([shape.disks() + 2, 40]) {
            assert_eq!(number(shape.plan(disk)), 3);
            assert_eq!(number(shape.read_list(disk)), 3);
            assert_eq!(number(shape.balanced_plan(disk)), 3);
            assert_eq!(number(shape.relief_plan(disk, 0)), 3);
            assert_eq!(number(shape.relief_plan(0, disk)), 3);
            assert_eq!(number(shape.fewest_plan(disk)), 3);
            assert_eq!(number(shape.plan_list(disk, &[])), 3);
            assert_eq!(number(shape.judge(disk, &[])), 3);
            assert_eq!(number(shape.judge_text(disk, b"")), 3);
            assert_eq!(number(shape.write_plan(disk, &[])), 3);
            assert_eq!(number(shape.plain_text(disk, b"")), 3);
            assert_eq!(number(shape.rebuild_one(disk, &stripe, &mut column)), 3);
            assert_eq!(number(shape.rebuild_tested(disk, &stripe, &mut column)), 3);
            assert_eq!(number(shape.rebuild_balanced(disk, &stripe, &mut column)), 3);
            assert_eq!(number(shape.rebuild_by_plan(disk, &[], &stripe, &mut column)), 3);
            assert_eq!(number(shape.rebuild_two([disk, disk], &mut stripe)), 3);
            assert_eq!(number(shape.update_cell(0, disk, &mut stripe, &[])), 3);
            assert_eq!(number(shape.open_run(disk, 1)), 3);
            assert_eq!(number(shape.resume_run(disk, 1, 0, 0)), 3);
        }
        for parity in [shape.disks(), shape.disks() + 1] {
            assert_eq!(number(shape.relief_plan(parity, parity)), 3);
        }
        assert_eq!(number(shape.relief_plan(1, 1)), 4);
        assert_eq!(number(shape.rebuild_two([1, 1], &mut stripe)), 4);
    }
}

#[test]
fn a_cell_that_holds_no_film_gives_3_and_a_row_that_is_not_there_15() {
    for shape in shapes() {
        let mut stripe = vec![7; shape.stripe_len()];
        for disk in [shape.disks(), shape.disks() + 1] {
            assert_eq!(number(shape.update_cell(shape.width(), disk, &mut stripe, &[9; 3])), 3);
        }
        for row in HUGE.into_iter().chain([shape.width(), 31]) {
            assert_eq!(number(shape.update_cell(row, 1, &mut stripe, &[9; 3])), 15);
        }
        assert_eq!(stripe, vec![7; shape.stripe_len()]);
    }
}

#[test]
fn every_updated_cell_ends_as_encoded() {
    for shape in shapes() {
        let mut stripe: Vec<u8> = (0..shape.stripe_len()).map(|i| (i * 37 % 251) as u8).collect();
        shape.encode(&mut stripe).unwrap();
        for (row, disk) in (0..shape.disks()).flat_map(|c| (0..shape.width()).map(move |r| (r, c)))
        {
            let cell = [row as u8, disk as u8, 0xA5];
            let mut anew = stripe.clone();
            anew[shape.cell_range(row, disk)].copy_from_slice(&cell);
            shape.encode(&mut anew).unwrap();
            shape.update_cell(row, disk, &mut stripe, &cell).unwrap();
            assert_eq!(stripe, anew);
        }
    }
}

#[test]
fn every_disk_that_lies_is_named_and_mended() {
    for shape in shapes() {
        let mut clean: Vec<u8> = (0..shape.stripe_len()).map(|i| (i * 37 % 251) as u8).collect();
        shape.encode(&mut clean).unwrap();
        assert_eq!(shape.scrub(&clean), Ok(Scrub::Clean));
        for disk in 0..shape.disks() + 2 {
            let mut stripe = clean.clone();
            stripe[shape.disk_range(disk)].fill(0xEE);
            assert_eq!(shape.scrub(&stripe), Ok(Scrub::OneDisk(disk)));
            let mut column = vec![0; shape.column_len()];
            shape.rebuild_one(disk, &stripe, &mut column).unwrap();
            assert_eq!(column, clean[shape.disk_range(disk)]);
            stripe[shape.cell_range(0, (disk + 1) % (shape.disks() + 2))][0] ^= 1;
            assert_eq!(shape.scrub(&stripe), Ok(Scrub::MoreThanOne));
        }
    }
}

#[test]
fn survivors_of_no_clean_stripe_give_19_and_the_column_stands() {
    for shape in shapes() {
        let mut clean: Vec<u8> = (0..shape.stripe_len()).map(|i| (i * 37 % 251) as u8).collect();
        shape.encode(&mut clean).unwrap();
        for lost in 0..shape.disks() + 2 {
            let mut stripe = clean.clone();
            stripe[shape.disk_range(lost)].fill(0xEE);
            let mut column = vec![9; shape.column_len()];
            shape.rebuild_tested(lost, &stripe, &mut column).unwrap();
            assert_eq!(column, clean[shape.disk_range(lost)]);
            stripe[shape.cell_range(0, (lost + 1) % (shape.disks() + 2))][0] ^= 1;
            let refusal = shape.rebuild_tested(lost, &stripe, &mut column).unwrap_err();
            assert_eq!(refusal.kind(), RefusalKind::SurvivorsDisagree);
            assert_eq!(column, clean[shape.disk_range(lost)]);
        }
    }
}

#[test]
fn servers_are_refused_and_stand() {
    for shape in shapes() {
        let disks = shape.disks() as u8;
        let mut stripes = vec![7; 3 * shape.stripe_len()];
        for servers in HUGE.into_iter().chain([0, 1, 17]) {
            assert_eq!(number(shape.write_server(servers, &mut stripes)), 18);
            assert_eq!(number(shape.rebuild_server(servers, 0, &mut stripes, &[])), 18);
            assert_eq!(number(shape.rebuild_server(2, servers.max(3), &mut stripes, &[])), 18);
        }
        for other in other_lengths(3 * shape.stripe_len()) {
            assert_eq!(number(shape.write_server(2, &mut vec![7; other])), 5);
            let none = [[NO_LOSS; 2]; 3];
            assert_eq!(number(shape.rebuild_server(2, 0, &mut vec![7; other], &none)), 5);
        }
        for pairs in [0, 2, 4] {
            let none = vec![[NO_LOSS; 2]; pairs];
            assert_eq!(number(shape.rebuild_server(2, 0, &mut stripes, &none)), 5);
        }
        for (pair, refusal) in [([disks + 2, NO_LOSS], 3), ([0, 254], 3), ([disks, disks], 4)] {
            let losses = [[200, 200], [0, 1], pair]; // the lost server's pair is not read
            assert_eq!(number(shape.rebuild_server(2, 0, &mut stripes, &losses)), refusal);
        }
        assert!(stripes.iter().all(|byte| *byte == 7));
    }
}

#[test]
fn every_server_comes_back() {
    for shape in shapes() {
        let data = (0..4 * shape.stripe_len()).map(|i| (i * 37 % 251) as u8);
        let mut before: Vec<u8> = data.collect();
        for server in 0..3 {
            shape.encode(&mut before[shape.server_range(server)]).unwrap();
        }
        shape.write_server(3, &mut before).unwrap();
        for lost in 0..4 {
            let mut stripes = before.clone();
            stripes[shape.server_range(lost)].fill(0xEE);
            let mut losses = [[NO_LOSS; 2]; 4];
            losses[(lost + 1) % 4] = [shape.disks() as u8 + 1, 0];
            losses[(lost + 2) % 4] = [NO_LOSS, 1];
            for disk in [0, shape.disks() + 1] {
                stripes[shape.server_range((lost + 1) % 4)][shape.disk_range(disk)].fill(0xEE);
            }
            stripes[shape.server_range((lost + 2) % 4)][shape.disk_range(1)].fill(0xEE);
            shape.rebuild_server(3, lost, &mut stripes, &losses).unwrap();
            assert_eq!(stripes, before);
        }
    }
}

#[test]
fn a_text_that_is_no_plan_gives_22_and_every_plan_is_written_and_read() {
    for shape in shapes() {
        for lost in 0..shape.disks() + 2 {
            let plan = shape.plan(lost).unwrap();
            let steps: Vec<Step> = plan.steps().collect();
            let plain = shape.write_plan(lost, &steps).unwrap();
            assert_eq!(plain.lines().count(), shape.width() + 1);
            let others = [
                plain.clone(),
                plain.replace('\n', "\r\n"),
                plain.replace('R', "r").replace('D', "d"),
                plain.replace(",0\n", ",000\n"),
            ];
            for text in others.map(String::into_bytes) {
                assert_eq!(shape.judge_text(lost, &text), Ok(plan.reads()));
                assert_eq!(shape.plain_text(lost, &text).as_ref(), Ok(&plain));
                for end in 0..text.len() {
                    assert_eq!(number(shape.judge_text(lost, &text[..end])), 22);
                    assert_eq!(number(shape.plain_text(lost, &text[..end])), 22);
                }
                let refusal = shape.judge_text(lost, &[&text[..], b"\n"].concat()).unwrap_err();
                assert_eq!(refusal.kind(), RefusalKind::BadPlanText);
            }
        }
    }
}

#[test]
fn records_of_other_software_are_tested() {
    let shape = ffi::Shape { width: 5, disks: 4, cell_size: 512 };
    let disks = DisksRun { shape, lost: 1, stripes: 9, next: 9 };
    assert!(Run::resume_disks(disks).unwrap().is_over());
    let mut past = Run::resume_disks(DisksRun { next: 10, ..disks }).unwrap(); // as the library reads it
    assert_eq!(
        (past.is_over(), past.cells_read()),
        (false, 10 * past.shape().plan(1).unwrap().reads() as u64)
    );
    assert_eq!(number(past.skip(10)), 10);
    assert_eq!(number(Run::resume_disks(DisksRun { lost: 6, ..disks })), 3);
    let few = ffi::Shape { disks: 1, ..shape };
    assert_eq!(number(Run::resume_disks(DisksRun { shape: few, ..disks })), 13);
    let full = FullRun { width: 5, size: 512, disk: 1, stripes: 9, next: 9 };
    assert!(Run::resume_full(full).unwrap().is_over());
    assert_eq!(number(Run::resume_full(FullRun { width: 9, ..full })), 1);
    assert_eq!(number(Run::resume_full(FullRun { size: 0, ..full })), 2);
    let mut past = Run::resume_full(FullRun { next: u32::MAX, ..full }).unwrap();
    let (stripe, mut column) =
        (vec![7; past.shape().stripe_len()], vec![9; past.shape().column_len()]);
    assert_eq!(number(past.step(u32::MAX.into(), &stripe, &mut column)), 10);
    assert_eq!((past.next(), column), (u32::MAX, vec![9; past.shape().column_len()]));
}

#[test]
fn bills_and_space_are_refused_by_number() {
    let shape = Shape::new(31, 31, 4_096).unwrap();
    assert_eq!(number(shape.space(&[(1 << 48) + 1], 0)), 11);
    assert_eq!(number(shape.space(&[u64::MAX; 4_096], 0)), 11);
    assert_eq!(number(shape.space(&[1 << 63, 1 << 63], 0)), 11);
    assert_eq!(number(shape.space(&[u64::MAX; 4_097], 0)), 14);
    assert_eq!(shape.space(&[], 0).unwrap().stripes, 0);
    assert_eq!(shape.space(&[1; 4_096], u64::MAX).unwrap().stripes, 4_096);
    assert_eq!(number(bill(u64::MAX, [1_001, 0, 0])), 16);
    assert_eq!(number(bill((1 << 54) + 1, [1_000, 0, 0])), 17);
    let run = shape.resume_run(0, u32::MAX, u32::MAX, 0).unwrap();
    assert_eq!(number(run.bill([0, 0, u64::MAX])), 16);
    let whole = run.bill([1_000, 1_000, 1_000]).unwrap();
    assert_eq!(whole.bands.iter().sum::<u64>(), run.cells_read() * 4_096);
}

#[test]
fn every_disk_and_pair_comes_back_from_the_cells_read() {
    for shape in shapes() {
        let mut stripe: Vec<u8> = (0..shape.stripe_len()).map(|i| (i * 37 % 251) as u8).collect();
        shape.encode(&mut stripe).unwrap();
        for lost in 0..shape.disks() + 2 {
            let list = shape.read_list(lost).unwrap();
            let mut survivors = vec![0xEE; shape.stripe_len()];
            for (disk, rows) in list.runs() {
                for cell in rows.map(|row| shape.cell_range(row, disk)) {
                    survivors[cell.clone()].copy_from_slice(&stripe[cell]);
                }
            }
            let mut column = vec![0; shape.column_len()];
            shape.rebuild_one(lost, &survivors, &mut column).unwrap();
            assert_eq!(column, stripe[shape.disk_range(lost)]);
            assert_eq!(list.len(), list.runs().map(|(_, rows)| rows.len()).sum::<usize>());
            let plan = shape.plan(lost).unwrap();
            let steps: Vec<Step> = plan.steps().collect();
            assert_eq!(shape.judge(lost, &steps), Ok(plan.reads()));
            assert_eq!(list.len(), plan.reads() as usize);
            let other = (lost + 1) % (shape.disks() + 2);
            let mut two = stripe.clone();
            two[shape.disk_range(lost)].fill(0xEE);
            two[shape.disk_range(other)].fill(0xEE);
            shape.rebuild_two([lost, other], &mut two).unwrap();
            assert_eq!(two, stripe);
        }
    }
}

#[test]
fn every_input_has_a_text() {
    for input in [&b""[..], b"p,lost\n", b"p,lost\n5,1\n\n", &[0xFF; 70_000]] {
        assert_eq!(plan_text(input), b"refused,12\n");
    }
    for (p, lost) in WIDTHS.into_iter().flat_map(|p| (0..p + 3).map(move |lost| (p, lost))) {
        let text = plan_text(format!("p,lost\n{p},{lost}\n").as_bytes());
        let lines = text.iter().filter(|byte| **byte == b'\n').count();
        assert_eq!(lines, if lost < p + 2 { p + 1 } else { 1 });
    }
}

#[test]
fn the_archive_is_of_the_version_of_the_crate() {
    let numbers = env!("CARGO_PKG_VERSION").split('.').map(|number| number.parse::<u32>().unwrap());
    assert_eq!(version(), numbers.fold(0, |version, number| 100 * version + number));
}

#[test]
fn a_refusal_says_what_was_wrong() {
    let refusal = Shape::new(5, 5, 1).unwrap().judge(1, &[Step { row: 9, set: Set::Row(0) }; 5]);
    let refusal = refusal.unwrap_err();
    assert_eq!(refusal.kind(), RefusalKind::StepRange);
    assert!(refusal.to_string().starts_with("refused, 6: "));
    assert!(refusal.to_string().ends_with("(step 0)"));
    let as_error: &dyn std::error::Error = &refusal;
    assert_eq!(as_error.to_string(), refusal.to_string());
}

#[test]
fn reports_on_any_list_are_refused_or_counted() {
    let good = ArrayState { width: 5, disks: 3, lost: 0 };
    for count in [0, 1, 64, 65] {
        let mut list = vec![good; count];
        for which in HUGE.into_iter().chain([count]) {
            assert_eq!(number(report_disk(&mut list, which, 0, false)), 20);
        }
        assert_eq!(list, vec![good; count]);
    }
    for (bad, refusal) in [
        (ArrayState { width: 9, ..good }, 1),
        (ArrayState { disks: 6, ..good }, 13),
        (ArrayState { lost: 1 << 5, ..good }, 3),
        (ArrayState { lost: 1 << 63, ..good }, 3),
    ] {
        for place in 0..3 {
            let mut list = [good; 3];
            list[place] = bad;
            let before = list;
            for disk in HUGE.into_iter().chain([0, 4]) {
                assert_eq!(number(report_disk(&mut list, 1, disk, true)), refusal);
            }
            assert_eq!(list, before);
        }
    }
    let mut list = [good; 64];
    for disk in HUGE.into_iter().chain([5, 63, 64]) {
        assert_eq!(number(report_disk(&mut list, 63, disk, false)), 3);
    }
    assert_eq!(number(report_disk(&mut list, 63, 4, true)), 21);
    for (disk, at) in [(0, 1), (4, 2), (2, 3), (1, 3)] {
        let totals = report_disk(&mut list, 63, disk, false).unwrap();
        let mut counts = [63, 0, 0, 0];
        counts[at] = 1;
        let [optimal, degraded, critical, failed] = counts;
        assert_eq!(totals, Totals { optimal, degraded, critical, failed });
    }
    assert_eq!((list[62], list[63].lost), (good, 0b10111));
}

#[test]
fn layouts_and_places_that_are_not_there_are_refused() {
    const LARGE: [u64; 5] = [1, 1 << 32, 1 << 63, u64::MAX - 1, u64::MAX];
    for shape in shapes() {
        for bad in LARGE.into_iter().skip(1).chain([0, 65_537]) {
            assert_eq!(number(shape.layout(bad, 8, 1)), 25);
            assert_eq!(number(shape.layout(8, bad, 1)), 25);
            assert_eq!(number(shape.layout(bad, bad, (1 << 48) + 1)), 11);
        }
        for length in [0, 1, 1_000_003, 1 << 48] {
            let layout = shape.layout(8, 64, length).unwrap();
            for more in LARGE.into_iter().map(|far| far.max(length)) {
                assert_eq!(number(layout.film(more)), 26);
            }
            for far in LARGE.into_iter().map(|far| far.max(layout.units())) {
                assert_eq!(number(layout.block(far)), 26);
                assert_eq!(number(layout.unit(0, far)), 26);
            }
            for far in LARGE.into_iter().map(|far| far.max(layout.stripes())) {
                assert_eq!(number(layout.cell(0, far)), 26);
            }
            for row in HUGE.into_iter().chain([shape.width()]) {
                assert_eq!(number(layout.cell(row, 0)), 26);
                assert_eq!(number(layout.unit(row, 0)), 26);
            }
        }
    }
}

#[test]
fn cells_and_blocks_fill_an_image_and_pieces_are_their_cells() {
    let shape = Shape::new(3, 2, 10).unwrap();
    for (unit, group, stripes) in [(1, 1, 3), (2, 4, 9), (3, 6, 5), (2, 6, 12), (1, 5, 0)] {
        let layout = shape.layout(unit, group, stripes * 60).unwrap();
        let cell = |stripe| (0..3).map(move |row| layout.cell(row, stripe).unwrap());
        let blocks = (0..layout.units()).map(|unit| layout.block(unit).unwrap());
        let mut parts: Vec<_> = (0..stripes).flat_map(cell).chain(blocks).collect();
        parts.sort_by_key(|part| part.start);
        let mut end = 4096;
        for part in parts {
            assert!(part.start == end || part.start == end.next_multiple_of(4096));
            end = part.end;
        }
        assert_eq!(layout.second_label(), end.next_multiple_of(4096));
        for number in 0..layout.units() {
            let one = layout.unit(2, number).unwrap();
            let cells: Vec<_> = one.stripes.map(|stripe| layout.cell(2, stripe).unwrap()).collect();
            assert_eq!(
                (cells[0].start, cells[cells.len() - 1].end),
                (one.piece.start, one.piece.end)
            );
            assert!(cells.windows(2).all(|two| two[0].end == two[1].start));
        }
    }
}
