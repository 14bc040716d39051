//! The second implementation for C: the library's calls under the name `second_..`, for tests/c_calls.
//!
//! Of the rebuild of two disks it has the refusals alone. The caller of a function with a slice owes
//! a pointer to as many bytes as it says.

use std::slice::{from_raw_parts, from_raw_parts_mut};

use crate::ffi::{
    Answer, ArrayState, Bill, Board, Checked, DisksRun, FilmPlace, FullRun, Image, Judged, Layout,
    Place, Plan, Progress, Run, RunAnswer, Scrubbed, Shape, Space, Text, UnitPlace, Written,
};
use crate::groups::{
    array_states, balanced_plan, billing, encode, fewest_plan, image_layout, judge, parity_server,
    plan_list, plan_texts, planner, printed_plan, read_list, rebuild_balanced, rebuild_by_plan,
    rebuild_cells, rebuild_one, rebuild_runs, rebuild_tested, rebuild_two, relief_plan, scrub,
    space, unit_film, unit_opening, unit_sums, update,
};
use crate::harness::model::UnitOf;

#[no_mangle]
pub extern "C" fn second_plan_disk(width: usize, disks: usize, lost: usize) -> Plan {
    planner::model::plan_disk(width, disks, lost)
}

#[no_mangle]
pub extern "C" fn second_balanced_plan(width: usize, disks: usize, lost: usize) -> Plan {
    balanced_plan::model::balanced_plan(width, disks, lost)
}

#[no_mangle]
pub extern "C" fn second_relief_plan(
    width: usize,
    disks: usize,
    lost: usize,
    relieved: usize,
) -> Plan {
    relief_plan::model::relief_plan(width, disks, lost, relieved)
}

#[no_mangle]
pub extern "C" fn second_fewest_plan(width: usize, disks: usize, lost: usize) -> Plan {
    fewest_plan::model::fewest_plan(width, disks, lost)
}

/// # Safety
/// `list` is lent: see above.
#[no_mangle]
pub unsafe extern "C" fn second_read_list(
    width: usize,
    disks: usize,
    lost: usize,
    list: *mut u8,
    list_len: usize,
) -> Answer {
    read_list::model::read_list(width, disks, lost, from_raw_parts_mut(list, list_len))
}

/// # Safety
/// `plan` is lent: see above.
#[no_mangle]
pub unsafe extern "C" fn second_judge_plan(
    width: usize,
    disks: usize,
    lost: usize,
    plan: *const u8,
    plan_len: usize,
) -> Judged {
    judge::model::judge_plan(width, disks, lost, from_raw_parts(plan, plan_len))
}

/// # Safety
/// `plan` and `list` are lent: see above.
#[no_mangle]
pub unsafe extern "C" fn second_plan_list(
    width: usize,
    disks: usize,
    lost: usize,
    plan: *const u8,
    plan_len: usize,
    list: *mut u8,
    list_len: usize,
) -> Answer {
    let (plan, list) = (from_raw_parts(plan, plan_len), from_raw_parts_mut(list, list_len));
    plan_list::model::plan_list((width, disks, lost), plan, list)
}

/// # Safety
/// `input` is lent: see above.
#[no_mangle]
pub unsafe extern "C" fn second_plan_text(input: *const u8, input_len: usize) -> Text {
    printed_plan::model::plan_text(from_raw_parts(input, input_len))
}

/// # Safety
/// `text` is lent: see above.
#[no_mangle]
pub unsafe extern "C" fn second_judge_text(
    width: usize,
    disks: usize,
    lost: usize,
    text: *const u8,
    text_len: usize,
) -> Judged {
    plan_texts::model::judge_text((width, disks, lost), from_raw_parts(text, text_len))
}

/// # Safety
/// `plan` and `out` are lent: see above.
#[no_mangle]
pub unsafe extern "C" fn second_write_plan(
    width: usize,
    disks: usize,
    lost: usize,
    plan: *const u8,
    plan_len: usize,
    out: *mut u8,
    out_len: usize,
) -> Written {
    let (plan, out) = (from_raw_parts(plan, plan_len), from_raw_parts_mut(out, out_len));
    plan_texts::model::write_plan((width, disks, lost), plan, out)
}

/// # Safety
/// `text` and `out` are lent: see above.
#[no_mangle]
pub unsafe extern "C" fn second_plain_text(
    width: usize,
    disks: usize,
    lost: usize,
    text: *const u8,
    text_len: usize,
    out: *mut u8,
    out_len: usize,
) -> Written {
    let (text, out) = (from_raw_parts(text, text_len), from_raw_parts_mut(out, out_len));
    plan_texts::model::plain_text((width, disks, lost), text, out)
}

/// # Safety
/// `lengths` is lent: see above, but a length counts numbers.
#[no_mangle]
pub unsafe extern "C" fn second_package_space(
    shape: Shape,
    lengths: *const u64,
    lengths_len: usize,
    free: u64,
) -> Space {
    space::model::package_space(shape, from_raw_parts(lengths, lengths_len), free)
}

/// # Safety
/// `stripe` is lent: see above.
#[no_mangle]
pub unsafe extern "C" fn second_encode_stripe(
    shape: Shape,
    stripe: *mut u8,
    stripe_len: usize,
) -> Answer {
    encode::model::encode_stripe(shape, from_raw_parts_mut(stripe, stripe_len))
}

/// # Safety
/// `stripe` is lent: see above.
#[no_mangle]
pub unsafe extern "C" fn second_check_stripe(
    shape: Shape,
    stripe: *const u8,
    stripe_len: usize,
) -> Checked {
    encode::model::check_stripe(shape, from_raw_parts(stripe, stripe_len))
}

/// # Safety
/// `stripe` is lent: see above.
#[no_mangle]
pub unsafe extern "C" fn second_scrub_stripe(
    shape: Shape,
    stripe: *const u8,
    stripe_len: usize,
) -> Scrubbed {
    scrub::model::scrub_stripe(shape, from_raw_parts(stripe, stripe_len))
}

/// # Safety
/// `stripe` and `column` are lent: see above.
#[no_mangle]
pub unsafe extern "C" fn second_rebuild_one(
    shape: Shape,
    lost: usize,
    stripe: *const u8,
    stripe_len: usize,
    column: *mut u8,
    column_len: usize,
) -> Answer {
    let stripe = from_raw_parts(stripe, stripe_len);
    rebuild_one::model::rebuild_one(shape, lost, stripe, from_raw_parts_mut(column, column_len))
}

/// # Safety
/// `stripe` and `column` are lent: see above.
#[no_mangle]
pub unsafe extern "C" fn second_rebuild_balanced(
    shape: Shape,
    lost: usize,
    stripe: *const u8,
    stripe_len: usize,
    column: *mut u8,
    column_len: usize,
) -> Answer {
    let stripe = from_raw_parts(stripe, stripe_len);
    let column = from_raw_parts_mut(column, column_len);
    rebuild_balanced::model::rebuild_balanced(shape, lost, stripe, column)
}

/// # Safety
/// `plan`, `stripe` and `column` are lent: see above.
#[no_mangle]
pub unsafe extern "C" fn second_rebuild_by_plan(
    shape: Shape,
    lost: usize,
    plan: *const u8,
    plan_len: usize,
    stripe: *const u8,
    stripe_len: usize,
    column: *mut u8,
    column_len: usize,
) -> Answer {
    let (plan, stripe) = (from_raw_parts(plan, plan_len), from_raw_parts(stripe, stripe_len));
    let column = from_raw_parts_mut(column, column_len);
    rebuild_by_plan::model::rebuild_by_plan(shape, lost, plan, stripe, column)
}

/// # Safety
/// `stripe` and `column` are lent: see above.
#[no_mangle]
pub unsafe extern "C" fn second_rebuild_tested(
    shape: Shape,
    lost: usize,
    stripe: *const u8,
    stripe_len: usize,
    column: *mut u8,
    column_len: usize,
) -> Answer {
    let (stripe, column) =
        (from_raw_parts(stripe, stripe_len), from_raw_parts_mut(column, column_len));
    rebuild_tested::model::rebuild_tested(shape, lost, stripe, column)
}

#[no_mangle]
pub extern "C" fn second_refuse_two(
    shape: Shape,
    first: usize,
    second: usize,
    stripe_len: usize,
) -> Answer {
    rebuild_two::model::rebuild_two(shape, first, second, stripe_len)
}

/// # Safety
/// `missing` and `stripe` are lent: see above.
#[no_mangle]
pub unsafe extern "C" fn second_rebuild_cells(
    shape: Shape,
    missing: *const u8,
    missing_len: usize,
    stripe: *mut u8,
    stripe_len: usize,
) -> Answer {
    let missing = from_raw_parts(missing, missing_len);
    let stripe = from_raw_parts_mut(stripe, stripe_len);
    rebuild_cells::model::rebuild_cells(shape, missing, stripe)
}

/// # Safety
/// `stripe` and `cell` are lent: see above.
#[no_mangle]
pub unsafe extern "C" fn second_update_cell(
    shape: Shape,
    row: usize,
    disk: usize,
    stripe: *mut u8,
    stripe_len: usize,
    cell: *const u8,
    cell_len: usize,
) -> Answer {
    let stripe = from_raw_parts_mut(stripe, stripe_len);
    update::model::update_cell(shape, (row, disk), stripe, from_raw_parts(cell, cell_len))
}

/// # Safety
/// `stripes` is lent: see above.
#[no_mangle]
pub unsafe extern "C" fn second_write_server(
    shape: Shape,
    servers: usize,
    stripes: *mut u8,
    stripes_len: usize,
) -> Answer {
    parity_server::model::write_server(shape, servers, from_raw_parts_mut(stripes, stripes_len))
}

/// # Safety
/// `stripes` and `losses` are lent: see above.
#[no_mangle]
pub unsafe extern "C" fn second_rebuild_server(
    shape: Shape,
    servers: usize,
    lost: usize,
    stripes: *mut u8,
    stripes_len: usize,
    losses: *const u8,
    losses_len: usize,
) -> Answer {
    let stripes = from_raw_parts_mut(stripes, stripes_len);
    let losses = from_raw_parts(losses, losses_len);
    parity_server::model::rebuild_server(shape, servers, lost, stripes, losses)
}

#[no_mangle]
pub extern "C" fn second_open_run(shape: Shape, lost: usize, stripes: u32) -> RunAnswer {
    rebuild_runs::model::open_run(shape, lost, stripes)
}

/// # Safety
/// `run`, `stripe` and `column` are lent: see above.
#[no_mangle]
pub unsafe extern "C" fn second_step_run(
    run: *mut Run,
    which: u64,
    stripe: *const u8,
    stripe_len: usize,
    column: *mut u8,
    column_len: usize,
) -> Answer {
    let stripe = from_raw_parts(stripe, stripe_len);
    rebuild_runs::model::step_run(&mut *run, which, stripe, from_raw_parts_mut(column, column_len))
}

/// # Safety
/// `run` is lent: see above.
#[no_mangle]
pub unsafe extern "C" fn second_skip_stripe(run: *mut Run, which: u64) -> Answer {
    rebuild_runs::model::skip_stripe(&mut *run, which)
}

/// # Safety
/// `run` is lent: see above.
#[no_mangle]
pub unsafe extern "C" fn second_run_progress(run: *const Run) -> Progress {
    rebuild_runs::model::run_progress(&*run)
}

#[no_mangle]
pub extern "C" fn second_resume_full_run(old: FullRun) -> Run {
    rebuild_runs::model::resume_full_run(old)
}

#[no_mangle]
pub extern "C" fn second_resume_disks_run(old: DisksRun) -> Run {
    rebuild_runs::model::resume_disks_run(old)
}

#[no_mangle]
pub extern "C" fn second_bill_bytes(bytes: u64, first: u64, second: u64, third: u64) -> Bill {
    billing::model::bill_bytes(bytes, [first, second, third])
}

#[no_mangle]
pub extern "C" fn second_bill_run(run: Run, first: u64, second: u64, third: u64) -> Bill {
    billing::model::bill_run(&run, [first, second, third])
}

/// # Safety
/// `list` is lent: as many records as it says, aligned as they are.
#[no_mangle]
pub unsafe extern "C" fn second_report_disk(
    list: *mut ArrayState,
    list_len: usize,
    which: usize,
    disk: usize,
    back: bool,
) -> Board {
    array_states::model::report_disk(from_raw_parts_mut(list, list_len), which, disk, back)
}

#[no_mangle]
pub extern "C" fn second_image_bytes(layout: Layout) -> Image {
    image_layout::model::image_bytes(layout)
}

#[no_mangle]
pub extern "C" fn second_cell_place(layout: Layout, row: usize, stripe: u64) -> Place {
    image_layout::model::cell_place(layout, row, stripe)
}

#[no_mangle]
pub extern "C" fn second_block_place(layout: Layout, unit: u64) -> Place {
    image_layout::model::block_place(layout, unit)
}

#[no_mangle]
pub extern "C" fn second_unit_place(layout: Layout, row: usize, unit: u64) -> UnitPlace {
    image_layout::model::unit_place(layout, row, unit)
}

#[no_mangle]
pub extern "C" fn second_film_place(layout: Layout, byte: u64) -> FilmPlace {
    image_layout::model::film_place(layout, byte)
}

/// # Safety
/// `name`, `cells` and `block` are lent: see above.
#[no_mangle]
pub unsafe extern "C" fn second_seal_unit(
    shape: Shape,
    stripes: usize,
    name: *const u8,
    name_len: usize,
    unit: u64,
    cells: *const u8,
    cells_len: usize,
    block: *mut u8,
    block_len: usize,
) -> Answer {
    let of = UnitOf { shape, stripes, name: from_raw_parts(name, name_len), unit };
    let cells = from_raw_parts(cells, cells_len);
    unit_sums::model::seal_unit(of, cells, from_raw_parts_mut(block, block_len))
}

/// # Safety
/// `name`, `block`, `marks` and `cells` are lent: see above.
#[no_mangle]
pub unsafe extern "C" fn second_open_unit(
    shape: Shape,
    stripes: usize,
    name: *const u8,
    name_len: usize,
    unit: u64,
    block: *const u8,
    block_len: usize,
    marks: *mut u8,
    marks_len: usize,
    cells: *mut u8,
    cells_len: usize,
) -> Answer {
    let of = UnitOf { shape, stripes, name: from_raw_parts(name, name_len), unit };
    let block = from_raw_parts(block, block_len);
    let marks = from_raw_parts_mut(marks, marks_len);
    unit_opening::model::open_unit(of, block, marks, from_raw_parts_mut(cells, cells_len))
}

/// # Safety
/// `name`, `block`, `cells` and `out` are lent: see above.
#[no_mangle]
pub unsafe extern "C" fn second_film_bytes(
    shape: Shape,
    stripes: usize,
    name: *const u8,
    name_len: usize,
    unit: u64,
    block: *const u8,
    block_len: usize,
    cells: *const u8,
    cells_len: usize,
    from: usize,
    out: *mut u8,
    out_len: usize,
) -> Answer {
    let of = UnitOf { shape, stripes, name: from_raw_parts(name, name_len), unit };
    let (block, cells) = (from_raw_parts(block, block_len), from_raw_parts(cells, cells_len));
    unit_film::model::film_bytes(of, block, cells, from, from_raw_parts_mut(out, out_len))
}

/// # Safety
/// `name` and `block` are lent: see above.
#[no_mangle]
pub unsafe extern "C" fn second_block_fits(
    width: usize,
    disks: usize,
    name: *const u8,
    name_len: usize,
    unit: u64,
    block: *const u8,
    block_len: usize,
) -> Answer {
    let (shape, name) = (Shape::new(width, disks, 1), from_raw_parts(name, name_len));
    let of = UnitOf { shape, stripes: 1, name, unit };
    unit_sums::model::block_fits(of, from_raw_parts(block, block_len))
}

/// # Safety
/// `name`, `block` and `piece` are lent: see above.
#[no_mangle]
pub unsafe extern "C" fn second_piece_fits(
    shape: Shape,
    stripes: usize,
    name: *const u8,
    name_len: usize,
    unit: u64,
    block: *const u8,
    block_len: usize,
    disk: usize,
    row: usize,
    piece: *const u8,
    piece_len: usize,
) -> Answer {
    let of = UnitOf { shape, stripes, name: from_raw_parts(name, name_len), unit };
    let (block, piece) = (from_raw_parts(block, block_len), from_raw_parts(piece, piece_len));
    unit_sums::model::piece_fits(of, block, (disk, row), piece)
}
