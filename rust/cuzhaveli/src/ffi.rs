// SPDX-License-Identifier: Apache-2.0
//! The library's calls as they are, field by field and name by name those of `include/cuzhaveli.h`,
//! which says what each does and what its caller owes. The gate compares the two with the proved
//! source.

/// A yes or no, kept as the library's byte, so that no value of it can mislead the compiler.
#[repr(transparent)]
#[derive(Clone, Copy, Debug, Default, PartialEq, Eq)]
pub struct YesNo(u8);

impl YesNo {
    pub const NO: YesNo = YesNo(0);
    pub const YES: YesNo = YesNo(1);

    /// The byte as a bool; the library gives 0 and 1 only, and another byte is a defect of it.
    pub fn get(self) -> bool {
        match self.0 {
            0 => false,
            1 => true,
            byte => panic!("libcuzhaveli gave {byte} for a yes or no"),
        }
    }
}

impl From<bool> for YesNo {
    fn from(holds: bool) -> YesNo {
        YesNo(holds.into())
    }
}

macro_rules! records {
    ($($(#[$about:meta])* pub struct $name:ident { $(pub $field:ident: $type:ty,)* })*) => {
        $(
            $(#[$about])*
            #[repr(C)]
            #[derive(Clone, Copy, Debug, Default, PartialEq, Eq)]
            pub struct $name { $(pub $field: $type,)* }
        )*
    };
}

records! {
    /// Width, data disks and bytes of a cell.
    pub struct Shape {
        pub width: usize,
        pub disks: usize,
        pub cell_size: usize,
    }

    /// The number of a refusal, 0 for none, and for 6 to 9 the step.
    pub struct Answer {
        pub refusal: u8,
        pub place: u32,
    }

    /// The steps of a plan, zeros after the last.
    pub struct Steps {
        pub rows: [u8; 31],
        pub kinds: [u8; 31],
        pub numbers: [u8; 31],
    }

    /// A plan for a lost disk.
    pub struct Plan {
        pub answer: Answer,
        pub steps: Steps,
        pub routes: u32,
        pub reads: u32,
    }

    /// The judge's answer.
    pub struct Judged {
        pub answer: Answer,
        pub reads: u32,
    }

    /// How many bytes of text were written.
    pub struct Written {
        pub answer: Answer,
        pub length: usize,
    }

    /// Whether a stripe is clean.
    pub struct Checked {
        pub answer: Answer,
        pub clean: YesNo,
    }

    /// What a scrub says of a stripe: the verdict (0 clean, 1 one disk, 2 more than one) and that disk.
    pub struct Scrubbed {
        pub answer: Answer,
        pub verdict: u8,
        pub disk: usize,
    }

    /// The space of a package.
    pub struct Space {
        pub answer: Answer,
        pub stripes: u64,
        pub bytes: u64,
        pub fits: YesNo,
    }

    /// The numbers of a set of images.
    pub struct Layout {
        pub width: usize,
        pub disks: usize,
        pub cell_size: usize,
        pub unit: u64,
        pub group: u64,
        pub length: u64,
    }

    /// The stripes, the units and the bytes of an image, and where its second label begins.
    pub struct Image {
        pub answer: Answer,
        pub stripes: u64,
        pub units: u64,
        pub end: u64,
        pub bytes: u64,
    }

    /// So many bytes of an image, and where they begin.
    pub struct Place {
        pub answer: Answer,
        pub at: u64,
        pub bytes: u64,
    }

    /// The stripes of a unit, and where its piece of one row is.
    pub struct UnitPlace {
        pub answer: Answer,
        pub first: u64,
        pub stripes: u64,
        pub at: u64,
        pub bytes: u64,
    }

    /// Where a byte of film is.
    pub struct FilmPlace {
        pub answer: Answer,
        pub stripe: u64,
        pub disk: usize,
        pub row: usize,
        pub byte: usize,
        pub at: u64,
    }

    /// A run's record.
    pub struct Run {
        pub shape: Shape,
        pub lost: usize,
        pub stripes: u32,
        pub next: u32,
        pub skipped: u32,
    }

    /// An opened run.
    pub struct RunAnswer {
        pub answer: Answer,
        pub run: Run,
    }

    /// How far a run is.
    pub struct Progress {
        pub answer: Answer,
        pub over: YesNo,
        pub cells: u64,
    }

    /// A bill.
    pub struct Bill {
        pub answer: Answer,
        pub first: u64,
        pub second: u64,
        pub third: u64,
        pub cents: u64,
    }

    /// An array of a list: its width, its data disks, and bit d of `lost` set if disk d is lost.
    pub struct ArrayState {
        pub width: usize,
        pub disks: usize,
        pub lost: u64,
    }

    /// How many arrays of a list can bear two more losses, one more, none, and how many are past saving.
    pub struct Totals {
        pub optimal: u32,
        pub degraded: u32,
        pub critical: u32,
        pub failed: u32,
    }

    /// What a report on an array of a list answers.
    pub struct Board {
        pub answer: Answer,
        pub totals: Totals,
    }

    /// The record of a run opened before arrays could have fewer data disks than their width.
    pub struct FullRun {
        pub width: usize,
        pub size: usize,
        pub disk: usize,
        pub stripes: u32,
        pub next: u32,
    }

    /// The record of a run opened before stripes could be skipped.
    pub struct DisksRun {
        pub shape: Shape,
        pub lost: usize,
        pub stripes: u32,
        pub next: u32,
    }
}

/// A text: its first `length` bytes, zeros after them. It stands apart, since arrays as long as this have no default.
#[repr(C)]
#[derive(Clone, Copy, Debug, PartialEq, Eq)]
pub struct Text {
    pub bytes: [u8; 458],
    pub length: usize,
}

extern "C" {
    pub fn cuzhaveli_plan_disk(width: usize, disks: usize, lost: usize) -> Plan;

    pub fn cuzhaveli_balanced_plan(width: usize, disks: usize, lost: usize) -> Plan;

    pub fn cuzhaveli_relief_plan(width: usize, disks: usize, lost: usize, relieved: usize) -> Plan;

    pub fn cuzhaveli_fewest_plan(width: usize, disks: usize, lost: usize) -> Plan;

    pub fn cuzhaveli_read_list(
        width: usize,
        disks: usize,
        lost: usize,
        list: *mut u8,
        list_len: usize,
    ) -> Answer;

    pub fn cuzhaveli_judge_plan(
        width: usize,
        disks: usize,
        lost: usize,
        plan: *const u8,
        plan_len: usize,
    ) -> Judged;

    pub fn cuzhaveli_plan_list(
        width: usize,
        disks: usize,
        lost: usize,
        plan: *const u8,
        plan_len: usize,
        list: *mut u8,
        list_len: usize,
    ) -> Answer;

    pub fn cuzhaveli_plan_text(input: *const u8, input_len: usize) -> Text;

    pub fn cuzhaveli_judge_text(
        width: usize,
        disks: usize,
        lost: usize,
        text: *const u8,
        text_len: usize,
    ) -> Judged;

    pub fn cuzhaveli_write_plan(
        width: usize,
        disks: usize,
        lost: usize,
        plan: *const u8,
        plan_len: usize,
        out: *mut u8,
        out_len: usize,
    ) -> Written;

    pub fn cuzhaveli_plain_text(
        width: usize,
        disks: usize,
        lost: usize,
        text: *const u8,
        text_len: usize,
        out: *mut u8,
        out_len: usize,
    ) -> Written;

    pub fn cuzhaveli_package_space(
        shape: Shape,
        lengths: *const u64,
        lengths_len: usize,
        free: u64,
    ) -> Space;

    pub fn cuzhaveli_encode_stripe(shape: Shape, stripe: *mut u8, stripe_len: usize) -> Answer;

    pub fn cuzhaveli_check_stripe(shape: Shape, stripe: *const u8, stripe_len: usize) -> Checked;

    pub fn cuzhaveli_scrub_stripe(shape: Shape, stripe: *const u8, stripe_len: usize) -> Scrubbed;

    pub fn cuzhaveli_rebuild_one(
        shape: Shape,
        lost: usize,
        stripe: *const u8,
        stripe_len: usize,
        column: *mut u8,
        column_len: usize,
    ) -> Answer;

    pub fn cuzhaveli_rebuild_balanced(
        shape: Shape,
        lost: usize,
        stripe: *const u8,
        stripe_len: usize,
        column: *mut u8,
        column_len: usize,
    ) -> Answer;

    pub fn cuzhaveli_rebuild_by_plan(
        shape: Shape,
        lost: usize,
        plan: *const u8,
        plan_len: usize,
        stripe: *const u8,
        stripe_len: usize,
        column: *mut u8,
        column_len: usize,
    ) -> Answer;

    pub fn cuzhaveli_rebuild_tested(
        shape: Shape,
        lost: usize,
        stripe: *const u8,
        stripe_len: usize,
        column: *mut u8,
        column_len: usize,
    ) -> Answer;

    pub fn cuzhaveli_rebuild_two(
        shape: Shape,
        first: usize,
        second: usize,
        stripe: *mut u8,
        stripe_len: usize,
    ) -> Answer;

    pub fn cuzhaveli_rebuild_cells(
        shape: Shape,
        missing: *const u8,
        missing_len: usize,
        stripe: *mut u8,
        stripe_len: usize,
    ) -> Answer;

    pub fn cuzhaveli_update_cell(
        shape: Shape,
        row: usize,
        disk: usize,
        stripe: *mut u8,
        stripe_len: usize,
        cell: *const u8,
        cell_len: usize,
    ) -> Answer;

    pub fn cuzhaveli_write_server(
        shape: Shape,
        servers: usize,
        stripes: *mut u8,
        stripes_len: usize,
    ) -> Answer;

    pub fn cuzhaveli_rebuild_server(
        shape: Shape,
        servers: usize,
        lost: usize,
        stripes: *mut u8,
        stripes_len: usize,
        losses: *const u8,
        losses_len: usize,
    ) -> Answer;

    pub fn cuzhaveli_open_run(shape: Shape, lost: usize, stripes: u32) -> RunAnswer;

    pub fn cuzhaveli_step_run(
        run: *mut Run,
        which: u64,
        stripe: *const u8,
        stripe_len: usize,
        column: *mut u8,
        column_len: usize,
    ) -> Answer;

    pub fn cuzhaveli_skip_stripe(run: *mut Run, which: u64) -> Answer;

    pub fn cuzhaveli_run_progress(run: *const Run) -> Progress;

    pub fn cuzhaveli_resume_full_run(old: FullRun) -> Run;

    pub fn cuzhaveli_resume_disks_run(old: DisksRun) -> Run;

    pub fn cuzhaveli_image_bytes(layout: Layout) -> Image;

    pub fn cuzhaveli_cell_place(layout: Layout, row: usize, stripe: u64) -> Place;

    pub fn cuzhaveli_block_place(layout: Layout, unit: u64) -> Place;

    pub fn cuzhaveli_unit_place(layout: Layout, row: usize, unit: u64) -> UnitPlace;

    pub fn cuzhaveli_film_place(layout: Layout, byte: u64) -> FilmPlace;

    pub fn cuzhaveli_seal_unit(
        shape: Shape,
        stripes: usize,
        name: *const u8,
        name_len: usize,
        unit: u64,
        cells: *const u8,
        cells_len: usize,
        block: *mut u8,
        block_len: usize,
    ) -> Answer;

    pub fn cuzhaveli_open_unit(
        shape: Shape,
        stripes: usize,
        name: *const u8,
        name_len: usize,
        unit: u64,
        block: *const u8,
        block_len: usize,
        marks: *mut u8,
        marks_len: usize,
        cells: *mut u8,
        cells_len: usize,
    ) -> Answer;

    pub fn cuzhaveli_film_bytes(
        shape: Shape,
        stripes: usize,
        name: *const u8,
        name_len: usize,
        unit: u64,
        block: *const u8,
        block_len: usize,
        cells: *const u8,
        cells_len: usize,
        from: usize,
        out: *mut u8,
        out_len: usize,
    ) -> Answer;

    pub fn cuzhaveli_block_fits(
        width: usize,
        disks: usize,
        name: *const u8,
        name_len: usize,
        unit: u64,
        block: *const u8,
        block_len: usize,
    ) -> Answer;

    pub fn cuzhaveli_piece_fits(
        shape: Shape,
        stripes: usize,
        name: *const u8,
        name_len: usize,
        unit: u64,
        block: *const u8,
        block_len: usize,
        disk: usize,
        row: usize,
        piece: *const u8,
        piece_len: usize,
    ) -> Answer;

    pub fn cuzhaveli_bill_bytes(bytes: u64, first: u64, second: u64, third: u64) -> Bill;

    pub fn cuzhaveli_bill_run(run: Run, first: u64, second: u64, third: u64) -> Bill;

    pub fn cuzhaveli_report_disk(
        list: *mut ArrayState,
        list_len: usize,
        which: usize,
        disk: usize,
        back: bool,
    ) -> Board;
    pub fn cuzhaveli_version() -> u32;
}
