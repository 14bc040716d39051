//! Runs: the rebuild of one disk over many stripes.

use crate::{ffi, Bill, Refusal, Shape};

/// A run's record. Keep its numbers in a file and give them to [`Shape::resume_run`].
///
/// ```
/// use cuzhaveli::Shape;
///
/// let shape = Shape::new(3, 3, 1)?;
/// let stripe = [1, 8, 0x40, 0, 0, 0, 4, 0x20, 0, 7, 0x38, 0xC0, 0x11, 0x9C, 0x66];
/// let mut run = shape.open_run(1, 2)?;
/// let mut column = [0; 3];
/// run.step(0, &stripe, &mut column)?;
/// run.skip(1)?; // holds no film
/// assert!(run.is_over());
/// assert_eq!(run.cells_read(), 7);
/// # Ok::<(), cuzhaveli::Refusal>(())
/// ```
#[derive(Clone, Debug, PartialEq, Eq)]
pub struct Run(ffi::Run);

impl Run {
    /// A record that the library made.
    pub(crate) fn new(run: ffi::Run) -> Run {
        Run(run)
    }

    /// A record that other software made, if the library can read it.
    pub(crate) fn resumed(run: ffi::Run) -> Result<Run, Refusal> {
        unsafe { ffi::cuzhaveli_run_progress(&run) }.answer.accepted()?;
        Ok(Run(run))
    }

    /// The run whose record was made before arrays could have fewer data disks than their width. Refuses 1, 2, 3; a
    /// record whose `next` is above `stripes` can be read, and its steps and skips give 10.
    ///
    /// ```
    /// use cuzhaveli::{ffi::FullRun, Run};
    ///
    /// let run = Run::resume_full(FullRun { width: 5, size: 512, disk: 1, stripes: 9, next: 4 })?;
    /// assert_eq!((run.shape().disks(), run.next(), run.skipped()), (5, 4, 0));
    /// # Ok::<(), cuzhaveli::Refusal>(())
    /// ```
    pub fn resume_full(old: ffi::FullRun) -> Result<Run, Refusal> {
        Run::resumed(unsafe { ffi::cuzhaveli_resume_full_run(old) })
    }

    /// The run whose record was made before stripes could be skipped. Refuses 1, 13, 2, 3; a record whose `next` is
    /// above `stripes` can be read, and its steps and skips give 10.
    ///
    /// ```
    /// use cuzhaveli::{ffi, Run};
    ///
    /// let shape = ffi::Shape { width: 5, disks: 4, cell_size: 512 };
    /// let run = Run::resume_disks(ffi::DisksRun { shape, lost: 1, stripes: 9, next: 4 })?;
    /// assert_eq!((run.shape().disks(), run.next(), run.skipped()), (4, 4, 0));
    /// # Ok::<(), cuzhaveli::Refusal>(())
    /// ```
    pub fn resume_disks(old: ffi::DisksRun) -> Result<Run, Refusal> {
        Run::resumed(unsafe { ffi::cuzhaveli_resume_disks_run(old) })
    }

    /// Rebuilds stripe `which`, which must be the next, into the column, and moves on by one. Refuses 5, 10; the run
    /// and the column then stand.
    ///
    /// ```
    /// let shape = cuzhaveli::Shape::new(3, 3, 1)?;
    /// let mut run = shape.open_run(1, 2)?;
    /// let mut column = [9; 3];
    /// assert_eq!(run.step(1, &[0; 15], &mut column).unwrap_err().number(), 10);
    /// assert_eq!((run.next(), column), (0, [9; 3]));
    /// run.step(0, &[0; 15], &mut column)?;
    /// assert_eq!((run.next(), column), (1, [0; 3]));
    /// # Ok::<(), cuzhaveli::Refusal>(())
    /// ```
    pub fn step(&mut self, which: u64, stripe: &[u8], column: &mut [u8]) -> Result<(), Refusal> {
        let (stripe, stripe_len) = (stripe.as_ptr(), stripe.len());
        let (column, column_len) = (column.as_mut_ptr(), column.len());
        let answer = unsafe {
            ffi::cuzhaveli_step_run(&mut self.0, which, stripe, stripe_len, column, column_len)
        };
        answer.accepted()
    }

    /// Skips stripe `which`, which must be the next and holds no film. Refuses 10; the run then stands.
    ///
    /// ```
    /// let mut run = cuzhaveli::Shape::new(3, 3, 1)?.open_run(1, 2)?;
    /// run.skip(0)?;
    /// assert_eq!((run.next(), run.skipped()), (1, 1));
    /// assert_eq!(run.skip(0).unwrap_err().number(), 10);
    /// # Ok::<(), cuzhaveli::Refusal>(())
    /// ```
    pub fn skip(&mut self, which: u64) -> Result<(), Refusal> {
        unsafe { ffi::cuzhaveli_skip_stripe(&mut self.0, which) }.accepted()
    }

    /// The shape of the array.
    ///
    /// ```
    /// let shape = cuzhaveli::Shape::new(3, 3, 1)?;
    /// assert_eq!(shape.open_run(1, 2)?.shape(), shape);
    /// # Ok::<(), cuzhaveli::Refusal>(())
    /// ```
    pub fn shape(&self) -> Shape {
        Shape::of(self.0.shape)
    }

    /// The lost disk.
    ///
    /// ```
    /// assert_eq!(cuzhaveli::Shape::new(3, 3, 1)?.open_run(4, 2)?.lost(), 4);
    /// # Ok::<(), cuzhaveli::Refusal>(())
    /// ```
    pub fn lost(&self) -> usize {
        self.0.lost
    }

    /// The stripes of the run.
    ///
    /// ```
    /// assert_eq!(cuzhaveli::Shape::new(3, 3, 1)?.open_run(1, u32::MAX)?.stripes(), u32::MAX);
    /// # Ok::<(), cuzhaveli::Refusal>(())
    /// ```
    pub fn stripes(&self) -> u32 {
        self.0.stripes
    }

    /// The next stripe, counted from 0; so many have been passed.
    ///
    /// ```
    /// assert_eq!(cuzhaveli::Shape::new(3, 3, 1)?.resume_run(1, 9, 4, 0)?.next(), 4);
    /// # Ok::<(), cuzhaveli::Refusal>(())
    /// ```
    pub fn next(&self) -> u32 {
        self.0.next
    }

    /// The stripes skipped, of those passed.
    ///
    /// ```
    /// assert_eq!(cuzhaveli::Shape::new(3, 3, 1)?.resume_run(1, 9, 4, 3)?.skipped(), 3);
    /// # Ok::<(), cuzhaveli::Refusal>(())
    /// ```
    pub fn skipped(&self) -> u32 {
        self.0.skipped
    }

    /// Whether all stripes have been passed: `next` is the number of stripes.
    ///
    /// ```
    /// assert!(cuzhaveli::Shape::new(3, 3, 1)?.open_run(1, 0)?.is_over());
    /// # Ok::<(), cuzhaveli::Refusal>(())
    /// ```
    pub fn is_over(&self) -> bool {
        self.progress().over.get()
    }

    /// The cells read so far: stripes rebuilt times the plan's reads.
    ///
    /// ```
    /// assert_eq!(cuzhaveli::Shape::new(5, 5, 1)?.resume_run(1, 9, 4, 3)?.cells_read(), 19);
    /// # Ok::<(), cuzhaveli::Refusal>(())
    /// ```
    pub fn cells_read(&self) -> u64 {
        self.progress().cells
    }

    /// The bill of the cells read so far, with the rates of [`crate::bill`]. Refuses 16.
    ///
    /// ```
    /// let run = cuzhaveli::Shape::new(5, 5, 4096)?.resume_run(1, 20_000, 20_000, 0)?;
    /// let bill = run.bill([10, 5, 1])?;
    /// assert_eq!(bill.bands, [19 * 4096 * 20_000, 0, 0]);
    /// assert_eq!(bill.cents, 14); // 14.496
    /// # Ok::<(), cuzhaveli::Refusal>(())
    /// ```
    pub fn bill(&self, rates: [u64; 3]) -> Result<Bill, Refusal> {
        let [first, second, third] = rates;
        Bill::of(unsafe { ffi::cuzhaveli_bill_run(self.0, first, second, third) })
    }

    fn progress(&self) -> ffi::Progress {
        let progress = unsafe { ffi::cuzhaveli_run_progress(&self.0) };
        // The record's numbers were tested when it was made, and steps and skips keep them.
        debug_assert_eq!(progress.answer.refusal, 0);
        progress
    }
}
