//! The rebuild of disks and cells of a stripe.

use crate::{ffi, Refusal, Shape};

/// A call of the library that rebuilds one disk of a lent stripe into a lent column.
type IntoColumn =
    unsafe extern "C" fn(ffi::Shape, usize, *const u8, usize, *mut u8, usize) -> ffi::Answer;

impl Shape {
    /// Writes a lost disk's part to the column by our plan. Only the cells of the read list matter: the rest of the
    /// stripe may hold anything. Refuses 3, 5.
    ///
    /// ```
    /// let shape = cuzhaveli::Shape::new(3, 3, 1)?;
    /// let stripe = [1, 8, 0x40, 0, 0, 0, 4, 0x20, 0, 7, 0x38, 0xC0, 0x11, 0x9C, 0x66];
    /// let mut column = [0; 3];
    /// shape.rebuild_one(1, &stripe, &mut column)?;
    /// assert_eq!(column, [0x02, 0x10, 0x80]);
    /// # Ok::<(), cuzhaveli::Refusal>(())
    /// ```
    pub fn rebuild_one(self, lost: usize, stripe: &[u8], column: &mut [u8]) -> Result<(), Refusal> {
        self.into_column(ffi::cuzhaveli_rebuild_one, lost, stripe, column)
    }

    /// Does the same by the balanced plan: only the cells of its list matter. Refuses 3, 5.
    ///
    /// ```
    /// let shape = cuzhaveli::Shape::new(3, 3, 1)?;
    /// let stripe = [1, 8, 0x40, 0, 0, 0, 4, 0x20, 0, 7, 0x38, 0xC0, 0x11, 0x9C, 0x66];
    /// let mut column = [0; 3];
    /// shape.rebuild_balanced(1, &stripe, &mut column)?;
    /// assert_eq!(column, [0x02, 0x10, 0x80]);
    /// # Ok::<(), cuzhaveli::Refusal>(())
    /// ```
    pub fn rebuild_balanced(
        self,
        lost: usize,
        stripe: &[u8],
        column: &mut [u8],
    ) -> Result<(), Refusal> {
        self.into_column(ffi::cuzhaveli_rebuild_balanced, lost, stripe, column)
    }

    /// Does the same by any plan that the judge accepts, 3 × p bytes, as [`Plan::bytes`](crate::Plan::bytes) gives
    /// them: only the cells of [`plan_list`](Shape::plan_list) matter. Refuses 3, 5, 6 to 9; the column then stands.
    ///
    /// ```
    /// let shape = cuzhaveli::Shape::new(3, 3, 1)?;
    /// let stripe = [1, 8, 0x40, 0, 0, 0, 4, 0x20, 0, 7, 0x38, 0xC0, 0x11, 0x9C, 0x66];
    /// let mut column = [0; 3];
    /// let by_rows = [2, 0, 2, 0, 0, 0, 1, 0, 1]; // each cell goes to its row, whatever the order
    /// shape.rebuild_by_plan(1, &by_rows, &stripe, &mut column)?;
    /// assert_eq!(column, [0x02, 0x10, 0x80]);
    /// let refusal = shape.rebuild_by_plan(1, &[0; 9], &stripe, &mut column).unwrap_err();
    /// assert_eq!((refusal.number(), refusal.place()), (8, 1));
    /// # Ok::<(), cuzhaveli::Refusal>(())
    /// ```
    pub fn rebuild_by_plan(
        self,
        lost: usize,
        plan: &[u8],
        stripe: &[u8],
        column: &mut [u8],
    ) -> Result<(), Refusal> {
        let answer = unsafe {
            ffi::cuzhaveli_rebuild_by_plan(
                self.0,
                lost,
                plan.as_ptr(),
                plan.len(),
                stripe.as_ptr(),
                stripe.len(),
                column.as_mut_ptr(),
                column.len(),
            )
        };
        answer.accepted()
    }

    /// Writes a lost disk's part to the column if the surviving disks are those of a clean stripe: every surviving cell
    /// is read, and what the stripe holds for the lost disk plays no part. Refuses 3, 5, then 19 where no clean stripe
    /// has all surviving cells.
    ///
    /// ```
    /// use cuzhaveli::RefusalKind;
    ///
    /// let shape = cuzhaveli::Shape::new(3, 3, 1)?;
    /// let mut stripe = [1, 8, 0x40, 0, 0, 0, 4, 0x20, 0, 7, 0x38, 0xC0, 0x11, 0x9C, 0x66];
    /// let mut column = [0; 3];
    /// shape.rebuild_tested(1, &stripe, &mut column)?;
    /// assert_eq!(column, [0x02, 0x10, 0x80]);
    /// let (disk_0, others) = stripe.split_at_mut(3);
    /// disk_0.swap_with_slice(&mut others[3..6]); // disks 0 and 2 in each other's place
    /// let refusal = shape.rebuild_tested(1, &stripe, &mut column).unwrap_err();
    /// assert_eq!((refusal.number(), refusal.kind()), (19, RefusalKind::SurvivorsDisagree));
    /// assert_eq!(column, [0x02, 0x10, 0x80]); // as it was
    /// # Ok::<(), cuzhaveli::Refusal>(())
    /// ```
    pub fn rebuild_tested(
        self,
        lost: usize,
        stripe: &[u8],
        column: &mut [u8],
    ) -> Result<(), Refusal> {
        self.into_column(ffi::cuzhaveli_rebuild_tested, lost, stripe, column)
    }

    /// Writes the two lost disks in their places in the stripe, which is then the one clean stripe with those contents
    /// of the others. Refuses 3, 4, 5.
    ///
    /// ```
    /// let shape = cuzhaveli::Shape::new(3, 3, 1)?;
    /// let mut stripe = [1, 8, 0x40, 0, 0, 0, 4, 0x20, 0, 7, 0x38, 0xC0, 0, 0, 0];
    /// shape.rebuild_two([4, 1], &mut stripe)?;
    /// assert_eq!(stripe[3..6], [0x02, 0x10, 0x80]);
    /// assert_eq!(stripe[12..], [0x11, 0x9C, 0x66]);
    /// # Ok::<(), cuzhaveli::Refusal>(())
    /// ```
    pub fn rebuild_two(self, lost: [usize; 2], stripe: &mut [u8]) -> Result<(), Refusal> {
        let (stripe, stripe_len) = (stripe.as_mut_ptr(), stripe.len());
        let [first, second] = lost;
        unsafe { ffi::cuzhaveli_rebuild_two(self.0, first, second, stripe, stripe_len) }.accepted()
    }

    /// Writes the missing cells of a stripe in their places: cell (row, disk) is missing if the mark of place
    /// disk × p + row, of p × (k + 2), is not 0. What the stripe holds for them is never used, and no other byte changes.
    /// If the other cells are those of a clean stripe, that one stands there after. Refuses 5, then 23 exactly if the
    /// other cells do not determine the missing ones; cells on up to two disks are always determined.
    ///
    /// ```
    /// use cuzhaveli::RefusalKind;
    ///
    /// let shape = cuzhaveli::Shape::new(3, 3, 1)?;
    /// let clean = [1, 8, 0x40, 2, 0x10, 0x80, 4, 0x20, 0, 7, 0x38, 0xC0, 0x11, 0x9C, 0x66];
    /// let mut stripe = clean;
    /// let mut missing = [0; 15];
    /// for place in [3, 4, 5, 0, 6] { // disk 1, and row 0 of disks 0 and 2
    ///     (missing[place], stripe[place]) = (1, 0xEE);
    /// }
    /// shape.rebuild_cells(&missing, &mut stripe)?;
    /// assert_eq!(stripe, clean);
    /// let mut missing = [0; 15];
    /// (missing[2], missing[11], missing[14]) = (1, 1, 1); // row 2 of disk 0, of P and of Q: in R 2 and D 2 alone
    /// let refusal = shape.rebuild_cells(&missing, &mut stripe).unwrap_err();
    /// assert_eq!((refusal.kind(), stripe), (RefusalKind::Undetermined, clean));
    /// # Ok::<(), cuzhaveli::Refusal>(())
    /// ```
    pub fn rebuild_cells(self, missing: &[u8], stripe: &mut [u8]) -> Result<(), Refusal> {
        let (missing, missing_len) = (missing.as_ptr(), missing.len());
        let (stripe, stripe_len) = (stripe.as_mut_ptr(), stripe.len());
        let answer = unsafe {
            ffi::cuzhaveli_rebuild_cells(self.0, missing, missing_len, stripe, stripe_len)
        };
        answer.accepted()
    }

    fn into_column(
        self,
        rebuild: IntoColumn,
        lost: usize,
        stripe: &[u8],
        column: &mut [u8],
    ) -> Result<(), Refusal> {
        let (stripe, stripe_len) = (stripe.as_ptr(), stripe.len());
        let (column, column_len) = (column.as_mut_ptr(), column.len());
        unsafe { rebuild(self.0, lost, stripe, stripe_len, column, column_len) }.accepted()
    }
}
