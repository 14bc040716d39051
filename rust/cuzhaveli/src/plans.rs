//! The calls on plans: ours, further ones, and the judging of any.

use crate::{ffi, Plan, ReadList, Refusal, Shape, Step};

impl Shape {
    /// Our plan for a lost disk: where k = p no plan that the judge accepts reads less. Refuses 3.
    ///
    /// ```
    /// let plan = cuzhaveli::Shape::new(5, 5, 512)?.plan(1)?;
    /// assert_eq!(plan.reads(), 19); // by rows alone 25
    /// # Ok::<(), cuzhaveli::Refusal>(())
    /// ```
    pub fn plan(self, lost: usize) -> Result<Plan, Refusal> {
        self.given(unsafe { ffi::cuzhaveli_plan_disk(self.0.width, self.0.disks, lost) })
    }

    /// The balanced plan for a lost data disk: no survivor gives more than (3p - 1) / 4 of its cells, rounded up, and
    /// where k = p it reads as few in all as ours, and every plan that the judge accepts has a survivor that gives as
    /// many. For P and Q it is ours. Refuses 3.
    ///
    /// ```
    /// let shape = cuzhaveli::Shape::new(31, 31, 512)?;
    /// let (plan, ours) = (shape.balanced_plan(0)?, shape.plan(0)?);
    /// assert_eq!((plan.reads(), ours.reads()), (721, 721));
    /// let list = shape.plan_list(0, &plan.bytes())?;
    /// assert_eq!((1..33).map(|disk| list.share(disk)).max(), Some(23));
    /// assert_eq!((1..33).map(|disk| shape.read_list(0).unwrap().share(disk)).max(), Some(30));
    /// # Ok::<(), cuzhaveli::Refusal>(())
    /// ```
    pub fn balanced_plan(self, lost: usize) -> Result<Plan, Refusal> {
        self.given(unsafe { ffi::cuzhaveli_balanced_plan(self.0.width, self.0.disks, lost) })
    }

    /// The plan for a lost data disk that asks (p + 1) / 2 cells of the relieved data disk; no plan that the judge
    /// accepts asks less of any. Where k = p it reads as few in all as ours. For P and Q it is ours. Refuses 3 for the
    /// lost disk, 3 for a relieved one that is no data disk, 4 if they are the same.
    ///
    /// ```
    /// let shape = cuzhaveli::Shape::new(31, 31, 512)?;
    /// let plan = shape.relief_plan(0, 7)?; // disk 7 is slow
    /// assert_eq!((plan.reads(), shape.plan_list(0, &plan.bytes())?.share(7)), (721, 16));
    /// assert_eq!(shape.relief_plan(0, 31).unwrap_err().number(), 3); // P
    /// assert_eq!(shape.relief_plan(7, 7).unwrap_err().number(), 4);
    /// # Ok::<(), cuzhaveli::Refusal>(())
    /// ```
    pub fn relief_plan(self, lost: usize, relieved: usize) -> Result<Plan, Refusal> {
        let (width, disks) = (self.0.width, self.0.disks);
        self.given(unsafe { ffi::cuzhaveli_relief_plan(width, disks, lost, relieved) })
    }

    /// The plan for a lost data disk that reads no more cells than the other three, at most
    /// k × p - (k - 1) × (p + 1) / 4. Where k = p, p - 1 or 2 no plan that the judge accepts reads less. For P and Q it
    /// is ours. Refuses 3.
    ///
    /// ```
    /// let shape = cuzhaveli::Shape::new(7, 5, 512)?; // 5 of 7 bays
    /// assert_eq!(shape.fewest_plan(2)?.reads(), 25);
    /// assert_eq!((shape.balanced_plan(2)?.reads(), shape.plan(2)?.reads()), (27, 29));
    /// # Ok::<(), cuzhaveli::Refusal>(())
    /// ```
    pub fn fewest_plan(self, lost: usize) -> Result<Plan, Refusal> {
        self.given(unsafe { ffi::cuzhaveli_fewest_plan(self.0.width, self.0.disks, lost) })
    }

    fn given(self, plan: ffi::Plan) -> Result<Plan, Refusal> {
        plan.answer.accepted().map(|()| Plan::new(plan, self.0.width))
    }

    /// The read count of another planner's plan for a lost disk. Refuses 3, 5 (other than p steps), 7, 8, 9, and 6 for
    /// a number of p or more.
    ///
    /// ```
    /// use cuzhaveli::{Set, Shape, Step};
    ///
    /// let by_rows = [0, 1, 2, 3, 4].map(|row| Step { row, set: Set::Row(row) });
    /// assert_eq!(Shape::new(5, 5, 512)?.judge(1, &by_rows)?, 25);
    /// # Ok::<(), cuzhaveli::Refusal>(())
    /// ```
    pub fn judge(self, lost: usize, steps: &[Step]) -> Result<u32, Refusal> {
        let plan: Vec<u8> = steps.iter().flat_map(Step::bytes).collect();
        self.judge_bytes(lost, &plan)
    }

    /// The same of a plan as a host sends it: 3 × p bytes, three a step: row, kind, set number. Refuses 3, 5, 6 to 9.
    ///
    /// ```
    /// let shape = cuzhaveli::Shape::new(3, 3, 1)?;
    /// assert_eq!(shape.judge_bytes(1, &[0, 0, 0, 1, 1, 0, 2, 1, 1])?, 7); // R0, D0, D1
    /// assert_eq!(shape.judge_bytes(1, &[0, 2, 0, 1, 1, 0, 2, 1, 1]).unwrap_err().number(), 6);
    /// # Ok::<(), cuzhaveli::Refusal>(())
    /// ```
    pub fn judge_bytes(self, lost: usize, plan: &[u8]) -> Result<u32, Refusal> {
        let (width, disks, plan_len) = (self.0.width, self.0.disks, plan.len());
        let judged =
            unsafe { ffi::cuzhaveli_judge_plan(width, disks, lost, plan.as_ptr(), plan_len) };
        judged.answer.accepted().map(|()| judged.reads)
    }

    /// The read count of a plan as text, as hosts keep it in files: the line `row,set,number`, then p lines such as
    /// `3,D,2`, each ended by LF or CR LF; R and D may be small letters, and numbers have one to three digits and are
    /// at most 255. Refuses 3, 22, 6 to 9.
    ///
    /// ```
    /// let shape = cuzhaveli::Shape::new(3, 3, 1)?;
    /// assert_eq!(shape.judge_text(1, b"row,set,number\r\n0,r,0\r\n1,d,00\r\n2,d,1\r\n")?, 7);
    /// let unended = shape.judge_text(1, b"row,set,number\n0,R,0\n1,D,0\n2,D,1");
    /// assert_eq!(unended.unwrap_err().number(), 22);
    /// # Ok::<(), cuzhaveli::Refusal>(())
    /// ```
    pub fn judge_text(self, lost: usize, text: &[u8]) -> Result<u32, Refusal> {
        let (width, disks, text_len) = (self.0.width, self.0.disks, text.len());
        let judged =
            unsafe { ffi::cuzhaveli_judge_text(width, disks, lost, text.as_ptr(), text_len) };
        judged.answer.accepted().map(|()| judged.reads)
    }

    /// A plan that the judge accepts as text in its one plain form: LF, capitals, no leading zero. Refuses 3, 5 (other
    /// than p steps), 6 to 9.
    ///
    /// ```
    /// let shape = cuzhaveli::Shape::new(3, 3, 1)?;
    /// let steps: Vec<_> = shape.plan(1)?.steps().collect();
    /// assert_eq!(shape.write_plan(1, &steps)?, "row,set,number\n0,R,0\n1,D,0\n2,D,1\n");
    /// # Ok::<(), cuzhaveli::Refusal>(())
    /// ```
    pub fn write_plan(self, lost: usize, steps: &[Step]) -> Result<String, Refusal> {
        let plan: Vec<u8> = steps.iter().flat_map(Step::bytes).collect();
        self.written(|shape, out, out_len| unsafe {
            let (plan, plan_len) = (plan.as_ptr(), plan.len());
            ffi::cuzhaveli_write_plan(shape.width, shape.disks, lost, plan, plan_len, out, out_len)
        })
    }

    /// The plain form of a plan that is a text. Two texts of accepted plans have the same plain form exactly if they
    /// name the same steps in the same order. Refuses 3, 22, 6 to 9.
    ///
    /// ```
    /// let shape = cuzhaveli::Shape::new(3, 3, 1)?;
    /// let plain = shape.plain_text(1, b"row,set,number\r\n0,r,0\r\n1,d,00\r\n2,d,1\r\n")?;
    /// assert_eq!(plain, "row,set,number\n0,R,0\n1,D,0\n2,D,1\n");
    /// assert_eq!(shape.plain_text(1, plain.as_bytes())?, plain);
    /// # Ok::<(), cuzhaveli::Refusal>(())
    /// ```
    pub fn plain_text(self, lost: usize, text: &[u8]) -> Result<String, Refusal> {
        self.written(|shape, out, out_len| unsafe {
            let (text, text_len) = (text.as_ptr(), text.len());
            ffi::cuzhaveli_plain_text(shape.width, shape.disks, lost, text, text_len, out, out_len)
        })
    }

    /// The text that a call writes.
    fn written(
        self,
        write: impl FnOnce(ffi::Shape, *mut u8, usize) -> ffi::Written,
    ) -> Result<String, Refusal> {
        let mut out = vec![0; 263];
        let written = write(self.0, out.as_mut_ptr(), out.len());
        written.answer.accepted()?;
        out.truncate(written.length);
        Ok(String::from_utf8(out).expect("the library writes ASCII"))
    }

    /// The cells that a rebuild of that disk by our plan reads. Refuses 3.
    ///
    /// ```
    /// let list = cuzhaveli::Shape::new(5, 5, 512)?.read_list(1)?;
    /// assert!(list.contains(0, 0) && !list.contains(1, 0));
    /// # Ok::<(), cuzhaveli::Refusal>(())
    /// ```
    pub fn read_list(self, lost: usize) -> Result<ReadList, Refusal> {
        self.listed(|shape, list, list_len| unsafe {
            ffi::cuzhaveli_read_list(shape.width, shape.disks, lost, list, list_len)
        })
    }

    /// The cells that a rebuild by any plan that the judge accepts reads: 3 × p bytes, as [`Plan::bytes`] gives them.
    /// Refuses 3, 5, 6 to 9.
    ///
    /// ```
    /// let shape = cuzhaveli::Shape::new(5, 5, 512)?;
    /// assert_eq!(shape.plan_list(1, &shape.plan(1)?.bytes())?, shape.read_list(1)?);
    /// let by_rows = [0, 0, 0, 1, 0, 1, 2, 0, 2, 3, 0, 3, 4, 0, 4];
    /// assert_eq!(shape.plan_list(1, &by_rows)?.len(), 25);
    /// assert_eq!(shape.plan_list(1, &[0; 15]).unwrap_err().to_string(),
    ///     "refused, 8: the row of a step was rebuilt by an earlier one (step 1)");
    /// # Ok::<(), cuzhaveli::Refusal>(())
    /// ```
    pub fn plan_list(self, lost: usize, plan: &[u8]) -> Result<ReadList, Refusal> {
        self.listed(|shape, list, list_len| unsafe {
            let (plan, plan_len) = (plan.as_ptr(), plan.len());
            ffi::cuzhaveli_plan_list(shape.width, shape.disks, lost, plan, plan_len, list, list_len)
        })
    }

    /// The list that a call writes.
    fn listed(
        self,
        write: impl FnOnce(ffi::Shape, *mut u8, usize) -> ffi::Answer,
    ) -> Result<ReadList, Refusal> {
        let mut marks = vec![0; (self.0.disks + 2) * self.0.width];
        write(self.0, marks.as_mut_ptr(), marks.len()).accepted()?;
        Ok(ReadList::new(marks, self.0.width))
    }
}
