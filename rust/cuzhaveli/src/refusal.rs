//! Why the library turned a call away.

use std::error::Error;
use std::fmt;

use crate::ffi;

/// A refusal: what was wrong, its number, and for the steps of a plan the place.
///
/// ```
/// use cuzhaveli::{RefusalKind, Shape};
///
/// let refusal = Shape::new(9, 9, 512).unwrap_err();
/// assert_eq!(refusal.kind(), RefusalKind::BadWidth);
/// assert_eq!((refusal.number(), refusal.place()), (1, 0));
/// assert_eq!(refusal.to_string(), "refused, 1: the width is not one of 3, 5, 7, 11, 13, 17, 19, 23, 29, 31");
/// ```
#[derive(Clone, Copy, Debug, PartialEq, Eq)]
pub struct Refusal {
    number: u8,
    place: u32,
}

macro_rules! kinds {
    ($($name:ident = $number:literal, $text:literal;)*) => {
        /// What was wrong, with the numbers of `include/cuzhaveli.h`.
        #[derive(Clone, Copy, Debug, PartialEq, Eq, Hash)]
        #[non_exhaustive]
        #[repr(u8)]
        pub enum RefusalKind {
            $(#[doc = $text] $name = $number,)*
        }

        impl RefusalKind {
            const ALL: &'static [(RefusalKind, &'static str)] = &[$((RefusalKind::$name, $text),)*];

            /// What it says, as C's `cuzhaveli_refusal_text` does.
            ///
            /// ```
            /// assert_eq!(cuzhaveli::RefusalKind::NoSuchRow.text(), "the array has no row of that number");
            /// ```
            pub fn text(self) -> &'static str {
                match self {
                    $(RefusalKind::$name => $text,)*
                }
            }
        }
    };
}

kinds! {
    BadWidth = 1, "the width is not one of 3, 5, 7, 11, 13, 17, 19, 23, 29, 31";
    BadCellSize = 2, "the cell size is 0 or over 4096";
    NoSuchDisk = 3, "the array has no disk of that number, or no data disk";
    SameDisk = 4, "two disks that must differ are the same";
    BadLength = 5, "a length is another than the one required";
    StepRange = 6, "the row or set number of a step is the width or more, or its kind over 1";
    StepSet = 7, "the set of a step lacks that row's lost cell";
    StepRepeated = 8, "the row of a step was rebuilt by an earlier one";
    StepEarly = 9, "another lost cell of a step's set is still missing";
    NotNext = 10, "next is not below the stripes of the run, the stripe is not next, or more are skipped than passed";
    PackageTooLong = 11, "the package has more than 2^48 bytes";
    BadText = 12, "the input is not of the plan program's form";
    BadDisks = 13, "the data disks are fewer than 2 or more than the width";
    TooManyFiles = 14, "the package has more than 4096 files";
    NoSuchRow = 15, "the array has no row of that number";
    BadRate = 16, "a rate is over 1000 cents a GiB";
    TooManyBytes = 17, "the bill has more than 2^54 bytes";
    NoSuchServer = 18, "the servers are fewer than 2 or more than 16, or there is none of that number";
    SurvivorsDisagree = 19, "the surviving disks are those of no clean stripe";
    NoSuchArray = 20, "the list has no array of that number, or more than 64 arrays";
    DiskUnchanged = 21, "the disk reported lost is lost, or the one reported back is not";
    BadPlanText = 22, "the text is not of a plan's form, or has another number of lines than the width";
    Undetermined = 23, "the other cells do not determine the missing ones";
    DoesNotFit = 24, "a checksum block or a piece has another checksum than the one required";
    BadUnit = 25, "the stripes of a unit or of a group are out of limits";
    NoSuchPlace = 26, "the images have no such row, stripe, unit or byte of film";
    Unknown = 255, "a refusal that this version of the crate does not know";
}

impl RefusalKind {
    /// All that the library can answer, in the order of their numbers; not [`RefusalKind::Unknown`].
    ///
    /// ```
    /// use cuzhaveli::RefusalKind;
    ///
    /// assert!(RefusalKind::all().map(|kind| kind as u8).eq(1..=26));
    /// ```
    pub fn all() -> impl Iterator<Item = RefusalKind> {
        let kinds = RefusalKind::ALL.iter().map(|(kind, _)| *kind);
        kinds.filter(|kind| *kind != RefusalKind::Unknown)
    }
}

impl Refusal {
    /// What was wrong; [`RefusalKind::Unknown`] for a number that this crate does not know.
    ///
    /// ```
    /// use cuzhaveli::{RefusalKind, Shape};
    ///
    /// let shape = Shape::new(5, 3, 1)?;
    /// assert_eq!(shape.plan(5).unwrap_err().kind(), RefusalKind::NoSuchDisk);
    /// # Ok::<(), cuzhaveli::Refusal>(())
    /// ```
    pub fn kind(self) -> RefusalKind {
        self.entry().0
    }

    /// The library's number.
    ///
    /// ```
    /// assert_eq!(cuzhaveli::Shape::new(5, 6, 1).unwrap_err().number(), 13);
    /// ```
    pub fn number(self) -> u8 {
        self.number
    }

    /// The step, counted from 0, for refusals 6 to 9; else 0.
    ///
    /// ```
    /// use cuzhaveli::{Set, Shape, Step};
    ///
    /// let steps = [Step { row: 0, set: Set::Row(0) }; 5];
    /// let refusal = Shape::new(5, 5, 1)?.judge(1, &steps).unwrap_err();
    /// assert_eq!((refusal.number(), refusal.place()), (8, 1)); // row 0 a second time
    /// # Ok::<(), cuzhaveli::Refusal>(())
    /// ```
    pub fn place(self) -> u32 {
        self.place
    }

    fn entry(self) -> (RefusalKind, &'static str) {
        let known = RefusalKind::ALL.iter().find(|(kind, _)| *kind as u8 == self.number);
        *known.unwrap_or(RefusalKind::ALL.last().expect("the last kind is Unknown"))
    }
}

impl fmt::Display for Refusal {
    fn fmt(&self, f: &mut fmt::Formatter) -> fmt::Result {
        write!(f, "refused, {}: {}", self.number, self.entry().1)?;
        match self.number {
            6..=9 => write!(f, " (step {})", self.place),
            _ => Ok(()),
        }
    }
}

impl Error for Refusal {}

impl ffi::Answer {
    /// The answer as a result.
    pub(crate) fn accepted(self) -> Result<(), Refusal> {
        match self.refusal {
            0 => Ok(()),
            number => Err(Refusal { number, place: self.place }),
        }
    }
}
