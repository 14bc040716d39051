//! Where the bytes of a film are on its disks.

use std::ops::Range;

use crate::{ffi, Refusal, Shape};

/// The numbers of a set of images, within the limits: a film of so many bytes on the disks of a shape, one image a disk.
///
/// An image has a label of 4,096 bytes at either end, and between them groups of stripes, the last one of those that are
/// left. In a group the cells of a row lie side by side, row after row; the checksum blocks of its units follow, then
/// zeros up to a multiple of 4,096. A unit is some stripes of a group, the last one of those that are left; a piece is the
/// cells of one row of a unit on one disk.
///
/// ```
/// use cuzhaveli::Shape;
///
/// let layout = Shape::new(5, 5, 4096)?.layout(8, 64, 20_000_003)?;
/// assert_eq!((layout.stripes(), layout.units()), (196, 25));
/// let film = layout.film(12_345_678)?;
/// let cell = layout.cell(film.row, film.stripe)?;
/// assert_eq!(film.at, cell.start + film.byte as u64);
/// # Ok::<(), cuzhaveli::Refusal>(())
/// ```
#[derive(Clone, Copy, Debug, PartialEq, Eq)]
pub struct Layout {
    layout: ffi::Layout,
    image: ffi::Image,
}

/// The stripes of a unit, and its piece of one row.
#[derive(Clone, Debug, PartialEq, Eq)]
pub struct UnitPlace {
    /// The stripes, counted over the film.
    pub stripes: Range<u64>,
    /// The bytes of the piece in an image: the cells of the row, in the order of the stripes.
    pub piece: Range<u64>,
}

/// Where a byte of film is.
#[derive(Clone, Copy, Debug, PartialEq, Eq)]
pub struct FilmPlace {
    /// Its stripe.
    pub stripe: u64,
    /// Its data disk.
    pub disk: usize,
    /// Its row.
    pub row: usize,
    /// Its byte of the cell.
    pub byte: usize,
    /// Its byte of the image of that disk.
    pub at: u64,
}

impl Shape {
    /// The layout of a film of `length` bytes, up to 2^48, in units and groups of so many stripes: a piece of more than
    /// one cell has at most 32,768 bytes, a group is a multiple of the unit and at most 65,536 stripes. Refuses 11, 25.
    ///
    /// ```
    /// let shape = cuzhaveli::Shape::new(5, 5, 4096)?;
    /// assert!(shape.layout(8, 64, 1 << 48).is_ok());
    /// assert_eq!(shape.layout(8, 64, (1 << 48) + 1).unwrap_err().number(), 11);
    /// assert_eq!(shape.layout(9, 63, 1).unwrap_err().number(), 25); // pieces of 36,864 bytes
    /// assert_eq!(shape.layout(8, 63, 1).unwrap_err().number(), 25); // no multiple of 8
    /// # Ok::<(), cuzhaveli::Refusal>(())
    /// ```
    pub fn layout(self, unit: u64, group: u64, length: u64) -> Result<Layout, Refusal> {
        let ffi::Shape { width, disks, cell_size } = self.0;
        let layout = ffi::Layout { width, disks, cell_size, unit, group, length };
        let image = unsafe { ffi::cuzhaveli_image_bytes(layout) };
        image.answer.accepted().map(|()| Layout { layout, image })
    }
}

impl Layout {
    /// The shape of its stripes.
    ///
    /// ```
    /// let shape = cuzhaveli::Shape::new(7, 5, 512)?;
    /// assert_eq!(shape.layout(64, 512, 1)?.shape(), shape);
    /// # Ok::<(), cuzhaveli::Refusal>(())
    /// ```
    pub fn shape(self) -> Shape {
        let ffi::Layout { width, disks, cell_size, .. } = self.layout;
        Shape::of(ffi::Shape { width, disks, cell_size })
    }

    /// The bytes of the film.
    ///
    /// ```
    /// let layout = cuzhaveli::Shape::new(7, 5, 512)?.layout(64, 512, 1_000)?;
    /// assert_eq!(layout.length(), 1_000);
    /// # Ok::<(), cuzhaveli::Refusal>(())
    /// ```
    pub fn length(self) -> u64 {
        self.layout.length
    }

    /// The stripes that hold the film.
    ///
    /// ```
    /// let layout = cuzhaveli::Shape::new(3, 2, 10)?.layout(2, 4, 361)?; // 60 bytes of film a stripe
    /// assert_eq!(layout.stripes(), 7);
    /// # Ok::<(), cuzhaveli::Refusal>(())
    /// ```
    pub fn stripes(self) -> u64 {
        self.image.stripes
    }

    /// The units of these stripes.
    ///
    /// ```
    /// let layout = cuzhaveli::Shape::new(3, 2, 10)?.layout(2, 4, 361)?;
    /// assert_eq!(layout.units(), 4);
    /// # Ok::<(), cuzhaveli::Refusal>(())
    /// ```
    pub fn units(self) -> u64 {
        self.image.units
    }

    /// The bytes of an image; the last 4,096 are its second label.
    ///
    /// ```
    /// let layout = cuzhaveli::Shape::new(3, 2, 10)?.layout(2, 4, 361)?;
    /// assert_eq!(layout.image_len(), 4 * 4096); // a label, two groups, a label
    /// # Ok::<(), cuzhaveli::Refusal>(())
    /// ```
    pub fn image_len(self) -> u64 {
        self.image.bytes
    }

    /// Where the second label begins.
    ///
    /// ```
    /// let layout = cuzhaveli::Shape::new(3, 2, 10)?.layout(2, 4, 0)?; // no film
    /// assert_eq!((layout.second_label(), layout.image_len()), (4096, 8192));
    /// # Ok::<(), cuzhaveli::Refusal>(())
    /// ```
    pub fn second_label(self) -> u64 {
        self.image.end
    }

    /// The cell of a row of a stripe, in the image of every disk. Refuses 26.
    ///
    /// ```
    /// let layout = cuzhaveli::Shape::new(3, 2, 10)?.layout(2, 4, 361)?;
    /// assert_eq!(layout.cell(2, 3)?, 4096 + 110..4096 + 120); // stripe 3 of 4, row 2
    /// assert_eq!(layout.cell(2, 6)?, 8192 + 80..8192 + 90); // the last group has three
    /// assert_eq!(layout.cell(3, 0).unwrap_err().number(), 26);
    /// # Ok::<(), cuzhaveli::Refusal>(())
    /// ```
    pub fn cell(self, row: usize, stripe: u64) -> Result<Range<u64>, Refusal> {
        range(unsafe { ffi::cuzhaveli_cell_place(self.layout, row, stripe) })
    }

    /// The checksum block of a unit, in every image. Refuses 26.
    ///
    /// ```
    /// let layout = cuzhaveli::Shape::new(3, 2, 10)?.layout(2, 4, 361)?;
    /// assert_eq!(layout.block(1)?, 4096 + 120 + 104..4096 + 120 + 208); // 8 * 3 * 4 + 8 bytes each
    /// assert_eq!(layout.block(4).unwrap_err().number(), 26);
    /// # Ok::<(), cuzhaveli::Refusal>(())
    /// ```
    pub fn block(self, unit: u64) -> Result<Range<u64>, Refusal> {
        range(unsafe { ffi::cuzhaveli_block_place(self.layout, unit) })
    }

    /// The stripes of a unit, and its piece of a row in every image. Refuses 26.
    ///
    /// ```
    /// let layout = cuzhaveli::Shape::new(3, 2, 10)?.layout(2, 4, 361)?;
    /// let unit = layout.unit(1, 3)?;
    /// assert_eq!(unit.stripes, 6..7); // the last unit has one stripe
    /// assert_eq!(unit.piece, layout.cell(1, 6)?);
    /// assert_eq!(layout.unit(3, 0).unwrap_err().number(), 26);
    /// # Ok::<(), cuzhaveli::Refusal>(())
    /// ```
    pub fn unit(self, row: usize, unit: u64) -> Result<UnitPlace, Refusal> {
        let place = unsafe { ffi::cuzhaveli_unit_place(self.layout, row, unit) };
        place.answer.accepted()?;
        let ffi::UnitPlace { first, stripes, at, bytes, .. } = place;
        Ok(UnitPlace { stripes: first..first + stripes, piece: at..at + bytes })
    }

    /// Where a byte of the film is. Refuses 26.
    ///
    /// ```
    /// let layout = cuzhaveli::Shape::new(3, 2, 10)?.layout(2, 4, 361)?;
    /// let place = layout.film(360)?; // the first byte of the last stripe
    /// assert_eq!((place.stripe, place.disk, place.row, place.byte), (6, 0, 0, 0));
    /// assert_eq!(place.at, layout.cell(0, 6)?.start);
    /// assert_eq!(layout.film(361).unwrap_err().number(), 26);
    /// # Ok::<(), cuzhaveli::Refusal>(())
    /// ```
    pub fn film(self, byte: u64) -> Result<FilmPlace, Refusal> {
        let place = unsafe { ffi::cuzhaveli_film_place(self.layout, byte) };
        place.answer.accepted()?;
        let ffi::FilmPlace { stripe, disk, row, byte, at, .. } = place;
        Ok(FilmPlace { stripe, disk, row, byte, at })
    }
}

fn range(place: ffi::Place) -> Result<Range<u64>, Refusal> {
    place.answer.accepted()?;
    Ok(place.at..place.at + place.bytes)
}
