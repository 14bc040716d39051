//! Stripes that are verified together, under checksums.

use crate::{ffi, Refusal, Shape};

/// Some stripes of a set, which are verified together: a unit. In memory it is its pieces, the cells of one row on one
/// disk each, disk by disk and row by row. Its checksum block has a checksum for each piece, and one of these.
///
/// ```
/// use cuzhaveli::{Shape, Unit};
///
/// let shape = Shape::new(5, 5, 512)?;
/// let unit = Unit { shape, stripes: 8, set: *b"a name at random", number: 3 };
/// let mut cells = vec![7; unit.len()]; // the film first, then room for P and Q
/// Shape::new(5, 5, unit.piece_len())?.encode(&mut cells)?; // pieces of at most 4,096 bytes: all stripes at once
/// let mut block = vec![0; unit.block_len()];
/// unit.seal(&cells, &mut block)?;
///
/// let sealed = cells.clone();
/// cells[1_000] ^= 1; // on disk 0
/// let mut film = vec![0; 100];
/// assert_eq!(unit.film(&block, &cells, 0, &mut film).unwrap_err().number(), 24);
/// let mut marks = vec![0; unit.pieces()];
/// marks[9] = 1; // row 4 of disk 1 could not be read
/// unit.open(&block, &mut marks, &mut cells)?;
/// assert_eq!((cells == sealed, marks), (true, vec![0; 35]));
/// unit.film(&block, &cells, 0, &mut film)?;
/// # Ok::<(), cuzhaveli::Refusal>(())
/// ```
#[derive(Clone, Copy, Debug, PartialEq, Eq)]
pub struct Unit {
    /// The shape of its stripes.
    pub shape: Shape,
    /// How many stripes it has: a piece has at most 32,768 bytes.
    pub stripes: usize,
    /// The name of its set, chosen at random.
    pub set: [u8; 16],
    /// Its number in the set.
    pub number: u64,
}

impl Unit {
    /// The pieces of the unit, p × (k + 2).
    ///
    /// ```
    /// # let shape = cuzhaveli::Shape::new(5, 3, 512)?;
    /// let unit = cuzhaveli::Unit { shape, stripes: 8, set: [7; 16], number: 0 };
    /// assert_eq!((unit.pieces(), unit.piece_len(), unit.len()), (25, 4_096, 102_400));
    /// assert_eq!((unit.film_len(), unit.block_len()), (61_440, 208));
    /// # Ok::<(), cuzhaveli::Refusal>(())
    /// ```
    pub fn pieces(self) -> usize {
        self.shape.width() * (self.shape.disks() + 2)
    }

    /// The bytes of a piece.
    pub fn piece_len(self) -> usize {
        self.stripes.saturating_mul(self.shape.cell_size())
    }

    /// The bytes of the unit.
    #[allow(clippy::len_without_is_empty)] // no unit is empty
    pub fn len(self) -> usize {
        self.stripes.saturating_mul(self.shape.stripe_len())
    }

    /// The bytes of its film.
    pub fn film_len(self) -> usize {
        self.stripes.saturating_mul(self.shape.data_len())
    }

    /// The bytes of its checksum block.
    pub fn block_len(self) -> usize {
        8 * self.pieces() + 8
    }

    /// Writes the checksum block of the unit. Refuses 25, 5.
    ///
    /// ```
    /// # let shape = cuzhaveli::Shape::new(3, 2, 1)?;
    /// let unit = cuzhaveli::Unit { shape, stripes: 32, set: std::array::from_fn(|i| i as u8), number: 5 };
    /// let mut block = vec![0; unit.block_len()];
    /// let cells: Vec<u8> = (0..unit.len()).map(|i| (i % 32) as u8).collect();
    /// unit.seal(&cells, &mut block)?;
    /// assert_eq!(block[8 * 10..8 * 11], 0xe7109bc990f3c432_u64.to_le_bytes()); // row 1 of disk 3: Q
    /// # Ok::<(), cuzhaveli::Refusal>(())
    /// ```
    pub fn seal(self, cells: &[u8], block: &mut [u8]) -> Result<(), Refusal> {
        let (cells, cells_len) = (cells.as_ptr(), cells.len());
        let (block, block_len) = (block.as_mut_ptr(), block.len());
        let answer = unsafe {
            ffi::cuzhaveli_seal_unit(
                self.shape.0,
                self.stripes,
                self.set.as_ptr(),
                self.set.len(),
                self.number,
                cells,
                cells_len,
                block,
                block_len,
            )
        };
        answer.accepted()
    }

    /// Rebuilds the pieces that do not fit, or whose byte in `marks` is not 0; then the mark of each that fits is 0, of
    /// the others 1. If the sealed unit was encoded and the pieces that fit are its own, the unit is as it was sealed.
    /// Refuses 25, 5, 24 if the block does not fit its guard, 23 if the pieces that fit do not determine the others.
    ///
    /// ```
    /// # let shape = cuzhaveli::Shape::new(3, 2, 1)?;
    /// let unit = cuzhaveli::Unit { shape, stripes: 4, set: [7; 16], number: 0 };
    /// let (mut cells, mut block) = (vec![0; unit.len()], vec![0; unit.block_len()]); // zeros are clean
    /// unit.seal(&cells, &mut block)?;
    /// let mut marks = vec![1; unit.pieces()]; // nothing could be read
    /// assert_eq!(unit.open(&block, &mut marks, &mut cells).unwrap_err().number(), 23);
    /// block[0] ^= 1;
    /// assert_eq!(unit.open(&block, &mut marks, &mut cells).unwrap_err().number(), 24);
    /// # Ok::<(), cuzhaveli::Refusal>(())
    /// ```
    pub fn open(self, block: &[u8], marks: &mut [u8], cells: &mut [u8]) -> Result<(), Refusal> {
        let (block, block_len) = (block.as_ptr(), block.len());
        let (marks, marks_len) = (marks.as_mut_ptr(), marks.len());
        let (cells, cells_len) = (cells.as_mut_ptr(), cells.len());
        let answer = unsafe {
            ffi::cuzhaveli_open_unit(
                self.shape.0,
                self.stripes,
                self.set.as_ptr(),
                self.set.len(),
                self.number,
                block,
                block_len,
                marks,
                marks_len,
                cells,
                cells_len,
            )
        };
        answer.accepted()
    }

    /// Writes the film of the unit from its byte `from` on, if the pieces that it is in fit: stripe by stripe, disk by
    /// disk, row by row. Refuses 25, 5, 24.
    ///
    /// ```
    /// # let shape = cuzhaveli::Shape::new(3, 2, 1)?;
    /// let unit = cuzhaveli::Unit { shape, stripes: 2, set: [7; 16], number: 0 };
    /// let cells: Vec<u8> = (0..unit.len() as u8).collect(); // two bytes a piece
    /// let mut block = vec![0; unit.block_len()];
    /// unit.seal(&cells, &mut block)?;
    /// let mut film = [0; 12];
    /// unit.film(&block, &cells, 0, &mut film)?;
    /// assert_eq!(film, [0, 2, 4, 6, 8, 10, 1, 3, 5, 7, 9, 11]);
    /// assert_eq!(unit.film(&block, &cells, 1, &mut film).unwrap_err().number(), 5);
    /// # Ok::<(), cuzhaveli::Refusal>(())
    /// ```
    pub fn film(
        self,
        block: &[u8],
        cells: &[u8],
        from: usize,
        out: &mut [u8],
    ) -> Result<(), Refusal> {
        let (block, block_len) = (block.as_ptr(), block.len());
        let (cells, cells_len) = (cells.as_ptr(), cells.len());
        let (out, out_len) = (out.as_mut_ptr(), out.len());
        let answer = unsafe {
            ffi::cuzhaveli_film_bytes(
                self.shape.0,
                self.stripes,
                self.set.as_ptr(),
                self.set.len(),
                self.number,
                block,
                block_len,
                cells,
                cells_len,
                from,
                out,
                out_len,
            )
        };
        answer.accepted()
    }

    /// Compares a checksum block with its guard. Refuses 5, 24.
    ///
    /// ```
    /// # let shape = cuzhaveli::Shape::new(3, 2, 1)?;
    /// let unit = cuzhaveli::Unit { shape, stripes: 2, set: [7; 16], number: 0 };
    /// let mut block = vec![0; unit.block_len()];
    /// unit.seal(&vec![0; unit.len()], &mut block)?;
    /// unit.block_fits(&block)?;
    /// let next = cuzhaveli::Unit { number: 1, ..unit };
    /// assert_eq!(next.block_fits(&block).unwrap_err().number(), 24);
    /// # Ok::<(), cuzhaveli::Refusal>(())
    /// ```
    pub fn block_fits(self, block: &[u8]) -> Result<(), Refusal> {
        let (width, disks) = (self.shape.width(), self.shape.disks());
        let (set, set_len) = (self.set.as_ptr(), self.set.len());
        let (block, block_len) = (block.as_ptr(), block.len());
        let answer = unsafe {
            ffi::cuzhaveli_block_fits(width, disks, set, set_len, self.number, block, block_len)
        };
        answer.accepted()
    }

    /// Compares one piece with the checksum that the block has for that row of that disk. Refuses 25, 3, 5, 15, 24.
    ///
    /// ```
    /// # let shape = cuzhaveli::Shape::new(3, 2, 1)?;
    /// let unit = cuzhaveli::Unit { shape, stripes: 2, set: [7; 16], number: 0 };
    /// let cells: Vec<u8> = (0..unit.len() as u8).collect();
    /// let mut block = vec![0; unit.block_len()];
    /// unit.seal(&cells, &mut block)?;
    /// unit.piece_fits(&block, 1, 0, &[6, 7])?;
    /// assert_eq!(unit.piece_fits(&block, 0, 1, &[6, 7]).unwrap_err().number(), 24);
    /// assert_eq!(unit.piece_fits(&block, 1, 3, &[6, 7]).unwrap_err().number(), 15);
    /// # Ok::<(), cuzhaveli::Refusal>(())
    /// ```
    pub fn piece_fits(
        self,
        block: &[u8],
        disk: usize,
        row: usize,
        piece: &[u8],
    ) -> Result<(), Refusal> {
        let (block, block_len) = (block.as_ptr(), block.len());
        let (piece, piece_len) = (piece.as_ptr(), piece.len());
        let answer = unsafe {
            ffi::cuzhaveli_piece_fits(
                self.shape.0,
                self.stripes,
                self.set.as_ptr(),
                self.set.len(),
                self.number,
                block,
                block_len,
                disk,
                row,
                piece,
                piece_len,
            )
        };
        answer.accepted()
    }
}
