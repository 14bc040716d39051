//! The shape of an array, and the calls that encode, check and update its stripes.

use std::ops::Range;

use crate::{ffi, Refusal, Run};

/// The width, the data disks and the cell size of an array, within the limits.
#[derive(Clone, Copy, Debug, PartialEq, Eq)]
pub struct Shape(pub(crate) ffi::Shape);

/// A byte of a server's losses that names no disk.
pub const NO_LOSS: u8 = 255;

/// The space that a package takes.
#[derive(Clone, Copy, Debug, PartialEq, Eq)]
pub struct Space {
    /// Stripes for the package, the last one perhaps in part.
    pub stripes: u64,
    /// Bytes of each disk for these stripes.
    pub bytes_per_disk: u64,
    /// Whether one disk's free bytes are as many.
    pub fits: bool,
}

/// What a scrub says of a stripe.
#[derive(Clone, Copy, Debug, PartialEq, Eq)]
pub enum Scrub {
    /// The cells of every set XOR to zero.
    Clean,
    /// The stripe is not clean, and replacing the cells of this disk alone can make it so.
    OneDisk(usize),
    /// The stripe is not clean, and no disk's cells alone can make it so.
    MoreThanOne,
}

impl Shape {
    /// A shape of that width p, with that number of data disks k and cell size s. Refuses 1, 13, 2.
    ///
    /// ```
    /// use cuzhaveli::Shape;
    ///
    /// assert!(Shape::new(7, 5, 4096).is_ok());
    /// assert_eq!(Shape::new(7, 8, 4096).unwrap_err().number(), 13);
    /// assert_eq!(Shape::new(7, 7, 4097).unwrap_err().number(), 2);
    /// ```
    pub fn new(width: usize, disks: usize, cell_size: usize) -> Result<Shape, Refusal> {
        let shape = ffi::Shape { width, disks, cell_size };
        // The space call refuses these three numbers and nothing else of an empty package.
        unsafe { ffi::cuzhaveli_package_space(shape, [].as_ptr(), 0, 0) }.answer.accepted()?;
        Ok(Shape(shape))
    }

    /// The width p: the rows of a stripe, and the most data disks.
    ///
    /// ```
    /// # let shape = cuzhaveli::Shape::new(7, 5, 512)?;
    /// assert_eq!(shape.width(), 7);
    /// # Ok::<(), cuzhaveli::Refusal>(())
    /// ```
    pub fn width(self) -> usize {
        self.0.width
    }

    /// The number of data disks k; P is disk k, Q disk k + 1.
    ///
    /// ```
    /// # let shape = cuzhaveli::Shape::new(7, 5, 512)?;
    /// assert_eq!(shape.disks(), 5);
    /// # Ok::<(), cuzhaveli::Refusal>(())
    /// ```
    pub fn disks(self) -> usize {
        self.0.disks
    }

    /// The bytes of a cell.
    ///
    /// ```
    /// # let shape = cuzhaveli::Shape::new(7, 5, 512)?;
    /// assert_eq!(shape.cell_size(), 512);
    /// # Ok::<(), cuzhaveli::Refusal>(())
    /// ```
    pub fn cell_size(self) -> usize {
        self.0.cell_size
    }

    /// The bytes of a disk's part of a stripe, p × s.
    ///
    /// ```
    /// # let shape = cuzhaveli::Shape::new(7, 5, 512)?;
    /// assert_eq!(shape.column_len(), 7 * 512);
    /// # Ok::<(), cuzhaveli::Refusal>(())
    /// ```
    pub fn column_len(self) -> usize {
        self.0.width * self.0.cell_size
    }

    /// The bytes of film in a stripe, k × p × s; they stand first.
    ///
    /// ```
    /// # let shape = cuzhaveli::Shape::new(7, 5, 512)?;
    /// assert_eq!(shape.data_len(), 5 * 7 * 512);
    /// # Ok::<(), cuzhaveli::Refusal>(())
    /// ```
    pub fn data_len(self) -> usize {
        self.0.disks * self.column_len()
    }

    /// The bytes of a stripe, (k + 2) × p × s.
    ///
    /// ```
    /// # let shape = cuzhaveli::Shape::new(7, 5, 512)?;
    /// assert_eq!(shape.stripe_len(), 7 * 7 * 512);
    /// # Ok::<(), cuzhaveli::Refusal>(())
    /// ```
    pub fn stripe_len(self) -> usize {
        (self.0.disks + 2) * self.column_len()
    }

    /// Where a cell stands in a stripe. Panics, as an index does, if the array has no such cell.
    ///
    /// ```
    /// # let shape = cuzhaveli::Shape::new(7, 5, 512)?;
    /// assert_eq!(shape.cell_range(1, 2), (2 * 7 + 1) * 512..(2 * 7 + 2) * 512);
    /// # Ok::<(), cuzhaveli::Refusal>(())
    /// ```
    pub fn cell_range(self, row: usize, disk: usize) -> Range<usize> {
        assert!(
            row < self.0.width && disk < self.0.disks + 2,
            "no cell ({row}, {disk}) in {:?}",
            self.0
        );
        let start = (disk * self.0.width + row) * self.0.cell_size;
        start..start + self.0.cell_size
    }

    /// Where a disk's part stands in a stripe. Panics, as an index does, if the array has no such disk.
    ///
    /// ```
    /// # let shape = cuzhaveli::Shape::new(7, 5, 512)?;
    /// assert_eq!(shape.disk_range(6), 6 * 7 * 512..7 * 7 * 512); // Q, the last
    /// # Ok::<(), cuzhaveli::Refusal>(())
    /// ```
    pub fn disk_range(self, disk: usize) -> Range<usize> {
        assert!(disk < self.0.disks + 2, "no disk {disk} in {:?}", self.0);
        disk * self.column_len()..(disk + 1) * self.column_len()
    }

    /// Writes P and Q, so that the stripe is clean; the film before them stands. Refuses 5.
    ///
    /// ```
    /// let shape = cuzhaveli::Shape::new(3, 3, 1)?;
    /// let mut stripe = [0x01, 0x08, 0x40, 0x02, 0x10, 0x80, 0x04, 0x20, 0x00, 0, 0, 0, 0, 0, 0];
    /// shape.encode(&mut stripe)?;
    /// assert_eq!(stripe[9..], [0x07, 0x38, 0xC0, 0x11, 0x9C, 0x66]);
    /// # Ok::<(), cuzhaveli::Refusal>(())
    /// ```
    pub fn encode(self, stripe: &mut [u8]) -> Result<(), Refusal> {
        let (stripe, stripe_len) = (stripe.as_mut_ptr(), stripe.len());
        unsafe { ffi::cuzhaveli_encode_stripe(self.0, stripe, stripe_len) }.accepted()
    }

    /// Whether the cells of every set XOR to zero. Refuses 5.
    ///
    /// ```
    /// let shape = cuzhaveli::Shape::new(3, 2, 1)?;
    /// let mut stripe = [0; 12];
    /// assert!(shape.is_clean(&stripe)?);
    /// stripe[4] = 1;
    /// assert!(!shape.is_clean(&stripe)?);
    /// # Ok::<(), cuzhaveli::Refusal>(())
    /// ```
    pub fn is_clean(self, stripe: &[u8]) -> Result<bool, Refusal> {
        let (stripe, stripe_len) = (stripe.as_ptr(), stripe.len());
        let checked = unsafe { ffi::cuzhaveli_check_stripe(self.0, stripe, stripe_len) };
        checked.answer.accepted().map(|()| checked.clean.get())
    }

    /// Whether a stripe is clean and, if it is not, which disk it is whose cells alone can be replaced to make it so; at
    /// most one disk is such. Refuses 5.
    ///
    /// ```
    /// use cuzhaveli::Scrub;
    ///
    /// let shape = cuzhaveli::Shape::new(3, 3, 1)?;
    /// let clean = [1, 8, 0x40, 2, 0x10, 0x80, 4, 0x20, 0, 7, 0x38, 0xC0, 0x11, 0x9C, 0x66];
    /// assert_eq!(shape.scrub(&clean)?, Scrub::Clean);
    /// let mut stripe = clean;
    /// stripe[3..6].copy_from_slice(&[0x55, 0x10, 0x99]); // disk 1 returns other bytes
    /// assert_eq!(shape.scrub(&stripe)?, Scrub::OneDisk(1));
    /// let mut column = [0; 3];
    /// shape.rebuild_one(1, &stripe, &mut column)?; // what it should hold
    /// assert_eq!(column, clean[3..6]);
    /// stripe[0] ^= 1; // and disk 0 too
    /// assert_eq!(shape.scrub(&stripe)?, Scrub::MoreThanOne);
    /// # Ok::<(), cuzhaveli::Refusal>(())
    /// ```
    pub fn scrub(self, stripe: &[u8]) -> Result<Scrub, Refusal> {
        let (stripe, stripe_len) = (stripe.as_ptr(), stripe.len());
        let scrubbed = unsafe { ffi::cuzhaveli_scrub_stripe(self.0, stripe, stripe_len) };
        scrubbed.answer.accepted()?;
        Ok(match scrubbed.verdict {
            0 => Scrub::Clean,
            1 => Scrub::OneDisk(scrubbed.disk),
            2 => Scrub::MoreThanOne,
            byte => panic!("libcuzhaveli gave {byte} for a verdict"),
        })
    }

    /// Puts new bytes into the cell of that row and data disk, and keeps the XOR of every set: beside that cell only its
    /// P cell and the Q cells of the one or two diagonals that hold it change, so a clean stripe is as if it had been
    /// encoded anew. Refuses 3, for P and Q too, then 5, then 15 for a row that is not there.
    ///
    /// ```
    /// let shape = cuzhaveli::Shape::new(3, 3, 1)?;
    /// let mut stripe = [1, 8, 0x40, 2, 0x10, 0x80, 4, 0x20, 0, 7, 0x38, 0xC0, 0x11, 0x9C, 0x66];
    /// shape.update_cell(2, 0, &mut stripe, &[0x41])?; // only D 2 holds the cell
    /// assert_eq!(stripe, [1, 8, 0x41, 2, 0x10, 0x80, 4, 0x20, 0, 7, 0x38, 0xC1, 0x11, 0x9C, 0x67]);
    /// assert!(shape.is_clean(&stripe)?);
    /// assert_eq!(shape.update_cell(3, 0, &mut stripe, &[0x41]).unwrap_err().number(), 15);
    /// assert_eq!(shape.update_cell(2, 3, &mut stripe, &[0x41]).unwrap_err().number(), 3); // P
    /// # Ok::<(), cuzhaveli::Refusal>(())
    /// ```
    pub fn update_cell(
        self,
        row: usize,
        disk: usize,
        stripe: &mut [u8],
        cell: &[u8],
    ) -> Result<(), Refusal> {
        let (stripe, stripe_len) = (stripe.as_mut_ptr(), stripe.len());
        let (cell, cell_len) = (cell.as_ptr(), cell.len());
        let answer = unsafe {
            ffi::cuzhaveli_update_cell(self.0, row, disk, stripe, stripe_len, cell, cell_len)
        };
        answer.accepted()
    }

    /// Where the stripe of a server stands among those of several, which lie one after another; the parity server's is
    /// the last.
    ///
    /// ```
    /// # let shape = cuzhaveli::Shape::new(7, 5, 512)?;
    /// assert_eq!(shape.server_range(2), 2 * shape.stripe_len()..3 * shape.stripe_len());
    /// # Ok::<(), cuzhaveli::Refusal>(())
    /// ```
    pub fn server_range(self, server: usize) -> Range<usize> {
        server * self.stripe_len()..(server + 1) * self.stripe_len()
    }

    /// Writes the stripe of a parity server, the last of `servers` + 1 that lie one after another: the XOR of the
    /// others, byte by byte. If they are clean, so is it. Refuses 18 for other than 2 to 16 servers, then 5.
    ///
    /// ```
    /// let shape = cuzhaveli::Shape::new(3, 2, 1)?;
    /// let mut stripes = [[1, 8, 64, 2, 16, 128, 3, 24, 192, 17, 152, 66], [0xFF; 12], [0; 12]].concat();
    /// shape.encode(&mut stripes[shape.server_range(1)])?;
    /// shape.write_server(2, &mut stripes)?;
    /// assert!((0..12).all(|i| stripes[24 + i] == stripes[i] ^ stripes[12 + i]));
    /// assert!(shape.is_clean(&stripes[shape.server_range(2)])?);
    /// # Ok::<(), cuzhaveli::Refusal>(())
    /// ```
    pub fn write_server(self, servers: usize, stripes: &mut [u8]) -> Result<(), Refusal> {
        let (stripes, stripes_len) = (stripes.as_mut_ptr(), stripes.len());
        unsafe { ffi::cuzhaveli_write_server(self.0, servers, stripes, stripes_len) }.accepted()
    }

    /// Rebuilds a lost server, one of `servers` + 1 with the parity server, from the others. These may have lost up to
    /// two disks each, `losses`, [`NO_LOSS`](crate::NO_LOSS) for none: they are mended first, in their places. The lost
    /// server's own pair is not read. If all stripes were clean and the last the XOR of the rest before the losses, all
    /// come back. Refuses 18, 5 (the stripes, then other than `servers` + 1 pairs), then 3 and 4 server by server.
    ///
    /// ```
    /// use cuzhaveli::NO_LOSS;
    ///
    /// let shape = cuzhaveli::Shape::new(3, 2, 1)?;
    /// let mut stripes = [[1, 8, 64, 2, 16, 128, 3, 24, 192, 17, 152, 66], [0xFF; 12], [0; 12]].concat();
    /// shape.encode(&mut stripes[shape.server_range(1)])?;
    /// shape.write_server(2, &mut stripes)?;
    /// let before = stripes.clone();
    /// stripes[shape.server_range(0)].fill(0xEE); // server 0 lost whole
    /// stripes[shape.server_range(1)][..6].fill(0xEE); // disks 0 and 1 of server 1
    /// let losses = [[NO_LOSS; 2], [0, 1], [NO_LOSS; 2]];
    /// shape.rebuild_server(2, 0, &mut stripes, &losses)?;
    /// assert_eq!(stripes, before);
    /// assert_eq!(shape.rebuild_server(2, 3, &mut stripes, &losses).unwrap_err().number(), 18);
    /// # Ok::<(), cuzhaveli::Refusal>(())
    /// ```
    pub fn rebuild_server(
        self,
        servers: usize,
        lost: usize,
        stripes: &mut [u8],
        losses: &[[u8; 2]],
    ) -> Result<(), Refusal> {
        let (stripes, stripes_len) = (stripes.as_mut_ptr(), stripes.len());
        let (losses, losses_len) = (losses.as_ptr().cast(), 2 * losses.len());
        let answer = unsafe {
            ffi::cuzhaveli_rebuild_server(
                self.0,
                servers,
                lost,
                stripes,
                stripes_len,
                losses,
                losses_len,
            )
        };
        answer.accepted()
    }

    /// Opens a run: the rebuild of one disk over so many stripes. Refuses 3.
    ///
    /// ```
    /// let run = cuzhaveli::Shape::new(5, 5, 1)?.open_run(1, 196)?;
    /// assert_eq!((run.next(), run.stripes()), (0, 196));
    /// # Ok::<(), cuzhaveli::Refusal>(())
    /// ```
    pub fn open_run(self, lost: usize, stripes: u32) -> Result<Run, Refusal> {
        let opened = unsafe { ffi::cuzhaveli_open_run(self.0, lost, stripes) };
        opened.answer.accepted().map(|()| Run::new(opened.run))
    }

    /// A run's record from its numbers, as kept in a file. Refuses 3, and 10 where `skipped` is above `next`; a record
    /// whose `next` is above `stripes` can be read, and its steps and skips give 10.
    ///
    /// ```
    /// let shape = cuzhaveli::Shape::new(5, 5, 1)?;
    /// let run = shape.resume_run(1, 196, 100, 40)?;
    /// assert_eq!(run.cells_read(), 60 * 19);
    /// assert_eq!(shape.resume_run(1, 196, 100, 101).unwrap_err().number(), 10);
    /// let mut past = shape.resume_run(1, 196, 197, 40)?;
    /// assert_eq!(past.skip(197).unwrap_err().number(), 10);
    /// # Ok::<(), cuzhaveli::Refusal>(())
    /// ```
    pub fn resume_run(
        self,
        lost: usize,
        stripes: u32,
        next: u32,
        skipped: u32,
    ) -> Result<Run, Refusal> {
        Run::resumed(ffi::Run { shape: self.0, lost, stripes, next, skipped })
    }

    /// The space of a package of files of these lengths, each on stripes of its own, where one disk has so many bytes
    /// free. An empty file takes none. Refuses 14, 11.
    ///
    /// ```
    /// let shape = cuzhaveli::Shape::new(5, 5, 4096)?; // 102,400 bytes a stripe
    /// let space = shape.space(&[102_401, 0, 1], 61_440)?;
    /// assert_eq!((space.stripes, space.bytes_per_disk, space.fits), (3, 61_440, true));
    /// assert_eq!(shape.space(&[102_402], 61_440)?.stripes, 2);
    /// # Ok::<(), cuzhaveli::Refusal>(())
    /// ```
    pub fn space(self, lengths: &[u64], free: u64) -> Result<Space, Refusal> {
        let space =
            unsafe { ffi::cuzhaveli_package_space(self.0, lengths.as_ptr(), lengths.len(), free) };
        space.answer.accepted()?;
        let fits = space.fits.get();
        Ok(Space { stripes: space.stripes, bytes_per_disk: space.bytes, fits })
    }

    pub(crate) fn of(shape: ffi::Shape) -> Shape {
        Shape(shape)
    }
}
