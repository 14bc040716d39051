//! The library's calls on the layout of images.

use crate::ffi;
pub use crate::ffi::{FilmPlace, Image, Layout, Place, UnitPlace};

pub fn image_bytes(layout: Layout) -> Image {
    unsafe { ffi::cuzhaveli_image_bytes(layout) }
}

pub fn cell_place(layout: Layout, row: usize, stripe: u64) -> Place {
    unsafe { ffi::cuzhaveli_cell_place(layout, row, stripe) }
}

pub fn block_place(layout: Layout, unit: u64) -> Place {
    unsafe { ffi::cuzhaveli_block_place(layout, unit) }
}

pub fn unit_place(layout: Layout, row: usize, unit: u64) -> UnitPlace {
    unsafe { ffi::cuzhaveli_unit_place(layout, row, unit) }
}

pub fn film_place(layout: Layout, byte: u64) -> FilmPlace {
    unsafe { ffi::cuzhaveli_film_place(layout, byte) }
}
