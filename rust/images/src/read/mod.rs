//! Images opened and read: what does not fit its checksum is mended, or is not handed out.

pub mod examine;
pub mod film;
pub mod gaps;
mod holes;
pub mod image;
mod medium;
pub mod reader;
mod rows;
pub mod set;
pub mod source;
pub mod wanted;
pub mod way;
pub mod whole_film;
