//! What the commands do on a bare set: a folder of images.

pub mod check;
pub mod decode;
pub mod encode;
pub mod info;
pub mod rebuild;
pub mod repair;
