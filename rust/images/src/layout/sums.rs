//! The name of a set, on which every checksum depends.

/// Chosen at random for each set, so that no piece and no checksum block of another one fits.
pub type SetName = [u8; 16];
