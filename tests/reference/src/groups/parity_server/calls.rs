//! The library's calls that write and rebuild a server's stripe.

use crate::ffi;
use crate::harness::answer::Answer;
use crate::harness::Shape;

/// Writes the last of `servers` + 1 stripes.
pub fn write_server(shape: Shape, servers: usize, stripes: &mut [u8]) -> Answer {
    let (stripes, stripes_len) = (stripes.as_mut_ptr(), stripes.len());
    unsafe { ffi::cuzhaveli_write_server(shape, servers, stripes, stripes_len) }
}

/// Rebuilds one of `servers` + 1 stripes from the others, whose losses are mended first.
pub fn rebuild_server(
    shape: Shape,
    servers: usize,
    lost: usize,
    stripes: &mut [u8],
    losses: &[u8],
) -> Answer {
    let (stripes, stripes_len) = (stripes.as_mut_ptr(), stripes.len());
    let (losses, losses_len) = (losses.as_ptr(), losses.len());
    unsafe {
        ffi::cuzhaveli_rebuild_server(
            shape,
            servers,
            lost,
            stripes,
            stripes_len,
            losses,
            losses_len,
        )
    }
}
