//! The dongle's bytes as floats: (s - 127.5) / 127.5, so 0 is -1.0 and 255 is 1.0.

use crate::error::{accept, Result};
use crate::ffi;

/// Writes the value of each byte of `src` to the same place of `dst`.
///
/// Refused: `Limit`, and `Length` for an odd number of bytes or a `dst` of another length.
pub fn convert(src: &[u8], dst: &mut [f32]) -> Result<()> {
    accept(unsafe { ffi::tl_convert(src.as_ptr(), src.len(), dst.as_mut_ptr(), dst.len()) })
}

/// The same with Q negated, which inverts the spectrum. Refused as [`convert`].
pub fn convert_inverted(src: &[u8], dst: &mut [f32]) -> Result<()> {
    accept(unsafe { ffi::tl_convert_inverted(src.as_ptr(), src.len(), dst.as_mut_ptr(), dst.len()) })
}
