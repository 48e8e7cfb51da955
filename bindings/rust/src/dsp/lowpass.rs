//! The lowpass design.

use crate::error::{accept, Result};
use crate::ffi;

/// More taps than any filter may have: a longer slice would be refused the same.
pub(super) const TOO_MANY: usize = 771;

/// The taps of a lowpass filter with a Hamming window, which add up to 1. The cutoff is a fraction of the sample
/// rate.
///
/// Refused: `Setting` for a number of taps that is even or not from 3 to 769, and for a cutoff below 1/1024 or from 0.5
/// on.
pub fn design_lowpass(num_taps: usize, cutoff: f32) -> Result<Vec<f32>> {
    let mut taps = vec![0.0; num_taps.min(TOO_MANY)];
    accept(unsafe { ffi::tl_design_lowpass(taps.as_mut_ptr(), taps.len(), cutoff) })?;
    Ok(taps)
}
